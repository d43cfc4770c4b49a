"""Options of signatures that a start heeds: which ones, and what they have to be.

Celery's workers send the tasks that come after others, by the options of their frozen signatures.
The messages of the first tasks are the start's own, so it does what `apply_async()` does with them.
"""

from __future__ import annotations

import datetime
from typing import Any, Callable, Dict, Tuple

from .errors import BadCall, hidden
from .lines import Lines

__all__ = ["Options", "date_of", "taken"]

__tracebackhide__ = hidden

Options = Dict[str, Any]

#: How many seconds there may be. Python has no date that is much later.
LONGEST = 10 ** 10
#: What the messages of a start have already. No header of the user's own takes its place.
OWN_HEADERS = ("group", "group_index", "id", "lang", "parent_id", "root_id", "task")


def date_of(value: Any) -> datetime.datetime | None:
    """The date and time that JSON has as a text, or as kombu writes it since 5.3."""
    if isinstance(value, datetime.datetime):
        return value
    if isinstance(value, dict) and value.get("__type__") == "datetime":
        value = value.get("__value__")
    try:
        return datetime.datetime.fromisoformat(value.replace("Z", "+00:00"))
    except (AttributeError, TypeError, ValueError):
        return None


def _is_seconds(value: Any) -> bool:
    return isinstance(value, (int, float)) and not isinstance(value, bool) and abs(value) < LONGEST


def _is_date(value: Any) -> bool:
    return date_of(value) is not None


def _is_text(value: Any) -> bool:
    return isinstance(value, str) and bool(value)


#: The options that are heeded, and what each of them is.
HEEDED: Dict[str, Tuple[Callable[[Any], bool], str]] = {
    "argsrepr": (_is_text, "a text"),
    "countdown": (_is_seconds, "a number of seconds below 10^10"),
    "eta": (_is_date, "a date and time"),
    "expires": (lambda it: _is_seconds(it) or _is_date(it),
                "a number of seconds below 10^10, or a date and time"),
    "headers": (lambda it: isinstance(it, dict), "a dictionary"),
    "ignore_result": (lambda it: isinstance(it, bool), "true or false"),
    "kwargsrepr": (_is_text, "a text"),
    "priority": (lambda it: type(it) is int, "a whole number"),
    "queue": (_is_text, "the name of a queue"),
    "shadow": (_is_text, "a text"),
    "soft_time_limit": (_is_seconds, "a number of seconds below 10^10"),
    "time_limit": (_is_seconds, "a number of seconds below 10^10"),
}

#: Those that only Celery heeds, as it sends a task that comes after another one.
HEEDED_LATER = ("compression", "delivery_mode", "exchange", "retry", "retry_policy", "routing_key",
                "serializer")


def taken(lines: Lines) -> Dict[int, Options]:
    """Takes the options that are heeded off the signatures of a canvas, and gives them by the
    numbers of their tasks. Raises BadCall for an option of another kind."""
    firsts, found = {*lines.firsts()}, {}
    without_priority = lines.without_priority()
    for number, sig in lines.signatures.items():
        options = sig.get("options") or {}
        _check(options, f"#{number} {sig['task']}")
        names = {*HEEDED, *(HEEDED_LATER if number not in firsts else ())}
        if number in without_priority:
            names.remove("priority")
        if number not in firsts and isinstance(options.get("expires"), str):
            names.remove("expires")  # workers of Celery 5.2 can't send a task with such a text
        own = {name: options.pop(name) for name in sorted(names) if options.get(name) is not None}
        _leave_own_headers(options, own)
        found.update({number: own} if own else {})
    return found


def _check(options: Options, whose: str) -> None:
    for name, (fits, kind) in HEEDED.items():
        if options.get(name) is not None and not fits(options[name]):
            raise BadCall(f"{name} of {whose} is {kind}, not {options[name]!r:.60}")


def _leave_own_headers(options: Options, own: Options) -> None:
    """Leaves headers that a start's messages have already with the options that aren't heeded."""
    headers = own.pop("headers", {})
    heeded = {key: it for key, it in headers.items() if key not in OWN_HEADERS}
    own.update({"headers": heeded} if heeded else {})
    left = {key: it for key, it in headers.items() if key in OWN_HEADERS}
    options.update({"headers": left} if left else {})
