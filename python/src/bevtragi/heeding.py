"""Options in the messages of a start.

The program writes the messages, and its statement says which. Options are added to them here: to
the headers and properties of the message itself, and to the frozen signatures of later tasks in its
body. Nothing else of a message changes, and one without options stays as it was, byte for byte.
"""

from __future__ import annotations

import base64
import datetime
import json
from typing import Any, Dict, Iterator, List, Mapping

from .errors import hidden
from .marking import Tree, callbacks_of, kind_of, members_of
from .options import Options, date_of

__all__ = ["ByNumber", "with_options"]

__tracebackhide__ = hidden

#: Options that are headers of the same name.
HEADERS = ("argsrepr", "ignore_result", "kwargsrepr", "shadow")
#: The signatures in the last part of a body.
LISTS = ("callbacks", "chain", "errbacks")

#: Options by the tasks' numbers.
ByNumber = Mapping[int, Options]


def with_options(text: bytes, firsts: ByNumber, later: ByNumber, now: datetime.datetime
                 ) -> tuple[bytes, Options]:
    """A message of the program with options: those of its own task, with which Celery's
    `apply_async()` would send it at this moment, and those of the tasks after it. With it come the
    options of its own task."""
    message = json.loads(text)
    first = firsts[_number_of(message["headers"]["id"])]
    message["headers"].update(_headers(first, now))
    message["properties"].update(_properties(first, now))
    message["properties"]["delivery_info"]["routing_key"] = first["queue"]
    body = json.loads(base64.b64decode(message["body"])) if later else None
    if body is not None and _put(body[2], later):
        message["body"] = base64.b64encode(json.dumps(body).encode()).decode()
    return text if message == json.loads(text) else json.dumps(message).encode(), first


def _number_of(identifier: str) -> int:
    """The number of the task that has an identifier of a run."""
    return int(identifier[-8:], 16)


def _headers(first: Options, now: datetime.datetime) -> Tree:
    found = {name: first[name] for name in HEADERS if name in first}
    if first.get("countdown"):
        found["eta"] = _moment(first["countdown"], now).isoformat()
    elif "eta" in first:
        found["eta"] = _moment(first["eta"], now).isoformat()
    if "expires" in first:
        found["expires"] = _moment(first["expires"], now).isoformat()
    if "time_limit" in first or "soft_time_limit" in first:
        found["timelimit"] = [first.get("time_limit"), first.get("soft_time_limit")]
    return {**found, **first.get("headers", {})}


def _properties(first: Options, now: datetime.datetime) -> Tree:
    found = {"priority": first["priority"]} if "priority" in first else {}
    if "expires" in first:
        left = (_aware(_moment(first["expires"], now)) - now).total_seconds()
        found["expiration"] = str(int(1000 * max(left, 0)))
    return found


def _moment(value: Any, now: datetime.datetime) -> datetime.datetime:
    """The moment of a date, or of a number of seconds from now."""
    return date_of(value) or now + datetime.timedelta(seconds=value)


def _aware(moment: datetime.datetime) -> datetime.datetime:
    """A moment of UTC, if it has no zone of its own."""
    return moment if moment.tzinfo else moment.replace(tzinfo=datetime.timezone.utc)


def _put(parts: Tree, later: ByNumber) -> bool:
    """Puts options into the frozen signatures of a body, and says whether there are any."""
    has_any = False
    for sig in _frozen(parts):
        own = later.get(_number_of(sig["options"]["task_id"]), {})
        sig["options"].update(own)
        has_any = has_any or bool(own)
    return has_any


def _frozen(parts: Tree) -> Iterator[Tree]:
    """The frozen signatures of tasks in a body."""
    waiting: List[Any] = [parts.get("chord"), *(it for key in LISTS for it in parts.get(key) or ())]
    while waiting:
        sig = waiting.pop()
        if not isinstance(sig, dict):
            continue
        options: Dict[str, Any] = sig["options"]
        if kind_of(sig) is None:
            yield sig
        waiting += [*members_of(sig), options.get("chord"), *options.get("chain", ()),
                    *callbacks_of(sig, "link"), *callbacks_of(sig, "link_error")]
