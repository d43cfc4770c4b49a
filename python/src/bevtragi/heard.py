"""The ends of tasks as Celery's workers tell them on the channels of Redis.

A worker stores a result and publishes it. If a task retries at once, another process may store its
end before the first one stores that it retries: the stored state is then RETRY forever, and only
who listened knows the end.
"""

from __future__ import annotations

import contextlib
import json
from typing import Any, Dict, List, Union

from .errors import hidden

__all__ = ["ENDS", "Heard"]

__tracebackhide__ = hidden

#: The states of tasks that have ended. REVOKED is a failure without a call.
ENDS = ("SUCCESS", "FAILURE", "REVOKED")

Text = Union[str, bytes]


class Heard:
    """The messages of some channels from now on. Without a connection nothing is heard: what is
    stored counts, and this only adds to it. The connection is given back by close(), and at the
    latest as soon as nobody has this object."""

    def __init__(self, client: Any, channels: List[str]) -> None:
        self._ends: Dict[str, Text] = {}
        self._listener: Any = None
        try:
            if channels:
                self._listener = client.pubsub()
                self._listener.subscribe(*channels)
        except Exception:
            self._listener = None

    def close(self) -> None:
        """Hears nothing from now on. What was heard stays."""
        self.ends()
        listener, self._listener = self._listener, None
        with contextlib.suppress(Exception):
            listener.close()

    def __del__(self) -> None:
        # The listener and its connection may have each other. Python would find such a pair at any
        # moment, as while this thread takes a connection, and giving this one back would wait for
        # that.
        with contextlib.suppress(Exception):
            self._listener.close()

    def ends(self) -> Dict[str, Text]:
        """The results of tasks that ended, by channel."""
        while self._listener is not None:
            try:
                told = self._listener.get_message()  # also one that it listens to a channel
            except Exception:
                self._listener = told = None
            if told is None:
                break
            self._take(told)
        return self._ends

    def _take(self, told: Any) -> None:
        try:
            channel, text = told["channel"], told["data"]
            if json.loads(text)["status"] in ENDS:
                name = channel.decode() if isinstance(channel, bytes) else channel
                self._ends[name] = text
        except (LookupError, TypeError, ValueError, AttributeError):
            pass  # it isn't Celery's
