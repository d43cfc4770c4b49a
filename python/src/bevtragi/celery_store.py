"""A dictionary that answers a client of Redis, as far as Celery's result backend asks one.

The commands are those of https://redis.io/docs/latest/commands/ with the same names. Keys have no
end here, and there is one client, so that a pipeline runs each command as it comes.
"""

from __future__ import annotations

from collections import deque
from typing import Any, Callable, Deque, Dict, Iterable, List, Set, Union

__all__ = ["NothingComes", "Store"]

Key = Union[str, bytes]

#: The polls of a subscription that find nothing before it is sure that nothing comes.
PATIENCE = 2


class NothingComes(Exception):
    """A subscriber waits for a message, and there is nobody left who could send it."""


class Store:
    """The keys of a Redis, and those who listen to its channels."""

    def __init__(self) -> None:
        self.values: Dict[bytes, Any] = {}
        self.subscriptions: List[Subscription] = []

    def get(self, key: Key) -> bytes | None:
        return self.values.get(_bytes(key))

    def mget(self, keys: Iterable[Key]) -> list[bytes | None]:
        return [self.get(key) for key in keys]

    def set(self, key: Key, value: Any) -> bool:
        self.values[_bytes(key)] = _bytes(value)
        return True

    def setex(self, key: Key, _seconds: Any, value: Any) -> bool:
        return self.set(key, value)

    def expire(self, _key: Key, _seconds: Any) -> bool:
        return True

    def incr(self, key: Key, amount: int = 1) -> int:
        count = int(self.get(key) or 0) + amount
        self.set(key, count)
        return count

    def delete(self, *keys: Key) -> int:
        return sum(self.values.pop(_bytes(key), None) is not None for key in keys)

    def zadd(self, key: Key, scores: Dict[Key, Any]) -> int:
        members = self.values.setdefault(_bytes(key), {})
        before = len(members)
        members.update((_bytes(member), float(score)) for member, score in scores.items())
        return len(members) - before

    def zcount(self, key: Key, _least: Any, _most: Any) -> int:
        """The number of members; Celery asks from -inf to +inf only."""
        return len(self.values.get(_bytes(key), {}))

    def zrange(self, key: Key, start: int, end: int) -> list[bytes]:
        members = self.values.get(_bytes(key), {})
        return _from_to(sorted(members, key=lambda it: (members[it], it)), start, end)

    def rpush(self, key: Key, *values: Any) -> int:
        found = self.values.setdefault(_bytes(key), [])
        found.extend(map(_bytes, values))
        return len(found)

    def llen(self, key: Key) -> int:
        return len(self.values.get(_bytes(key), []))

    def lrange(self, key: Key, start: int, end: int) -> list[bytes]:
        return _from_to(self.values.get(_bytes(key), []), start, end)

    def publish(self, channel: Key, message: Any) -> int:
        found = [it for it in self.subscriptions if _bytes(channel) in it.channels]
        for it in found:
            it.messages.append({"type": "message", "pattern": None, "channel": _bytes(channel),
                                "data": _bytes(message)})
        return len(found)

    def pubsub(self, **_options: Any) -> Subscription:
        self.subscriptions.append(Subscription())
        return self.subscriptions[-1]

    def pipeline(self, **_options: Any) -> Pipeline:
        return Pipeline(self)


class Subscription:
    """Who listens to some channels."""

    def __init__(self) -> None:
        self.channels: Set[bytes] = set()
        self.messages: Deque[Dict[str, Any]] = deque()
        self.idle = 0

    def subscribe(self, *channels: Key) -> None:
        self.channels.update(map(_bytes, channels))

    def unsubscribe(self, *channels: Key) -> None:
        self.channels.difference_update(map(_bytes, channels))

    def get_message(self, timeout: float | None = None) -> dict[str, Any] | None:
        """The next message, or None for a poll that finds none. Raises NothingComes."""
        if self.messages:
            self.idle = 0
            return self.messages.popleft()
        self.idle += 1
        if self.idle > PATIENCE:
            raise NothingComes
        return None

    def close(self) -> None:
        self.channels.clear()


class Pipeline:
    """Commands whose replies are asked for together."""

    def __init__(self, store: Store) -> None:
        self.store, self.replies = store, []  # type: Store, List[Any]

    def __enter__(self) -> Pipeline:
        return self

    def __exit__(self, *_: Any) -> None:
        self.replies = []

    def __getattr__(self, name: str) -> Callable[..., Pipeline]:
        command = getattr(self.store, name)

        def queued(*args: Any, **kwargs: Any) -> Pipeline:
            self.replies.append(command(*args, **kwargs))
            return self
        return queued

    def execute(self) -> list[Any]:
        replies, self.replies = self.replies, []
        return replies


def _bytes(value: Any) -> bytes:
    return value if isinstance(value, bytes) else str(value).encode()


def _from_to(values: list[bytes], start: int, end: int) -> list[bytes]:
    """The values from one place to another, with both; -1 is the last one."""
    return values[start:] if end == -1 else values[start:end + 1]
