"""A Redis in a dictionary for starts, and an application of Celery that uses it, without Celery."""

import base64
import contextlib
import json
from types import SimpleNamespace


class RedisError(Exception):
    """What the server answers as an error."""


class Server:
    """Databases of keys, as far as a start and its Run use them. `published` are the messages of
    channels."""

    def __init__(self, run_id="one"):
        self.databases, self.published, self.run_id = {}, [], run_id
        self.listeners = []

    def client(self, database=0, **connection):
        return Client(self, database, {"host": "here", "port": 6379, "db": database, **connection})


class Client:
    """A client of one database. `asked` are the keys of each look at the results."""

    def __init__(self, server, database, connection):
        self.server, self.database, self.asked = server, database, []
        self.connection_pool = SimpleNamespace(connection_kwargs=connection)

    @property
    def keys(self):
        return self.server.databases.setdefault(self.database, {})

    def info(self, _section):
        return {"run_id": self.server.run_id}

    def exists(self, key):
        return int(key in self.keys)

    def mget(self, keys):
        self.asked.append(keys)
        return [self.keys.get(key) for key in keys]

    def execute_command(self, *words):
        name, *words = [it.decode() if isinstance(it, bytes) else it for it in words]
        return getattr(self, name.lower())(*words)

    def set(self, key, text, *options):
        if "NX" in options and key in self.keys:
            return None
        self.keys[key] = text
        return True

    def publish(self, channel, text):
        self.server.published.append((channel, text))
        for it in self.server.listeners:
            it.hear(channel, text)
        return len(self.server.listeners)

    def pubsub(self):
        self.server.listeners.append(Listener())
        return self.server.listeners[-1]

    def eval(self, script, count, *words):
        """What the program's script does, and that of the package for several lists."""
        count, several = int(count), "local lists" in script
        (marker, *keys), (expires, own, brokers, *more) = words[:count], words[count:]
        lists = int(more.pop(0)) if several else 1
        queues, sizes = keys[:lists], keys[lists:]
        counts, texts, whole = more[:len(sizes)], more[len(sizes):-1], more[-1]
        pairs = [*zip(texts[::2], texts[1::2])] if several else [(1, it) for it in texts]
        assert whole == "whole" and int(expires)
        results = self if own == "" else self.server.client(int(own))
        broker = self if brokers == "" else self.server.client(int(brokers))
        if not all(isinstance(broker.keys.get(it, []), list) for it in queues):
            raise RedisError("QUEUE nothing was started: the key of the queue is no list")
        if marker in results.keys:
            raise RedisError("STARTED nothing was started: this run was started before")
        results.keys.update(zip(sizes, counts))
        results.keys[marker] = "started"
        for at, text in pairs:
            broker.keys.setdefault(queues[int(at) - 1], []).insert(0, text)
        return len(texts)


class Listener:
    """Who listens to channels."""

    def __init__(self):
        self.channels, self.told, self.is_closed = set(), [], False

    def subscribe(self, *channels):
        for it in channels:
            self.channels.add(it)
            self.told.append({"type": "subscribe", "channel": it.encode(),
                              "data": len(self.channels)})

    def hear(self, channel, text):
        if channel in self.channels:
            self.told.append({"type": "message", "channel": channel.encode(),
                              "data": text.encode()})

    def close(self):
        self.is_closed = True
        self.channels.clear()

    def get_message(self, ignore_subscribe_messages=False):
        found = self.told.pop(0) if self.told else None
        is_ignored = ignore_subscribe_messages and found and found["type"] == "subscribe"
        return None if is_ignored else found


def messages(client, queue="celery"):
    """The headers, properties and body of each message in a queue, the first one first."""
    found = [json.loads(it) for it in client.keys.get(queue, [])][::-1]
    return [(it["headers"], it["properties"], json.loads(base64.b64decode(it["body"])))
            for it in found]


class RedisBackend:
    """A result backend of Redis, by the name of its class."""

    def __init__(self, client, prefix="", expires=3600):
        self.client, self.expires = client, expires
        self.task_keyprefix = f"{prefix}celery-task-meta-".encode()


class AMQPBackend:
    """Another result backend."""


class Conf(dict):
    """Settings, by their names."""

    __getattr__ = dict.__getitem__


SETTINGS = {"task_serializer": "json", "result_serializer": "json", "accept_content": ["json"],
            "task_always_eager": False, "task_ignore_result": False, "task_default_queue": "orders",
            "broker_transport_options": {}}


class App:
    """An application. `routes` are the queues of tasks, and `connections` how often the broker was
    asked for."""

    def __init__(self, server=None, backend=None, broker=None, kind="redis", before="", routes={},
                 tasks={}, **settings):
        server = server or Server()
        self.conf = Conf({**SETTINGS, **settings})
        self.backend = backend or RedisBackend(server.client())
        self.tasks, self.connections = tasks, 0
        self._broker = SimpleNamespace(client=broker or server.client(), global_keyprefix=before)
        self._kind = kind
        self.amqp = SimpleNamespace(router=SimpleNamespace(
            route=lambda options, name, args, kwargs, task_type: {**options, "queue": SimpleNamespace(
                name=options.get("queue") or routes.get(name, "orders"))}))

    @contextlib.contextmanager
    def connection_or_acquire(self):
        self.connections += 1
        yield SimpleNamespace(transport=SimpleNamespace(driver_type=self._kind),
                              ensure_connection=lambda max_retries: None,
                              default_channel=self._broker)

    def AsyncResult(self, identifier):
        return ("result", identifier)

    def GroupResult(self, identifier, results):
        return ("results", identifier, results)
