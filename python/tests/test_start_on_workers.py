"""Starts on a real Celery worker, with a Redis of the test's own: the broker's keys have a prefix,
and the results are in another database. Left out if Celery or redis-server isn't there."""

import contextlib
import datetime
import decimal
import importlib
import os
import shutil
import signal
import subprocess
import sys
import tempfile
import time
import unittest
import uuid
import warnings
from pathlib import Path

HERE = Path(__file__).resolve().parent
sys.path[:0] = [str(HERE.parent / "src"), str(HERE)]

try:
    import celery
    import redis
except ImportError:
    celery = None

from test_start import VALUES
from bevtragi import CanvasError, NotEnded, StartedBefore, run_of, start

SECONDS = 60
NUMBER = "ab" * 11


def server(room, *words):
    """A Redis on a socket in a folder."""
    return subprocess.Popen(["redis-server", "--port", "0", "--dir", room, "--save", "",
                             "--appendonly", "no", *words], stdout=subprocess.DEVNULL,
                            stderr=subprocess.DEVNULL, start_new_session=True)


def worker(module="start_tasks", queues="starts", processes="2"):
    words = [sys.executable, "-B", "-m", "celery", "-A", module, "worker", "-Q", queues,
             "-n", "starts@localhost", "-c", processes, "--without-gossip", "--without-mingle",
             "--without-heartbeat"]
    return subprocess.Popen(words, cwd=HERE, stdout=subprocess.DEVNULL, stderr=subprocess.DEVNULL,
                            start_new_session=True)


def until(holds):
    """Waits until something holds."""
    end = time.monotonic() + SECONDS
    while time.monotonic() < end:
        with contextlib.suppress(redis.RedisError):
            if holds():
                return
        time.sleep(0.05)
    raise TimeoutError("it doesn't come")


@unittest.skipIf(celery is None or shutil.which("redis-server") is None,
                 "Celery or redis-server isn't installed")
class OnWorkers(unittest.TestCase):
    module = "start_tasks"
    words, urls = ("--unixsocket", "{room}/redis.sock"), (
        "redis+socket://{room}/redis.sock?virtual_host=1",
        "redis+socket://{room}/redis.sock?virtual_host=3")

    @classmethod
    def setUpClass(cls):
        shown = warnings.catch_warnings()
        shown.__enter__()
        cls.addClassCleanup(shown.__exit__, None, None, None)
        warnings.simplefilter("ignore")
        cls.room = tempfile.mkdtemp()
        cls.addClassCleanup(shutil.rmtree, cls.room, ignore_errors=True)
        cls.prepare()
        cls.begin(server(cls.room, *(it.format(room=cls.room) for it in cls.words)))
        before = {key: os.environ.get(key) for key in ("START_BROKER", "START_RESULTS")}
        cls.addClassCleanup(cls.restore, before)
        os.environ.update(zip(before, (it.format(room=cls.room) for it in cls.urls)))
        cls.forget()
        cls.tasks = importlib.import_module(cls.module)
        cls.app = cls.tasks.app
        cls.addClassCleanup(cls.listen_no_more)
        until(lambda: cls.app.backend.client.ping())

    @classmethod
    def prepare(cls):
        """What is done before the server starts."""

    @classmethod
    def forget(cls):
        for name in ("start_tasks", cls.module):
            sys.modules.pop(name, None)

    @classmethod
    def restore(cls, before):
        cls.forget()
        for key, value in before.items():
            os.environ.pop(key) if value is None else os.environ.update({key: value})

    @classmethod
    def listen_no_more(cls):
        """Has results of Celery that are collected later not ask a server that is gone."""
        cls.app.backend.result_consumer._pubsub = None

    @classmethod
    def begin(cls, process):
        def end():
            with contextlib.suppress(ProcessLookupError):
                os.killpg(process.pid, signal.SIGKILL)
            process.wait(SECONDS)
        cls.addClassCleanup(end)

    def setUp(self):
        self.app.backend.client.flushall()


class Working(OnWorkers):
    """With a worker."""

    @classmethod
    def setUpClass(cls):
        super().setUpClass()
        cls.begin(worker())

    def start_and_wait(self):
        run = start(self.tasks.echo.s(1) | self.tasks.fail.s() | self.tasks.both.s(), self.app)
        self.assertEqual(run.wait(SECONDS).ran, ["it.echo", "it.fail"])
        run.settle()
        with self.assertRaises(self.tasks.Lost):
            run.result.get(SECONDS)


class Sockets(Working):
    """By a socket."""

    def test_a_start_its_wait_and_its_end(self):
        self.start_and_wait()

    def test_any_argument_arrives(self):
        echo, both = self.tasks.echo, self.tasks.both
        values = [*VALUES, datetime.date(2026, 11, 30), decimal.Decimal("19.00"), uuid.UUID(int=7)]
        keywords = {f"k{number}": it for number, it in enumerate(values)}
        flow = echo.s(*values, **keywords) | both.s({"own": None}, deep=[1.5]) | both.s("last")
        run = start(flow, self.app)
        report = run.wait(SECONDS)
        wanted = echo.apply_async(values, keywords).get(SECONDS)
        found = self.app.AsyncResult(run.keys[0][-36:]).get(SECONDS)
        self.assertEqual(found, wanted)
        self.assertEqual([*map(type, found[0])], [*map(type, wanted[0])])
        self.assertEqual(report.result[1:], [["last"], {}])
        self.assertEqual(report.result[0][1:], [[{"own": None}], {"deep": [1.5]}])
        self.assertEqual(run.result.get(SECONDS), [[wanted, [{"own": None}], {"deep": [1.5]}],
                                                   ["last"], {}])

    def test_a_failure_reaches_who_waits(self):
        echo, tasks = self.tasks.echo, self.tasks
        after = celery.chord([echo.s(1), echo.s(2)], tasks.both.s())
        run = start(tasks.fail.s().on_error(tasks.alarm.s({"why": 1.5})) | after, self.app)
        report = run.wait(SECONDS)
        self.assertEqual(report.ran, ["it.fail", "it.alarm"])
        self.assertEqual(report[2].result, {"why": 1.5})
        self.assertEqual(run.settle(), ["it.echo", "it.echo", "it.both"])
        with self.assertRaises(tasks.Lost) as found:
            run.result.get(SECONDS)
        self.assertEqual(found.exception.args, ("A-17", 2))
        self.assertEqual(run.report(), report)

    def test_who_waits_already_is_told(self):
        tasks = self.tasks
        flow = tasks.fail.s() | celery.group(tasks.echo.s(1), tasks.echo.s(2))
        run = start(flow, self.app)
        result = run.result.results[1]
        self.assertEqual(result.state, "PENDING")
        run.wait(SECONDS)
        import threading
        threading.Timer(0.5, run.settle).start()
        with self.assertRaises(tasks.Lost):
            result.get(SECONDS)

    def test_a_chord_error(self):
        tasks = self.tasks
        parts = [tasks.echo.s(1), tasks.fail.s(2)]
        flow = celery.chord(parts, tasks.both.s()) | tasks.both.s("more")
        run = start(flow, self.app)
        report = run.wait(SECONDS)
        self.assertEqual(str(report.result), "ChordError: Dependency #2 raised Lost")
        run.settle()
        with self.assertRaisesRegex(celery.exceptions.ChordError, run.keys[1][-36:]):
            run.result.get(SECONDS)

    def test_keys_are_where_the_worker_looks(self):
        run = start(self.tasks.echo.s(1), self.app)
        run.wait(SECONDS)
        client = self.app.backend.client
        found = {it.decode() for it in client.keys("*")}
        self.assertEqual(client.connection_pool.connection_kwargs["db"], 3)
        self.assertIn(run.keys[0], found)
        prefix = self.app.backend.task_keyprefix.decode()
        self.assertTrue(run.keys[0].startswith(prefix))
        self.assertIn(f"{prefix[:-len('celery-task-meta-')]}canvas-run-{run.number}", found)


class Alone(OnWorkers):
    """Without a worker."""

    def test_a_queue_that_nobody_works_on(self):
        run = start(self.tasks.echo.s(1) | self.tasks.both.s(), self.app)
        with self.assertRaisesRegex(NotEnded, r"waits for #1 it\.echo: does a worker take"):
            run.wait(0.5)

    def test_two_processes_start_once(self):
        text = ("import sys, warnings; warnings.simplefilter('ignore');"
                f"sys.path[:0] = [{str(HERE.parent / 'src')!r}, {str(HERE)!r}];"
                "import bevtragi, start_tasks\n"
                "print('ready', flush=True); sys.stdin.readline()\n"
                "try: bevtragi.start(start_tasks.echo.s(1) | start_tasks.both.s(),"
                f" start_tasks.app, number='{NUMBER}'); print('started')\n"
                "except bevtragi.StartedBefore: print('before')")
        both = [subprocess.Popen([sys.executable, "-B", "-c", text], stdin=subprocess.PIPE,
                                 stdout=subprocess.PIPE, text=True) for _ in range(2)]
        for it in both:
            self.assertEqual(it.stdout.readline(), "ready\n")
        for it in both:
            it.stdin.write("\n")
            it.stdin.flush()
        self.assertEqual(sorted(it.communicate()[0] for it in both), ["before\n", "started\n"])
        with self.app.connection_for_write() as connection:
            channel = connection.channel()
            self.assertEqual(channel.client.llen("starts"), 1)
        again = run_of(NUMBER, self.tasks.echo.s(2) | self.tasks.both.s(), self.app)
        self.assertEqual(again.report().due(), ["#1 it.echo"])

    def test_a_start_that_fails_leaves_nothing(self):
        flow = self.tasks.echo.s(1)
        with self.app.connection_for_write() as connection:
            plain = redis.Redis(connection_pool=connection.channel().client.connection_pool)
            plain.set("{own}starts", "text")
            with self.assertRaisesRegex(CanvasError, "the key of the queue is no list"):
                start(flow, self.app, number=NUMBER)
            self.assertEqual(self.app.backend.client.dbsize(), 0)
            plain.delete("{own}starts")
        start(flow, self.app, number=NUMBER)
        with self.assertRaises(StartedBefore):
            start(flow, self.app, number=NUMBER)

    def test_no_redis_is_a_sentence(self):
        from celery import Celery
        url = f"redis+socket://{self.room}/none.sock"
        app = Celery("none", broker=url, backend=url, set_as_current=False)
        with self.assertRaisesRegex(CanvasError, "the broker can't be used: "):
            start(self.tasks.echo.s(1), app)
        results = Celery("none", broker=self.app.conf.broker_url, backend="rpc://",
                         set_as_current=False)
        with self.assertRaisesRegex(CanvasError, "the result backend is a RPCBackend"):
            start(self.tasks.echo.s(1), results)
        broker = Celery("none", broker="amqp://127.0.0.1:1//", backend=self.app.conf.result_backend,
                        set_as_current=False)
        with self.assertRaisesRegex(CanvasError, "the broker is amqp"):
            start(self.tasks.echo.s(1), broker)


@unittest.skipIf(shutil.which("openssl") is None, "openssl isn't installed")
class Tls(Working):
    """By TLS, on a port of this machine."""

    def test_a_start_its_wait_and_its_end(self):
        self.start_and_wait()

    @classmethod
    def prepare(cls):
        import socket
        with socket.socket() as free:
            free.bind(("127.0.0.1", 0))
            port = free.getsockname()[1]
        subprocess.run(["openssl", "req", "-x509", "-newkey", "rsa:2048", "-nodes", "-days", "2",
                        "-subj", "/CN=localhost", "-keyout", f"{cls.room}/key", "-out",
                        f"{cls.room}/cert"], check=True, stderr=subprocess.DEVNULL)
        cls.words = ("--tls-port", str(port), "--bind", "127.0.0.1", "--tls-cert-file",
                     "{room}/cert", "--tls-key-file", "{room}/key", "--tls-ca-cert-file",
                     "{room}/cert", "--tls-auth-clients", "no")
        cls.urls = (f"rediss://127.0.0.1:{port}/1?ssl_cert_reqs=none",
                    f"rediss://127.0.0.1:{port}/3?ssl_cert_reqs=none")


if __name__ == "__main__":
    unittest.main()
