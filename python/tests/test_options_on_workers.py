"""Options on a real Celery worker: each task of a canvas that start() starts has those that it has
by `apply_async()`. Left out if Celery or redis-server isn't there."""

import datetime
import json
import unittest

from test_start_on_workers import NUMBER, SECONDS, OnWorkers, celery, until, worker
from bevtragi import CanvasError, StartedBefore, start
from bevtragi.start_commands import SCRIPT

if celery is not None:
    import redis
    from celery import chain, chord, group


class Options(OnWorkers):
    module = "option_tasks"

    @classmethod
    def setUpClass(cls):
        super().setUpClass()
        cls.begin(worker(cls.module, cls.tasks.QUEUES, "4"))

    def signature(self, label, name="shown", **more):
        """A signature with each option, which no other one has alike."""
        number = self.count = self.count + 1
        sig = getattr(self.tasks, name).s(how=self.how, label=label).set(
            countdown=0.01 * number, expires=1000 + 100 * number, priority=number % 10,
            headers={"own_header": label}, queue="other" if number % 2 else "third",
            time_limit=100 + number, soft_time_limit=50 + number, shadow=f"shown as {label}",
            argsrepr="own", kwargsrepr="own")
        sig.set(**more)
        return sig

    def line(self):
        one = self.signature
        first = one("a")
        first.link(one("link"))
        body = one("f", priority=0)  # which workers forget if a task comes before
        return first | one("b") | chord([one("c"), chain(one("d"), one("e")), one("k", "classed")],
                                        body) | one("g") | group(one("h"), one("i"))

    def failing(self):
        one = self.signature
        fails, body = one("fail", "fail"), one("body")
        fails.link_error(one("alarm", "alarm"))
        body.link_error(one("alarm of the body", "alarm"))
        return chord([fails, one("m"), chain(one("p"), chord([one("q"), one("r")], one("s")))], body)

    def nested(self):
        one = self.signature
        return chord([chord([one("a")], one("b")), one("c")], chord([one("d"), one("e")], one("f")))

    def few(self):
        """Options of classes and routes, and some of the signatures' own."""
        tasks, how = self.tasks, self.how
        date = datetime.datetime.now(datetime.timezone.utc) + datetime.timedelta(hours=1)
        def one(name, label, **options):
            return getattr(tasks, name).s(how=how, label=label).set(**options)
        return group(one("classed", "a") | one("classed", "b") | one("routed", "c"),
                     one("routed", "d"), one("routed", "e", queue="third"),
                     one("classed", "f", priority=2, expires=500), one("shown", "g", expires=date),
                     one("shown", "h", eta=date - datetime.timedelta(hours=2))
                     | one("shown", "i", eta=date - datetime.timedelta(hours=3)))

    def test_tasks_have_the_options_that_they_have_by_apply_async(self):
        self.app.set_current()  # nested canvases of Celery 5.2 look for it
        store, flows = self.app.backend.client, ("line", "failing", "nested", "few")
        started = {}
        for name in flows:
            for way in ("start", "apply_async"):
                self.how, self.count = f"{name} {way}", 0
                flow = getattr(self, name)()
                started[self.how] = start(flow, self.app) if way == "start" else flow.apply_async()
        for name in flows:
            report = started[f"{name} start"].wait(SECONDS)
            called = len(report.ran)
            until(lambda: store.hlen(f"{name} apply_async") == called)
            found = [{key.decode(): json.loads(it) for key, it in store.hgetall(how).items()}
                     for how in (f"{name} start", f"{name} apply_async")]
            self.assertEqual(len(found[0]), called, report)
            self.assertEqual(*found)

    def test_a_task_that_waits_expires_and_those_that_take_too_long(self):
        tasks, how = self.tasks, "late"
        def one(label, **options):
            return tasks.shown.s(how=how, label=label).set(**options)
        expired = start(chord([one("a", countdown=1, expires=0.2), one("b")], one("c")), self.app)
        soft = start(tasks.sleep.s().set(soft_time_limit=1) | one("d"), self.app)
        hard = start(tasks.sleep.s().set(time_limit=1) | one("e"), self.app)
        late = start(one("f", countdown=1) | one("g", countdown=1) | one("h", ignore_result=True)
                     | one("i"), self.app)
        waits = start(one("j", countdown=600), self.app)
        self.assertEqual(waits.report().due(), ["#1 it.shown (countdown=600)"])
        report = expired.wait(SECONDS)
        self.assertEqual((report.failed, report.ran, report[1].raised),
                         (["it.shown"] * 2, ["it.shown"], "TaskRevokedError"))
        self.assertEqual([it.wait(SECONDS)[1].raised for it in (soft, hard)],
                         ["SoftTimeLimitExceeded", "TimeLimitExceeded"])
        report = late.wait(SECONDS)
        self.assertEqual((len(report.ran), report.silent), (4, {3: "its results are ignored"}))
        found = self.app.backend.client.hgetall(how)
        self.assertEqual({it.decode() for it in found}, {"b", "f", "g", "h", "i"})


class Lists(OnWorkers):
    """Without a worker: first tasks of several queues and priorities."""
    module = "option_tasks"

    def setUp(self):
        super().setUp()
        one = self.tasks.shown
        inner = chord([one.s().set(queue="other"), one.s().set(priority=9)], one.s())
        self.flow = chord([inner, one.s(), one.s().set(queue="other", priority=3)], one.s())
        with self.app.connection_for_write() as connection:
            client = connection.channel().client
            self.broker = redis.Redis(connection_pool=client.connection_pool)
        self.lists = {b"{own}other": 1, b"{own}starts\x06\x169": 1, b"{own}starts": 1,
                      b"{own}other\x06\x163": 1}

    def test_each_message_is_on_its_own_list(self):
        start(self.flow, self.app, number=NUMBER)
        self.assertEqual({key: self.broker.llen(key) for key in self.broker.keys("*")}, self.lists)
        for key in self.lists:
            message = json.loads(self.broker.lindex(key, 0))
            queue = message["properties"]["delivery_info"]["routing_key"]
            self.assertEqual(key.split(b"\x06")[0].decode(), f"{{own}}{queue}")
        store = self.app.backend.client
        sizes = {it: store.get(it) for it in store.keys("*.s")}
        self.assertEqual(sorted(sizes.values()), [b"2", b"3"])
        self.assertTrue(all(0 < store.ttl(it) <= 86_400 for it in sizes))
        with self.assertRaises(StartedBefore):
            start(self.flow, self.app, number=NUMBER)
        self.assertEqual({key: self.broker.llen(key) for key in self.broker.keys("*")}, self.lists)

    def test_a_key_that_is_no_list_starts_nothing(self):
        for key in self.lists:
            self.broker.flushall()
            self.broker.set(key, "text")
            with self.assertRaisesRegex(CanvasError, "the key of a queue is no list"):
                start(self.flow, self.app, number=NUMBER)
            self.assertEqual((self.broker.dbsize(), self.app.backend.client.dbsize()), (1, 0))

    def test_a_text_that_was_cut_starts_nothing(self):
        with self.assertRaisesRegex(redis.ResponseError, "CUT nothing was started"):
            self.broker.eval(SCRIPT, 2, "marker", "list", 60, "", "", 1, 1, "message", "wh")
        self.assertEqual(self.broker.dbsize(), 0)


if __name__ == "__main__":
    unittest.main()
