"""Runs that were started: which tasks they wait for, how they end, and what they store for Celery.
The results of workers are in a dictionary."""

import json
import sys
import threading
import time
import unittest
import warnings
from pathlib import Path
from types import SimpleNamespace
from unittest import mock

HERE = Path(__file__).resolve().parent
sys.path[:0] = [str(HERE.parent / "src"), str(HERE)]

from fake_redis import App, RedisBackend, Server
from test_start import NUMBER, Silent, chain, chord, group, task
from bevtragi import BadCall, CanvasError, Failure, NotEnded, run_of, start, what_if

THREE = chain(task("shop.a", 1), task("shop.b"), task("shop.c"))
#: An order is looked up, charged and shipped side by side; what can't be shipped is refunded.
ORDER = chain(task("find", 4711),
              chord([task("charge", "4242"), task("ship", link_error=[task("refund")])],
                    task("invoice", link_error=[task("alarm")])), task("thank"))


def of_one(_uuid):
    """An error callback that Celery starts by a message."""


def of_three(_request, _exc, _traceback):
    """One that Celery calls in place."""


def in_place(function=of_three):
    return SimpleNamespace(__header__=function, run=function)


class Runs(Silent):
    """What is common to the tests."""

    def started(self, flow, app=None, prefix=""):
        self.server = Server()
        client = self.server.client()
        if app is not None:
            app.backend = RedisBackend(client, prefix)
            app._broker.client = client
        self.run_ = start(flow, app, None if app is not None else client, number=NUMBER)
        return self.run_

    def store(self, number, status="SUCCESS", result=0, **more):
        """Stores what a worker does of a task."""
        key = self.run_.keys[number - 1]
        self.server.client().keys[key] = json.dumps(
            {"status": status, "result": result, "task_id": key[-36:], **more})

    def fails(self, number, kind="OutOfStock", message=("A-17",), module="shop", **more):
        self.store(number, "FAILURE", {"exc_type": kind, "exc_message": [*message],
                                       "exc_module": module}, traceback="..", **more)

    def stored(self, number):
        return json.loads(self.server.client().keys.get(self.run_.keys[number - 1], "null"))


class Waiting(Runs):
    """Whom a run waits for."""

    def due(self):
        return self.run_.report().due()

    def test_one_task_after_the_other(self):
        run = self.started(THREE)
        for number, name in enumerate("abc", 1):
            self.assertEqual(self.due(), [f"#{number} shop.{name}"])
            with self.assertRaises(NotEnded):
                run.wait(0)
            self.store(number, result={"n": number})
        report = run.wait(0)
        self.assertEqual((report.ended, report.status, report.result, report.ran),
                         (True, "SUCCESS", {"n": 3}, ["shop.a", "shop.b", "shop.c"]))

    def test_those_that_a_worker_may_take_are_named(self):
        run = self.started(ORDER)
        self.store(1)
        self.assertEqual(self.due(), ["#2 charge", "#3 ship"])
        self.store(2, "STARTED", None)
        self.store(3, "RETRY", {"exc_type": "OSError", "exc_message": []})
        with self.assertRaises(NotEnded) as found:
            run.wait(0.05)
        self.assertRegex(str(found.exception), rf"^after 0\.05 seconds run {NUMBER} waits for "
                         r"#2 charge \(STARTED\), #3 ship \(RETRY\): does a worker take them, from "
                         r"the queue celery or that of their route\?$")
        self.assertIsInstance(found.exception, TimeoutError)
        self.assertEqual(found.exception.report.waits_for, {2: "STARTED", 3: "RETRY"})
        self.assertIn("waits for #2 charge (STARTED), #3 ship (RETRY)", str(run.report()))
        self.store(2, "PROGRESS", {"done": 0.5})
        self.assertEqual(self.due(), ["#2 charge (PROGRESS)", "#3 ship (RETRY)"])
        self.assertEqual(run.report()[2].status, "PENDING")

    def test_of_many_tasks_the_first_ones_are_named(self):
        run = self.started(group(*(task("a") for _ in range(23))))
        with self.assertRaisesRegex(NotEnded, "#19 a, #20 a and 3 more: does"):
            run.wait(0)
        self.assertEqual(len(run.report().due()), 23)

    def test_nobody_waits_for_what_a_failure_reaches(self):
        run = self.started(THREE)
        self.fails(1)
        report = run.wait(0)
        self.assertEqual(report.failed, ["shop.a", "shop.b", "shop.c"])
        self.assertEqual((report.ran, report.never_run), (["shop.a"], ["shop.b", "shop.c"]))
        self.assertEqual([row.due_to for row in report], [None, 1, 1])
        self.assertEqual(report.result, Failure("OutOfStock"))
        self.assertIn("#3 shop.c FAILURE OutOfStock (not called, due to #1)", str(report))

    def test_nor_for_callbacks_of_what_went_otherwise(self):
        run = self.started(chain(task("a", link=[task("log")], link_error=[task("alarm")]),
                                 task("b")))
        self.store(1)
        self.assertEqual(self.due(), ["#2 log", "#4 b"])
        self.store(2), self.store(4)
        self.assertEqual(run.wait(0).never_run, ["alarm"])
        self.fails(1)
        self.assertEqual(self.due(), ["#3 alarm"])

    def test_error_callbacks_are_waited_for(self):
        run = self.started(ORDER)
        self.store(1)
        self.fails(3)
        self.assertEqual(self.due(), ["#2 charge", "#4 refund"])
        self.store(4)
        self.assertEqual(self.due(), ["#2 charge"])
        self.store(2)
        self.assertEqual(self.due(), ["#6 alarm"])
        self.store(6)
        report = run.wait(0)
        self.assertEqual(report.ran, ["find", "charge", "ship", "refund", "alarm"])
        self.assertEqual(report.never_run, ["invoice", "thank"])
        self.assertEqual([report[5].due_to, report[7].due_to], [3, 3])
        self.assertEqual(report.result, Failure("ChordError", 3, "OutOfStock"))

    def test_a_report_says_what_is_known(self):
        run = self.started(ORDER)
        self.assertEqual([row.ran for row in run.report()], [None] * 7)
        self.store(1)
        self.fails(3)
        self.assertEqual([row.ran for row in run.report()], [True, None, True] + [None] * 4)
        self.store(2)
        self.assertEqual([row.ran for row in run.report()],
                         [True, True, True, None, False, None, False])

    def test_what_ends_meanwhile_ends_the_wait(self):
        run = self.started(THREE)

        def work():
            for number in (1, 2, 3):
                time.sleep(0.05)
                self.store(number)
        worker = threading.Thread(target=work)
        worker.start()
        self.assertEqual(run.wait(20).status, "SUCCESS")
        worker.join()
        self.assertEqual(run.wait().status, "SUCCESS")

    def test_a_wait_takes_as_long_as_it_says(self):
        run, before = self.started(THREE), time.monotonic()
        with self.assertRaises(NotEnded):
            run.wait(timeout=0.3)
        self.assertTrue(0.3 <= time.monotonic() - before < 3)
        for timeout in ("1", [], {}):
            with self.assertRaisesRegex(BadCall, "timeout is a number of seconds"):
                run.wait(timeout)

    def test_a_report_can_be_compared_and_drawn(self):
        run = self.started(ORDER)
        self.store(1), self.store(2), self.fails(3), self.store(4), self.store(6)
        report = run.wait(0)
        wanted = what_if(ORDER, {"ship": type("OutOfStock", (Exception,), {})})
        self.assertEqual(report.differences(wanted), [])
        self.assertEqual(report.ran, wanted.ran)
        self.assertEqual(report.graph(), wanted.graph())

    def test_a_picture_of_a_run_that_has_not_ended_is_refused(self):
        with self.assertRaisesRegex(CanvasError, "hasn't ended"):
            self.started(THREE).report().graph()


class OnCelery(Runs):
    """What Celery's workers leave without a result."""

    def test_an_error_callback_that_is_called_in_place(self):
        app = App(tasks={"refund": in_place(), "alarm": in_place(of_one)})
        run = self.started(ORDER, app)
        self.store(1), self.store(2), self.fails(3)
        self.assertEqual(run.report().due(), ["#6 alarm"])
        self.store(6)
        report = run.wait(0)
        self.assertEqual({**report.silent}, {4: "Celery calls it in place, without a result"})
        self.assertEqual((report[4].status, report[4].ran), ("PENDING", True))
        self.assertIn("#4 refund: Celery calls it in place, without a result", str(report))

    def test_of_several_only_the_first_one_is_sure_to_be_called(self):
        app = App(tasks={"x": in_place(), "y": in_place()})
        run = self.started(task("a", link_error=[task("x", link=[task("z")]), task("y")]), app)
        self.fails(1)
        report = run.wait(0)
        self.assertEqual([row.ran for row in report], [True, True, None, None])
        self.assertEqual({**report.silent}[3], "it follows a task of which Celery makes no message")

    def test_one_that_does_not_take_the_call_is_not_called(self):
        def with_a_default(_uuid, channel="#ops"):
            pass
        app = App(tasks={"x": in_place(with_a_default)})
        run = self.started(task("a", link_error=[task("x")]), app)
        self.fails(1, "TypeError")
        self.assertEqual([row.ran for row in run.wait(0)], [True, None])
        run = self.started(task("a", link_error=[{**task("x", 1), "immutable": True}]), app)
        self.fails(1)
        self.assertEqual([row.ran for row in run.wait(0)], [True, True])

    def test_a_task_whose_results_are_ignored(self):
        app = App(tasks={"shop.b": SimpleNamespace(run=print, ignore_result=True)})
        run = self.started(THREE, app)
        self.store(1)
        with self.assertRaisesRegex(NotEnded, "waits for #3 shop.c"):
            run.wait(0)
        self.store(3)
        self.assertEqual((run.wait(0).silent, run.wait(0)[2].ran),
                         ({2: "its results are ignored"}, True))
        last = self.started(task("shop.b"), app)
        self.assertEqual((last.wait(0)[1].ran, last.wait(0).silent),
                         (None, {1: "its results are ignored"}))

    def test_a_task_that_no_worker_has(self):
        run = self.started(ORDER)
        self.store(1), self.store(2)
        self.store(3, "FAILURE", {"exc_type": "NotRegistered", "exc_message": ["ship"],
                                  "exc_module": "celery.exceptions"}, traceback=None)
        report = run.wait(0)
        self.assertEqual({**report.silent}, {
            4: "Celery calls no error callback of a task that no worker called",
            6: "Celery isn't told that the header failed"})
        self.assertEqual(report.failed, ["ship", "invoice", "thank"])
        self.fails(3, "NotRegistered")  # raised by the task itself
        self.assertEqual(run.report().due(), ["#4 refund", "#6 alarm"])

    def test_a_task_that_is_revoked(self):
        run = self.started(ORDER)
        self.store(1), self.store(2)
        self.store(3, "REVOKED", {"exc_type": "TaskRevokedError", "exc_message": ["terminated"],
                                  "exc_module": "celery.exceptions"}, traceback=None)
        self.assertEqual(run.report().due(), ["#6 alarm"])
        self.store(6)
        report = run.wait(0)
        self.assertEqual(report[3].result, Failure("TaskRevokedError"))
        self.assertEqual({**report.silent}, {
            4: "Celery calls no error callback of a task that no worker called"})

    def test_a_member_that_returns_no_part(self):
        """Celery isn't told of a chord in a header whose own header fails, nor of what comes after
        a task that fails, if that is a chord."""
        alarmed = task("sum", link_error=[task("alarm")])
        inner = chord([task("a"), task("b")], task("c", link_error=[task("inner")]))
        for flow, failing, ends, silent in (
                (chord([inner, task("d")], alarmed), 1, (2, 4, 5), 7),
                (chord([chain(task("a"), task("b")), task("c")], alarmed), 1, (3, 5), None),
                (chord([chain(task("a"), inner), task("d")], alarmed), 1, (6,), 8),
                (chord([chain(inner, task("x")), task("d")], alarmed), 2, (1, 4, 6), 8),
                (chord([chain(inner, task("x")), task("d")], alarmed), 3, (1, 2, 4, 6, 8), None),
                (chord([chain(inner, task("x")), task("d")], alarmed), 6, (1, 2, 3, 5, 8), None)):
            run = self.started(flow)
            self.fails(failing)
            for number in ends:
                self.store(number)
            report = run.wait(0)
            self.assertEqual(report.status, "FAILURE", flow)
            self.assertEqual([*report.silent], [silent] if silent else [], (flow, str(report)))

    def test_a_body_that_is_a_group(self):
        body = group(task("c", link_error=[task("alarm")]), task("d"))
        run = self.started(chord([task("a"), task("b")], body))
        self.fails(1), self.store(2)
        self.assertEqual([*run.wait(0).silent], [4])

    def test_a_body_that_is_a_chord(self):
        body = chord([task("c", link_error=[task("alarm")]), task("d")],
                     task("e", link_error=[task("alarm")]))
        run = self.started(chord([task("a"), task("b")], body))
        self.fails(1), self.store(2)
        self.assertEqual([*run.wait(0).silent], [4, 7])


class Told(Runs):
    """A task that retries at once may have ended before it is stored that it retries."""

    def tell(self, number, status, result):
        key = self.run_.keys[number - 1]
        self.server.client().publish(key, json.dumps({
            "status": status, "result": result, "task_id": key[-36:], "traceback": ".."}))

    def test_an_end_that_was_told_counts(self):
        run = self.started(THREE)
        self.store(1), self.store(2)
        self.tell(3, "RETRY", None)
        self.store(3, "RETRY", {"exc_type": "OSError", "exc_message": []})
        self.assertEqual(run.report().due(), ["#3 shop.c (RETRY)"])
        self.tell(3, "SUCCESS", {"tries": 2})
        self.assertEqual(run.wait(0).result, {"tries": 2})
        self.assertEqual(run.wait(0).result, {"tries": 2})
        self.assertEqual(start(THREE, client=self.server.client()).report().pending,
                         ["shop.a", "shop.b", "shop.c"])

    def test_a_failure_that_was_told_counts(self):
        run = self.started(THREE)
        self.store(1, "RETRY", None)
        self.tell(1, "FAILURE", {"exc_type": "Lost", "exc_message": ["A"], "exc_module": "shop"})
        self.assertEqual(run.wait(0).failed, ["shop.a", "shop.b", "shop.c"])
        self.assertEqual(run.settle(), ["shop.b", "shop.c"])

    def test_what_is_stored_as_an_end_counts_first(self):
        run = self.started(task("shop.a"))
        self.tell(1, "FAILURE", {"exc_type": "Lost", "exc_message": []})
        self.store(1, result=5)
        self.assertEqual(run.wait(0).result, 5)

    def test_a_result_may_be_stored_after_that_of_the_next_task(self):
        run = self.started(THREE)
        self.store(2), self.store(3)
        self.assertEqual(run.report().due(), ["#1 shop.a"])
        for call in (lambda: run.wait(0.1), run.settle):
            with self.assertRaisesRegex(NotEnded, "waits for #1 shop.a"):
                call()
        threading.Timer(0.2, self.store, [1]).start()
        report = run.wait(20)
        self.assertEqual((report.succeeded, report.silent), (["shop.a", "shop.b", "shop.c"], {}))

    def test_a_task_has_ended_if_one_after_it_has_begun(self):
        run = self.started(THREE)
        self.store(1, "RETRY", None)
        self.store(2, "STARTED", None)
        self.assertEqual(run.report().due(), ["#1 shop.a (RETRY)", "#2 shop.b (STARTED)"])
        self.assertEqual([row.ran for row in run.report()], [True, None, None])
        self.store(2), self.store(3)
        before = time.monotonic()
        with mock.patch("bevtragi.started_runs.PATIENCE", 0.3):
            report = run.wait(20)
        self.assertTrue(0.3 <= time.monotonic() - before < 10)
        self.assertEqual((report[1].ran, report.ran),
                         (True, ["shop.a", "shop.b", "shop.c"]))
        self.assertEqual({**report.silent}, {
            1: "its result isn't stored, and a task after it was called"})
        self.assertEqual((run.report(), run.settle()), (report, []))

    def test_so_have_those_before_a_task_that_has(self):
        run = self.started(THREE)
        self.store(1, "RETRY", None)
        self.store(3)
        with mock.patch("bevtragi.started_runs.PATIENCE", 0.1):
            self.assertEqual([*run.wait(20).silent], [1, 2])

    def test_nothing_is_heard_without_a_connection(self):
        def none(**_):
            raise OSError("no connection")
        for broken in (none, lambda **_: None):
            client = Server().client()
            client.pubsub = broken
            run = start(THREE, client=client)
            self.assertEqual(run.report().due(), ["#1 shop.a"])

    def test_the_connection_is_given_back(self):
        run = self.started(THREE)
        listener, = self.server.listeners
        self.store(1), self.store(2)
        self.store(3, "RETRY", None)
        self.assertFalse(listener.is_closed)
        self.tell(3, "SUCCESS", 7)
        run.wait(0)
        self.assertTrue(listener.is_closed)
        self.assertEqual((run.wait(0).result, run.report().result), (7, 7))
        other = start(THREE, client=self.server.client())
        self.assertFalse(self.server.listeners[1].is_closed)
        del other
        self.assertTrue(self.server.listeners[1].is_closed)

    def test_what_is_not_celerys_is_left(self):
        run = self.started(THREE)
        for text in ("7", "[]", "no JSON", '{"status": []}', "null"):
            self.server.client().publish(run.keys[0], text)
        self.assertEqual(run.report().due(), ["#1 shop.a"])


class Settling(Runs):
    """What is stored for Celery."""

    def test_failures_that_celery_leaves_pending(self):
        run = self.started(ORDER)
        self.fails(1, message=("A-17", 2))
        self.assertEqual(run.settle(), ["charge", "ship", "invoice", "thank"])
        for number in (2, 3, 5, 7):
            found = self.stored(number)
            self.assertEqual(found["result"], {"exc_type": "OutOfStock", "exc_message": ["A-17", 2],
                                               "exc_module": "shop"})
            self.assertEqual((found["status"], found["task_id"], found["traceback"],
                              found["children"]), ("FAILURE", run.keys[number - 1][-36:], None, []))
        for number in (4, 6):
            self.assertIsNone(self.stored(number))
        keys = [run.keys[number - 1] for number in (2, 3, 5, 7)]
        self.assertEqual([key for key, _ in self.server.published], keys)
        self.assertEqual([json.loads(text) for _, text in self.server.published],
                         [self.stored(number) for number in (2, 3, 5, 7)])
        self.assertEqual(run.settle(), [])
        self.assertEqual(run.report().failed, ["find", "charge", "ship", "invoice", "thank"])

    def test_a_chord_error_names_the_task_of_this_run(self):
        run = self.started(chain(chord([task("a"), task("b")], task("c")), task("d")))
        self.store(1), self.fails(2)
        self.assertEqual(run.settle(), ["c", "d"])
        said = f"Dependency {run.keys[1][-36:]} raised OutOfStock"
        for number in (3, 4):
            self.assertEqual(self.stored(number)["result"], {
                "exc_type": "ChordError", "exc_message": [said],
                "exc_module": "celery.exceptions"})
        self.assertEqual(run.report().result, Failure("ChordError", 2, "OutOfStock"))

    def test_what_is_stored_is_left(self):
        run = self.started(THREE)
        self.fails(1)
        self.fails(2, "Other")
        before = self.stored(2)
        self.assertEqual(run.settle(), ["shop.c"])
        self.assertEqual(self.stored(2), before)

    def test_what_is_stored_meanwhile_is_left(self):
        run = self.started(THREE)
        self.fails(1)
        client = run._place.client
        plain = client.mget

        def mget(keys):
            found = plain(keys)
            self.fails(2, "Meanwhile")
            return found
        client.mget = mget
        self.assertEqual(run.settle(), ["shop.c"])
        self.assertEqual(self.stored(2)["result"]["exc_type"], "Meanwhile")
        self.assertEqual([key for key, _ in self.server.published], run.keys[2:])

    def test_a_run_that_goes_on_is_not_settled(self):
        run = self.started(chord([task("a"), task("b")], task("c")))
        self.fails(1)
        with self.assertRaisesRegex(NotEnded, "waits for #2 b: wait\\(\\) first"):
            run.settle()
        self.assertEqual((self.stored(3), self.server.published), (None, []))

    def test_it_is_kept_as_long_as_results(self):
        for kept, wanted in ((77, (b"EX", 77)), (None, ())):
            app = App()
            run = self.started(THREE, app)
            self.fails(1)
            commands = []
            run._place = run._place._replace(expires=kept)
            run._place.client.execute_command = lambda *words: commands.append(words)
            run.settle()
            self.assertEqual([it[3:] for it in commands], [("NX", *map(
                lambda it: it.decode() if isinstance(it, bytes) else it, wanted))] * 2)

    def test_the_keys_have_the_prefix(self):
        run = self.started(THREE, App(), prefix="p_")
        self.fails(1)
        run.settle()
        found = [it for it in self.server.client().keys if it.startswith("p_celery-task-meta-")]
        self.assertEqual(len(found), 3)


class Ends(Runs):
    """Celery's own result."""

    def test_it_is_that_of_the_canvas(self):
        run = self.started(chain(task("a"), task("b", link=[task("log")])), App())
        self.assertEqual(run.result, ("result", run.keys[1][-36:]))
        run = self.started(chain(task("a"), group(task("b"), chain(task("c"), task("d")))), App())
        self.assertEqual(run.result, ("results", NUMBER, [
            ("result", run.keys[1][-36:]), ("result", run.keys[3][-36:])]))
        with self.assertRaisesRegex(CanvasError, "needs your application"):
            self.started(THREE).result

    def test_a_run_taken_up_is_the_same(self):
        run, app = self.started(THREE, App()), App(self.server)
        self.store(1), self.fails(2)
        again = run_of(NUMBER, THREE, app)
        self.assertEqual((again.report(), again.result, again.keys),
                         (run.report(), run.result, run.keys))
        self.assertEqual(again.wait(0).due(), [])
        self.assertEqual(again.settle(), ["shop.c"])

    def test_another_runs_results_are_not_taken(self):
        run = self.started(THREE)
        other = start(THREE, client=self.server.client())
        for number in (1, 2, 3):
            self.store(number)
        self.assertEqual((run.wait(0).status, other.report().status), ("SUCCESS", "PENDING"))
        self.server.client().keys[other.keys[0]] = self.server.client().keys[run.keys[0]]
        with self.assertRaisesRegex(CanvasError, "OtherTask"):
            other.report()

    def test_results_of_any_kind(self):
        run = self.started(group(task("a"), task("b"), task("c")))
        client = self.server.client()
        for number, result in ((1, '{"x": [1.5, null]}'), (2, "NaN"), (3, '"two"')):
            key = run.keys[number - 1]
            client.keys[key] = ('{"status": "SUCCESS", "task_id": "%s", "result": %s}'
                                % (key[-36:], result))
        report = run.wait(0)
        self.assertEqual([report[1].result, report[3].result], [{"x": [1.5, None]}, "two"])
        self.assertEqual(str(report[2].result), "nan")


if __name__ == "__main__":
    unittest.main()
