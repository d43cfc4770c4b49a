"""Tests of on_celery(): the code of the installed Celery as a second judge."""

import importlib
import json
import logging
import os
import sys
import threading
import time
import unittest
import warnings
from collections import Counter
from pathlib import Path
from unittest import mock

HERE = Path(__file__).resolve().parent
sys.path[:0] = [str(HERE.parent / "src"), str(HERE)]

from bevtragi import BadCall, CanvasError, cured, on_celery

try:
    import celery
    from celery import _state, chord, shared_task, signals, signature
except ImportError:
    celery = None
else:
    import user_flows
    import user_tasks
    from user_tasks import OutOfStock


def real_runs():
    """What real workers of the installed version did, as started.py wrote it down."""
    file = HERE / "flows" / f"started-{celery.__version__}.jsonl"
    return [json.loads(line) for line in file.read_text().splitlines()] if file.exists() else []


def s(name, *args, **kwargs):
    return signature(name, args, kwargs)


def end_of(run):
    """How the caller's get() ends, as started.py says it."""
    if run.raised is not None:
        return f"RAISED {type(run.raised).__name__}"
    return "WAITS" if run.waits else "SUCCESS" if run.status == "SUCCESS" else \
        type(run.result).__name__


def stored(run):
    """How many tasks of a name have a state, as started.py counts them."""
    return Counter(f"{name} {state}" for name, states in run.states.items() for state in states)


class WithoutCelery(unittest.TestCase):
    """An environment without Celery."""

    def test_it_says_so_in_a_sentence(self):
        with mock.patch.dict(sys.modules, {"celery": None}):
            with self.assertRaisesRegex(CanvasError, "^Celery isn't installed here, so its code"):
                on_celery({"task": "shop.find"})

    def test_the_package_imports_no_celery(self):
        names = ("bevtragi", "celery", "kombu")
        with mock.patch.dict(sys.modules):
            for name in [it for it in sys.modules if it.partition(".")[0] in names]:
                del sys.modules[name]
            importlib.import_module("bevtragi")
            self.assertFalse({"celery", "kombu"} & set(sys.modules))


@unittest.skipIf(celery is None, "Celery isn't installed")
class RealWorkers(unittest.TestCase):
    """The runs that started.py wrote down, on one worker process."""

    #: A task that replaces itself does so by its own code, which isn't called here.
    REPLACED = "replaced"

    def test_the_same_tasks_are_called_and_the_caller_gets_the_same(self):
        if not real_runs():
            self.skipTest(f"no runs on workers of Celery {celery.__version__} are written down")
        for row in real_runs():
            if row["flow"] == self.REPLACED:
                continue
            flow = user_flows.FLOWS[row["flow"]]()
            answers = {row["fails"]: OutOfStock} if row["fails"] else {}
            for real, canvas in ((row["started"], flow), (row["cured"], cured(flow))):
                run = on_celery(canvas, answers, user_tasks.app)
                self.assertEqual((Counter(run.called), end_of(run)),
                                 (real["called"], real["get"]), row)
                self.assertEqual(Counter(real["states"]) - stored(run), Counter(), row)


@unittest.skipIf(celery is None, "Celery isn't installed")
class Answers(unittest.TestCase):
    """The answers of tasks, and the reports of runs."""

    def test_the_order_of_the_readme(self):
        run = on_celery(user_flows.order(), {"shop.charge": OutOfStock})
        self.assertEqual(run.version, celery.__version__)
        self.assertEqual(run.called[:3], ["shop.find", "shop.charge", "shop.ship"])
        if celery.__version__ in ("5.2.6", "5.5.2"):
            self.assertEqual("shop.refund" in run.called, celery.__version__ == "5.2.6")
        self.assertEqual((run.status, type(run.result), run.raised),
                         ("FAILURE", OutOfStock, None))
        self.assertEqual(run.states["shop.charge"], ["FAILURE"])
        self.assertEqual(run.states["shop.thank"], ["PENDING"])
        self.assertRegex(repr(run), r"calls shop.find, .*; get\(\) raises OutOfStock$")

    def test_which_task_ends_last(self):
        flow = user_flows.order_without_find()
        for fails, failures, called in (
                ("shop.ship", "first", ["shop.ship", "shop.charge", "shop.refund"]),
                ("shop.ship", "last", ["shop.charge", "shop.ship", "shop.refund"]),
                ("shop.charge", "last", ["shop.ship", "shop.charge"])):
            run = on_celery(flow, {fails: OutOfStock}, failures=failures)
            self.assertEqual(run.called, called)
        with self.assertRaisesRegex(BadCall, "not 'late'"):
            on_celery(flow, failures="late")

    def test_values_of_any_kind_and_functions(self):
        seen = []

        def ship(*args, **kwargs):
            seen.append((args, kwargs))
            return {"weight": 0.5, "of": [None, True]}
        run = on_celery(user_flows.order(), {
            "shop.find": {"number": 4711}, "shop.charge": "paid", "shop.ship": ship,
            "shop.thank": lambda invoice, lang: [invoice, lang], "*": 1.5})
        self.assertEqual(seen, [(({"number": 4711}, user_flows.ITEM), {"express": True})])
        self.assertEqual((run.status, run.result), ("SUCCESS", [1.5, "en"]))

    def test_exceptions(self):
        for error in (OutOfStock, OutOfStock("A-17"), UnicodeDecodeError):
            kind = error if isinstance(error, type) else type(error)
            run = on_celery(s("shop.a") | s("shop.b"), {"shop.a": error})
            self.assertEqual((run.called, run.status), (["shop.a"], "FAILURE"))
            if kind is OutOfStock:
                self.assertIsInstance(run.result, OutOfStock)
        run = on_celery(s("shop.a"), {"shop.a": OutOfStock("A-17")})
        self.assertEqual(run.result.args, ("A-17",))

        def fail(*_):
            raise OutOfStock("B-2")
        self.assertEqual(on_celery(s("shop.a"), {"shop.a": fail}).result.args, ("B-2",))

    def test_a_number_is_the_task_of_that_row(self):
        canvas = chord([s("shop.count", it) for it in "xyz"], s("shop.sum"))
        for number, wanted in ((1, "x"), (2, "y"), (3, "z")):
            seen = []
            run = on_celery(canvas, {number: OutOfStock, "shop.count": seen.append})
            self.assertEqual(seen, [it for it in "xyz" if it != wanted])
            self.assertEqual(run.called, ["shop.count"] * 3)
        seen = []
        callbacks = s("a").on_error(s("alarm", 1)) | s("b").on_error(s("alarm", 2))
        # the rows are a, alarm 1, b, alarm 2
        run = on_celery(callbacks, {3: OutOfStock, 2: OSError, 4: lambda *it: seen.append(it[1])})
        self.assertEqual((run.called, seen), (["a", "b", "alarm"], [2]))

    def test_an_alarm_written_twice_is_called_once(self):
        canvas = (s("a").on_error(s("alarm")) | s("b")).on_error(s("alarm"))
        run = on_celery(canvas, {"a": OutOfStock})
        self.assertEqual(run.called, ["a", "alarm"])
        self.assertEqual(on_celery(canvas, {3: OutOfStock}).called, ["a", "b", "alarm"])

    def test_names_that_no_task_has(self):
        for key, said in (("shop.shp", "did you mean shop.ship"), (9, "9 is no task")):
            with self.assertRaisesRegex(BadCall, said):
                on_celery(user_flows.order(), {key: 1})
        for wrong in ("[]", b"{", 5):
            with self.assertRaises(BadCall):
                on_celery(wrong)

    def test_texts_and_files(self):
        file = HERE / "flows" / "order.json"
        for canvas in (file, file.read_bytes(), json.loads(file.read_text())):
            self.assertEqual(on_celery(canvas, {"shop.find": OSError}).called, ["shop.find"])
        self.assertEqual(on_celery({"task": "shop.a"}, {"shop.a": 3}).result, 3)

    def test_who_waits_forever(self):
        run = on_celery(user_flows.copies(), {"film.fetch": OutOfStock})
        self.assertEqual((run.waits, run.status, run.result), (True, "PENDING", None))
        self.assertEqual(run.states["film.upload"], ["PENDING"] * 2)
        inner = chord([s("a"), s("b")], s("c") | s("d"))
        self.assertTrue(on_celery(chord([inner, s("e")], s("f")), {"a": OutOfStock}).waits)

    def test_what_the_start_raises(self):
        run = on_celery(user_tasks.charge.s(), app=user_tasks.app)
        self.assertEqual((run.called, run.status, type(run.raised)), ([], None, TypeError))
        self.assertRegex(repr(run), r"calls nothing; apply_async\(\) raises TypeError")


@unittest.skipIf(celery is None, "Celery isn't installed")
class OwnApplication(unittest.TestCase):
    """Tasks that have the parameters of the user's."""

    def on(self, flow, *fails):
        return on_celery(flow, dict.fromkeys(fails, OutOfStock), user_tasks.app)

    def test_error_callbacks_of_each_kind(self):
        flow = user_tasks.find.s(1).on_error(user_tasks.refund.s()).on_error(user_tasks.alarm.s())
        run = self.on(flow, "shop.find")
        self.assertEqual(run.called, ["shop.find", "shop.alarm", "shop.refund"])
        self.assertEqual(len(run.states["shop.refund"]), 1)
        self.assertNotIn("shop.alarm", run.states)

    def test_an_error_callback_with_a_default(self):
        run = self.on(user_flows.trap(), "shop.find")
        self.assertEqual(run.called, ["shop.find"])
        self.assertIsInstance(run.result, TypeError)
        self.assertTrue(all(isinstance(it, TypeError) for it in run.errors))

    def test_an_error_callback_that_fails_is_called_three_times(self):
        run = self.on(user_tasks.find.s(1).on_error(user_tasks.alarm.s()), "shop.find",
                      "shop.alarm")
        self.assertEqual(run.called, ["shop.find"] + ["shop.alarm"] * 3)

    def test_a_wrong_call_and_a_stranger(self):
        run = self.on(user_flows.wrong_call())
        self.assertEqual((run.called, end_of(run)), (["shop.find"], "TypeError"))
        run = self.on(user_flows.stranger())
        self.assertEqual(run.called, ["shop.find"])
        self.assertEqual([type(it).__name__ for it in run.errors], ["NotRegistered"])
        self.assertNotIn("shop.refund", run.called)

    def test_settings_of_the_application(self):
        own = celery.Celery("own", set_as_current=False, strict_typing=False)

        @own.task(name="a")
        def a(*args):
            raise AssertionError
        self.assertEqual(on_celery(own.signature("a"), {"a": {1, 2}}, own).status, "FAILURE")
        own.conf.result_serializer, own.conf.accept_content = "pickle", ["json", "pickle"]
        run = on_celery(own.signature("a"), {"a": {1, 2}}, own)
        self.assertEqual((run.status, run.result), ("SUCCESS", {1, 2}))
        own.conf.accept_content = ["pickle"]  # the messages of this task are JSON
        run = on_celery(own.signature("a"), {}, own)
        self.assertEqual((run.called, run.waits), ([], True))
        self.assertEqual([type(it).__name__ for it in run.errors], ["ContentDisallowed"])


@unittest.skipIf(celery is None, "Celery isn't installed")
class NothingElse(unittest.TestCase):
    """A run changes nothing else."""

    FAILS = {"shop.charge": KeyError}

    def test_no_signal_is_sent(self):
        sent = []

        def receive(signal=None, **_):
            sent.append(signal.name)
        listened = [it for it in vars(signals).values() if isinstance(it, signals.Signal)]
        for signal in listened:
            signal.connect(receive, weak=False)
        try:
            on_celery(user_flows.order(), self.FAILS, user_tasks.app)
            on_celery(user_flows.trap(), {"shop.find": OutOfStock}, user_tasks.app)
            self.assertEqual(sent, [])
            listener = user_tasks.app.tasks["shop.find"]
            signals.task_prerun.send(sender=listener)
            self.assertEqual(sent, ["task_prerun"])
            self.assertEqual([key for it in listened for key in it.sender_receivers_cache], [])
        finally:
            for signal in listened:
                signal.disconnect(receive)

    def test_no_task_is_called_and_none_is_left_in_an_application(self):
        mine = celery.Celery("mine", set_as_current=False)
        before = set(mine.tasks), set(user_tasks.app.tasks), set(celery.current_app.tasks)
        apps, finalizers = set(_state._get_active_apps()), set(_state._on_app_finalizers)
        on_celery(user_flows.night(), self_answers(), user_tasks.app)
        on_celery(user_flows.night())
        after = set(mine.tasks), set(user_tasks.app.tasks), set(celery.current_app.tasks)
        self.assertEqual(before, after)
        self.assertEqual((apps, finalizers),
                         (set(_state._get_active_apps()), set(_state._on_app_finalizers)))

    def test_a_task_shared_between_applications_is_not_called(self):
        calls = []

        def call():
            calls.append(1)
        run = on_celery(s("late.one"), {"late.one": 1})
        shared_task(call, name="late.one")
        again = on_celery(s("late.one"), {"late.one": 2})
        self.assertEqual((run.result, again.result, calls), (1, 2, []))
        from bevtragi.celery_app import app_for
        own = [it for it in app_for(None)._tasks if not it.startswith("celery.")]
        self.assertEqual([it for it in own if "#" not in it], [])
        self.assertEqual(on_celery(s("late.one"), {}, celery.Celery(set_as_current=False)).errors,
                         [])

    def test_the_current_application_stays(self):
        before = _state._tls.current_app
        mine = celery.Celery("mine", set_as_current=False)
        try:
            for current in (None, mine):
                _state._set_current_app(current)
                seen = []
                on_celery(s("a"), {"a": lambda: seen.append(_state._tls.current_app)})
                self.assertIs(_state._tls.current_app, current)
                self.assertEqual(seen, [current])
        finally:
            _state._set_current_app(before)

    def test_the_canvas_is_not_changed(self):
        for make in user_flows.FLOWS.values():
            flow = make()
            before = json.dumps(flow, default=str)
            on_celery(flow, {"*": 1}, user_tasks.app)
            self.assertEqual(json.dumps(flow, default=str), before)
            self.assertEqual("task_id" in before, make is user_flows.frozen)

    def test_nothing_is_logged_or_warned_of(self):
        with self.assertNoLogs() if hasattr(self, "assertNoLogs") else mock.MagicMock():
            with warnings.catch_warnings():
                warnings.simplefilter("error")
                run = on_celery(user_flows.order_without_find(), {"shop.ship": OutOfStock})
        self.assertNotIn("RuntimeWarning", [type(it).__name__ for it in run.errors])
        filters = [it for name in logging.root.manager.loggerDict
                   for it in logging.getLogger(name).filters if name.startswith("celery")]
        self.assertEqual(filters, [])

    def test_within_a_task_that_the_thread_is_in(self):
        task = user_tasks.app.tasks["shop.find"]
        task.push_request(id="outer", called_directly=False, children=[])
        _state._task_stack.push(task)
        try:
            run = on_celery(s("a"))
            self.assertEqual((run.called, task.request.children), (["a"], []))
            self.assertIs(_state._task_stack.top, task)
        finally:
            _state._task_stack.pop()
            task.pop_request()

    def test_a_run_within_a_run(self):
        inner = []
        outer = on_celery(s("a") | s("b"), {"a": lambda: inner.append(on_celery(s("a"), {"a": 5}))
                                            or 2, "b": lambda it: it + 1})
        self.assertEqual((outer.result, inner[0].result, outer.called), (3, 5, ["a", "b"]))
        sent = []

        def receive(**_):
            sent.append(1)
        signals.task_postrun.connect(receive, weak=False)
        try:
            on_celery(s("a") | s("b"), {"a": lambda: on_celery(s("a")) and 2})
        finally:
            signals.task_postrun.disconnect(receive)
        self.assertEqual(sent, [])

    def test_several_threads(self):
        found = {}

        def ask(number):
            run = on_celery(s("a") | s("b"), {"a": number, "b": lambda it: it * 10})
            found[number] = (run.result, run.called)
        threads = [threading.Thread(target=ask, args=(it,)) for it in range(8)]
        for it in threads:
            it.start()
        for it in threads:
            it.join()
        self.assertEqual(found, {it: (it * 10, ["a", "b"]) for it in range(8)})

    def test_a_run_costs_no_more_than_twenty_milliseconds(self):
        from bevtragi.celery_app import App
        flow, runs = user_flows.order(), 40
        on_celery(flow, {}, user_tasks.app)
        with mock.patch.object(App, "__init__", side_effect=AssertionError("another app")):
            start = time.process_time()
            for fails in (None, "shop.find", "shop.charge", "shop.ship") * (runs // 4):
                on_celery(flow, {fails: OutOfStock} if fails else {}, user_tasks.app)
            each = (time.process_time() - start) / runs
        # side by side with others a processor takes longer
        is_loaded = os.getloadavg()[0] > (os.cpu_count() or 1) / 2
        self.assertLess(each, 0.06 if is_loaded else 0.02)


def self_answers():
    """An answer for each task, which raises if a task is called after all."""
    return {"night.count": 1, "night.add": 2}


if __name__ == "__main__":
    unittest.main()
