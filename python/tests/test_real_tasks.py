"""Tests of rehearsals with an application's own tasks, called by the installed Celery."""

import sys
import unittest
from datetime import date
from pathlib import Path
from unittest import mock

HERE = Path(__file__).resolve().parent
sys.path[:0] = [str(HERE.parent / "src"), str(HERE)]

from bevtragi import BadCall, CanvasError, Failure, rehearse, rehearse_orders, what_if

try:
    import celery
    import celery.signals
except ImportError:
    celery = None

FIRST = "00000000-0000-8000-8000-000000000001"


@unittest.skipIf(celery is None, "Celery isn't installed")
class WithCelery(unittest.TestCase):
    """An application, whose broker and backend nobody answers for."""

    def setUp(self):
        self.app = celery.Celery("tests", broker="redis://127.0.0.1:1",
                                 backend="redis://127.0.0.1:1", set_as_current=False)

    def task(self, function=None, **options):
        if function is None:
            return lambda it: self.task(it, **options)
        return self.app.task(name=function.__name__, shared=False, **options)(function)


class Values(WithCelery):
    """Arguments and results."""

    def test_what_is_sent_is_what_arrives(self):
        @self.task
        def pick(many):
            many.append(2)
            return (many, {1: 2})

        @self.task
        def spoil(given):
            given.append("spoilt")
            return given

        @self.task
        def pack(parts):
            return parts
        many = [1]
        flow = pick.s(many) | celery.chord([spoil.s(), spoil.s()], pack.s())
        report = rehearse(flow)
        sent = [[1, 2], {"1": 2}]
        self.assertEqual(report.result, [[*sent, "spoilt"]] * 2)
        self.assertEqual((report["pick"].result, many), (sent, [1]))
        self.assertEqual(report.changed, {1: (([1, 2], {1: 2}), sent)})
        report = rehearse(flow, through=lambda it: it)
        self.assertEqual((report["pick"].result[1], many), ({1: 2}, [1, 2]))
        self.assertIs(report.calls[0].args[0], many)

    def test_a_date_is_as_the_serializer_has_it(self):
        @self.task
        def day(given):
            return given
        report = rehearse(day.s(date(2026, 11, 29)))
        self.assertIn("2026-11-29", str(report.result))
        self.assertEqual(report.calls[0].args, [report.result])

    def test_what_cannot_be_sent(self):
        @self.task
        def made():
            return object()

        @self.task
        def told(_):
            return None
        report = rehearse(made.s() | told.s())
        self.assertRegex(report.result.kind, "EncodeError|TypeError")
        self.assertEqual((report.never_run, type(report.errors[1]).__name__),
                         (["told"], report.result.kind))
        with self.assertRaisesRegex(BadCall, "the argument <object .* can't be sent"):
            rehearse(told.s(object()))
        self.assertEqual(rehearse(made.s() | told.s(), through=lambda it: it).status, "SUCCESS")

    def test_a_result_that_is_a_signature(self):
        @self.task
        def made():
            return made.s()

        @self.task
        def read(sig):
            return sig["task"]
        self.assertEqual(rehearse(made.s() | read.s()).result, "made")


class Retries(WithCelery):
    """Tasks that are tried several times."""

    def setUp(self):
        super().setUp()

        @self.task(bind=True, autoretry_for=(OSError,), max_retries=2)
        def auto(self):
            return self.request.retries

        @self.task(bind=True, max_retries=3)
        def own(self, given):
            try:
                if self.request.retries < 2:
                    raise KeyError(given)
            except KeyError as error:
                raise self.retry(exc=error, countdown=60)
            return [given, self.request.retries, self.request.id]
        self.auto, self.own = auto, own

    def test_each_retry_is_made_at_once(self):
        report = rehearse(self.auto.s() | self.own.s())
        self.assertEqual(report.result, [0, 2, "00000000-0000-8000-8000-000000000002"])
        self.assertEqual([it.retries for it in report.calls], [0, 2])

    def test_an_exception_of_the_first_tries(self):
        report = rehearse(self.auto.s() | self.own.s(), {"auto": [OSError, OSError]})
        self.assertEqual((report.result[0], report.calls[0].retries), (2, 2))

    def test_an_exception_of_each_try(self):
        report = rehearse(self.auto.s() | self.own.s(), {self.auto: OSError("full")})
        self.assertEqual((report.result, report.calls[0].retries), (Failure("OSError"), 2))
        report = rehearse(self.auto.s() | self.own.s(), {"auto": KeyError})
        self.assertEqual((report.result, report.calls[0].retries), (Failure("KeyError"), 0))

    def test_retries_that_are_exceeded(self):
        @self.task(bind=True, max_retries=1)
        def never(self, given):
            raise self.retry()
        report = rehearse(never.s(1))
        self.assertEqual((report.result, report.calls[0].retries),
                         (Failure("MaxRetriesExceededError"), 1))

    def test_retries_without_end(self):
        @self.task(autoretry_for=(OSError,), max_retries=None)
        def endless():
            return 1
        with self.assertRaisesRegex(CanvasError, "#1 endless retries without end"):
            rehearse(endless.s(), {"endless": OSError})

    def test_eager_settings_change_nothing(self):
        self.app.conf.update(task_always_eager=True, task_eager_propagates=True)
        report = rehearse(self.auto.s() | self.own.s(), {"auto": OSError("no")})
        self.assertEqual((report.result, report.calls[0].retries), (Failure("OSError"), 2))
        self.assertTrue(self.app.conf.task_always_eager and self.app.conf.task_eager_propagates)


class ErrorCallbacks(WithCelery):
    """What the error callbacks of a failed task get."""

    def setUp(self):
        super().setUp()

        @self.task
        def bad(given):
            raise ValueError("no")
        self.bad = bad

    def test_each_kind(self):
        seen = []

        @self.task
        def old(uuid):
            return uuid

        @self.task(bind=True)
        def bound(self, uuid, more=None):
            return [uuid, more]

        @self.task
        def new(request, exc, traceback, more):
            seen.append((request.id, request.args, repr(exc), "ValueError: no" in traceback, more))

        @self.task
        def still():
            return "still"
        flow = self.bad.s(1.5).on_error(old.s()).on_error(bound.s(more=2)).on_error(new.s([3]))
        report = rehearse(flow.on_error(still.si()))
        self.assertEqual([it.result for it in report.rows[1:]],
                         [FIRST, [FIRST, 2], None, "still"])
        self.assertEqual(seen, [(FIRST, [1.5], "ValueError('no')", True, [3])])

    def test_those_called_in_place_come_at_once(self):
        @self.task
        def undo(request, exc, traceback):
            return 1

        @self.task
        def well(given):
            return given
        flow = celery.group(self.bad.s(1).on_error(undo.s()), well.s(2))
        self.assertEqual([it.name for it in rehearse(flow).calls], ["bad", "undo", "well"])
        self.assertEqual(rehearse_orders(flow).tried, 2)
        old = rehearse(flow, {"undo": lambda uuid: uuid})
        self.assertEqual([it.name for it in old.calls], ["bad", "undo", "well"])

    def test_one_that_raises(self):
        @self.task
        def undo(uuid, account):
            return 1
        report = rehearse(self.bad.s(1).on_error(undo.s("A")))
        self.assertEqual((report["undo"].status, report["undo"].result),
                         ("FAILURE", Failure("TypeError")))

    def test_a_result_that_is_looked_up(self):
        self.app.conf.update(result_backend="cache+memory://")

        @self.task
        def look(uuid):
            return repr(self.app.AsyncResult(uuid).get(propagate=False, timeout=1))

        @self.task
        def body(_):
            return 1
        flow = celery.chord([self.bad.s(1).on_error(look.s())], body.s().on_error(look.s()))
        for _ in range(2):
            report = rehearse(flow)
            self.assertEqual([it.answer for it in report.of("look")], [
                "ValueError('no')", f"ChordError(\"Dependency {FIRST} raised ValueError('no')\")"])
        self.assertEqual(self.app.AsyncResult(FIRST).state, "PENDING")


class AroundTasks(WithCelery):
    """What Celery does around a task, and what it may not do."""

    def test_base_classes_and_handlers(self):
        seen = []

        class Base(celery.Task):
            def __call__(self, *args, **kwargs):
                seen.append("call")
                return super().__call__(*args, **kwargs)

            def on_failure(self, exc, *_):
                seen.append(repr(exc))

            def on_success(self, value, *_):
                seen.append(value)

        @self.task(base=Base, ignore_result=True, throws=(KeyError,))
        def odd(given):
            return given * 2
        self.assertEqual(rehearse(odd.s(2) | odd.s()).result, 8)
        self.assertEqual(seen, ["call", 4, "call", 8])
        report = rehearse(odd.s(2) | odd.s(), {1: KeyError("k")})
        self.assertEqual((report.result, seen[4:]),
                         (Failure("KeyError"), ["call", "KeyError('k')"]))
        self.assertEqual(odd(5), 10)

    def test_signals(self):
        @self.task
        def half(given):
            return given / 2
        seen = []

        def note(sender=None, signal=None, **told):
            seen.append((sender.name, told.get("result"), repr(told.get("exception"))))
        for signal in (celery.signals.task_success, celery.signals.task_failure):
            signal.connect(note, sender=self.app.tasks["half"])
            self.addCleanup(signal.disconnect, note, sender=self.app.tasks["half"])
        rehearse(half.s(3) | half.s(), {2: KeyError("k")})
        self.assertEqual(seen, [("half", 1.5, "None"), ("half", None, "KeyError('k')")])

    def test_tasks_and_applications_stay_as_they_are(self):
        @self.task(bind=True)
        def odd(self, given):
            return given * 2

        @self.task(bind=True)
        def other(self):
            raise self.replace(odd.s(1))
        task, before = self.app.tasks["odd"], []
        before = [dict(vars(it)) for it in (task, self.app.tasks["other"], self.app)]
        rehearse(odd.s(2) | odd.s(), {1: KeyError("k")})
        with self.assertRaises(CanvasError):
            rehearse(odd.si(2) | other.si())
        with self.assertRaises(KeyboardInterrupt):
            rehearse(odd.s(2), {"odd": KeyboardInterrupt})
        after = [dict(vars(it)) for it in (task, self.app.tasks["other"], self.app)]
        self.assertEqual(before, after)

    def test_stand_ins(self):
        @self.task(bind=True)
        def ship(self, parcel):
            return "shipped"
        elsewhere = self.app.signature("elsewhere.bill")
        self.assertEqual(rehearse(ship.s(1), {"ship": lambda parcel: [parcel]}).result, [1])
        self.assertEqual(rehearse(ship.s(1) | elsewhere,
                                  {"elsewhere.bill": lambda it: it.upper()}).result, "SHIPPED")
        report = rehearse(ship.s(1) | elsewhere, {"*": 7})
        self.assertEqual((report["ship"].result, report.result), ("shipped", 7))
        with self.assertRaisesRegex(BadCall, "there is no task elsewhere.bill"):
            rehearse(ship.s(1) | elsewhere)

    def test_an_answer_doesn_t_hide_a_wrong_call(self):
        @self.task(bind=True)
        def ship(self, parcel):
            return "shipped"
        for answer in (7, OSError):
            self.assertEqual(rehearse(ship.s(1, 2), {"ship": answer}).result, Failure("TypeError"))
        self.assertEqual(rehearse(ship.s(1), {"ship": 7}).result, 7)

    def test_the_application_of_a_signature_is_found(self):
        @self.task
        def part(given):
            return given

        @self.task
        def whole(parts):
            return parts
        flow = celery.chain(celery.chord([part.s(1), part.s(2)], whole.s()), whole.s())
        self.assertEqual(rehearse(flow).result, [1, 2])

    def test_json_with_an_application(self):
        @self.task
        def twice(given):
            return given * 2
        self.assertEqual(rehearse({"task": "twice", "args": [4]}, app=self.app).result, 8)
        with self.assertRaisesRegex(BadCall, "there is no task twice"):
            rehearse({"task": "twice", "args": [4]})

    def test_what_a_rehearsal_doesn_t_follow(self):
        @self.task(bind=True)
        def other(self):
            raise self.replace(other.s())

        @self.task(bind=True)
        def more(self):
            self.add_to_chord(other.s())

        @self.task
        def ignored():
            raise celery.exceptions.Ignore()

        @self.task
        def rejected():
            raise celery.exceptions.Reject()
        for task, said in ((other, "#1 other replaces itself, and"), (more, "#1 more adds to its"),
                           (ignored, "#1 ignored ends as IGNORED"),
                           (rejected, "#1 rejected ends as REJECTED")):
            with self.assertRaisesRegex(CanvasError, said):
                rehearse(task.s())
            self.assertEqual(rehearse(task.s(), {task: lambda: 1}).result, 1)

    def test_what_tasks_send_by_themselves(self):
        @self.task
        def inner(given, by=None):
            raise AssertionError("it isn't run")

        @self.task
        def outer(given):
            inner.delay(given, by=1)
            (inner.s(2) | inner.s()).apply_async()
            return self.app.send_task("elsewhere", [given]).state
        for eager in (False, True):
            self.app.conf.task_always_eager = eager
            report = rehearse(outer.s(7))
            self.assertEqual(report.errors, {})
            self.assertEqual(report.result, "PENDING")
            self.assertEqual([tuple(it) for it in report.sent],
                             [(1, "inner", [7], {"by": 1}), (1, "inner", [2], {}),
                              (1, "elsewhere", [7], {})])
            self.assertNotIn("send_task", vars(self.app))

    def test_a_group_that_a_task_sends(self):
        self.app.conf.update(result_backend="cache+memory://")

        @self.task
        def inner(given):
            raise AssertionError("it isn't run")

        @self.task
        def outer():
            celery.group(inner.s(1), inner.s(2)).apply_async()
        report = rehearse(inner.s(0) | outer.si(), {1: 0}, again={2: "whole"})
        self.assertEqual([(it.by, it.args) for it in report.sent], [(2, [1]), (2, [2])] * 2)


class Keys(WithCelery):
    """A task where a name is taken."""

    def test_each_call(self):
        @self.task
        def ship(parcel):
            return parcel

        @self.task
        def thank(parcel):
            return parcel
        flow = ship.s(1) | thank.s()
        report = rehearse(flow, {ship: OSError})
        self.assertEqual((report[ship].raised, report.of(ship)[0].number), ("OSError", 1))
        self.assertIn(ship, report)
        report = what_if(flow, {ship: OSError})
        self.assertEqual((report[ship].raised, report.never_run), ("OSError", ["thank"]))
        self.assertIn(ship, report)
        report = rehearse(flow, again={thank: "lost"})
        self.assertEqual([it.name for it in report.calls], ["ship", "thank", "thank"])


if __name__ == "__main__":
    unittest.main()
