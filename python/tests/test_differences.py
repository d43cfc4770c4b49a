"""Tests of what reports say of the installed Celery: notes, warnings, differences() and cured()."""

import json
import sys
import unittest
from pathlib import Path
from unittest import mock

HERE = Path(__file__).resolve().parent
sys.path[:0] = [str(HERE.parent / "src"), str(HERE)]

from bevtragi import (CanvasError, Refused, Warning, check, cured, differences, every_failure, run,
                      what_if, what_if_each)
from bevtragi.celery_run import Judge

try:
    import celery
    from celery import Signature, chain, signature
except ImportError:
    celery = None
else:
    import user_flows
    import user_tasks
    from user_tasks import OutOfStock, app

ORDER = HERE / "flows" / "order.json"
WITHOUT = mock.patch.dict(sys.modules, {"celery": None})
#: The exception of Celery's own that replaces a failure, and the versions that have the error.
OWN = {"5.2.6": "TypeError", "5.5.2": "ValueError"}

#: A test of what these versions do.
tried = unittest.skipUnless(getattr(celery, "__version__", None) in OWN, "another Celery")


def s(name, *args, **kwargs):
    return signature(name, args, kwargs)


class WithoutCelery(unittest.TestCase):
    """What a caller without Celery sees is what the program says."""

    @WITHOUT
    def test_reports_have_no_note(self):
        report = what_if(ORDER, {"shop.charge": ConnectionError})
        self.assertEqual((report.note, str(report)), ("", report.text()))
        self.assertFalse(hasattr(report, "on_celery"))
        self.assertEqual(str(report).splitlines()[-1],
                         "result ChordError: Dependency #2 raised ConnectionError")
        self.assertNotIn("Celery", str(every_failure(ORDER)))
        for call in (lambda: report.on_celery, lambda: differences(ORDER), lambda: cured(ORDER)):
            with self.assertRaisesRegex(CanvasError, "Celery isn't installed here"):
                call()

    def test_a_list_is_shown_as_the_program_shows_it(self):
        pair = {"task": "celery.group", "subtask_type": "group",
                "kwargs": {"tasks": [{"task": "a"}, {"task": "b"}]}}
        self.assertEqual(what_if(pair, {"a": 1, "b": OSError}).text().splitlines()[-1],
                         "result [1, OSError]")


class Warnings(unittest.TestCase):
    """What check() and reports warn of."""

    def test_figures_and_warnings(self):
        figures = check(ORDER, {"*": 0})
        self.assertEqual((figures["tasks"], dict(figures)["groups and chords"]), (6, 1))
        self.assertEqual(figures.warnings, [
            Warning("failure-before-group", "celery.chord", "/kwargs/tasks/1",
                    "Celery leaves it pending where the task before it fails", 1),
            Warning("body-without-id", "celery.chain", "/kwargs/tasks/1/kwargs/body",
                    "Celery leaves it pending where a member of the header fails, and may call"
                    " error callbacks of another task", 1)])
        self.assertEqual(what_if(ORDER).warnings, figures.warnings)
        unknown = [it for it in check(ORDER).warnings if it.kind == "NotRegistered"]
        self.assertEqual([(it.task, it.count) for it in unknown], [("shop.find", 6)])
        self.assertEqual(str(figures.warnings[0]),
                         "celery.chord at /kwargs/tasks/1: Celery leaves it pending where the task"
                         " before it fails (failure-before-group)")

    def test_several_that_are_alike(self):
        two = [{"task": "a", "options": {"queue": "x"}}, {"task": "b", "options": {"queue": "y"}}]
        canvas = {"task": "celery.chain", "subtask_type": "chain", "kwargs": {"tasks": two}}
        self.assertEqual(str(check(canvas, {"*": 0}).warnings[0]),
                         "a at /kwargs/tasks/0, the first of 2: options.queue is ignored"
                         " (ignored-options)")

    def test_what_is_outside_the_profile_is_refused_where_it_is(self):
        with self.assertRaisesRegex(Refused, "3 NotSignature at the top"):
            check({})

    def test_reports_of_a_run_have_neither(self):
        report = run({"task": "a"}, {"a": 1})
        self.assertEqual((report.note, report.warnings), ("", []))
        with self.assertRaisesRegex(CanvasError, "of what_if"):
            report.on_celery


@unittest.skipIf(celery is None, "Celery isn't installed")
class Notes(unittest.TestCase):
    """What is done otherwise."""

    def note(self, flow, fails, **how):
        return what_if(flow, {fails: OutOfStock} if fails else {}, **how).note

    @tried
    def test_the_refund_of_a_parcel_that_was_shipped(self):
        report = what_if(user_flows.order(), {"shop.charge": OutOfStock})
        wanted = {"5.2.6": "Celery 5.2.6 also calls shop.refund unless the failure comes last;"
                           " get() raises TypeError if the failure comes last"}
        self.assertEqual(report.note, wanted.get(celery.__version__, ""))
        self.assertEqual(str(report), "\n".join(filter(None, [report.text(), report.note])))
        first = self.note(user_flows.order_without_find(), "shop.charge")
        self.assertEqual(first, f"Celery {celery.__version__} also calls shop.refund unless the"
                         f" failure comes last; get() raises {OWN[celery.__version__]} if the"
                         " failure comes last")

    def test_no_difference_is_no_note(self):
        for flow in (user_flows.order(), user_flows.film(), user_flows.night()):
            report = what_if(flow)
            self.assertEqual((report.note, str(report)), ("", report.text()))

    def test_a_caller_who_waits_forever(self):
        self.assertEqual(self.note(user_flows.copies(), "film.fetch"),
                         f"Celery {celery.__version__}: get() waits forever")

    def test_an_alarm_that_is_lost(self):
        for flow in (user_flows.order_with_alarm(), user_flows.film()):
            for fails in ("shop.ship", "film.upload"):
                if fails in Judge(flow).marked.names.values():
                    self.assertRegex(self.note(flow, fails), "never calls (shop.alarm|film.clean)")

    def test_each_line_of_every_failure(self):
        lines = str(every_failure(user_flows.copies())).splitlines()
        self.assertTrue(lines[0].endswith(
            f"film.upload; Celery {celery.__version__}: get() waits forever"))
        self.assertNotIn("Celery", "".join(lines[1:]))

    def test_reports_are_equal_as_before(self):
        flow = user_flows.copies()
        fails = {"film.fetch": OutOfStock}
        report = what_if(flow, fails)
        with WITHOUT:
            self.assertEqual(what_if(flow, fails), report)
        self.assertEqual(what_if(flow, fails, workers=4, again=True), report)
        each = what_if_each([flow, flow], fails)
        self.assertEqual(each, [report, report])
        self.assertEqual(each[0].note, report.note)

    def test_the_report_of_celery_is_made_when_it_is_asked_for(self):
        with mock.patch.object(Judge, "run") as asked:
            report = what_if(user_flows.order())
            report == what_if(user_flows.order())
            self.assertEqual(asked.call_count, 0)
        self.assertEqual(report.on_celery.called[0], "shop.find")
        self.assertIs(report.on_celery, report.on_celery)

    def test_answers_that_behave_as_the_programs_tasks(self):
        canvas = chain(s("a", 4, 4), s("b", 2))
        report = what_if(canvas, {"a": "add", "b": "mul"})
        self.assertEqual((report.on_celery.result, report.result), (16, 16))
        report = what_if(canvas, {"a": "raise:OutOfPaper"})
        self.assertEqual((report.on_celery.status, report.note), ("FAILURE", ""))

    def test_a_celery_that_is_not_known(self):
        with mock.patch.dict(sys.modules, {"bevtragi.celery_session": None}):
            report = what_if(user_flows.order())
            with self.assertRaisesRegex(CanvasError, "isn't as it is known here"):
                report.on_celery
            self.assertRegex(str(report), "\nCelery can't be asked: CanvasError: Celery ")

    def test_a_canvas_that_is_changed_later(self):
        flow = user_flows.copies()
        report = what_if(flow, {"film.fetch": OutOfStock})
        flow["kwargs"]["tasks"] = []
        self.assertIn("waits forever", report.note)


@unittest.skipIf(celery is None, "Celery isn't installed")
class Differences(unittest.TestCase):
    """Where production does otherwise."""

    def test_none(self):
        for flow in (user_flows.order_of_one_invoice(), user_flows.trap(),
                     s("a") | s("b"), user_flows.night_of_a_map(), s("a")):
            self.assertEqual(differences(flow), [])

    @tried
    def test_sentences(self):
        version, own = celery.__version__, OWN[celery.__version__]
        self.assertEqual(differences(user_flows.order_without_find()), [
            f"If #1 shop.charge fails, Celery {version} also calls shop.refund unless the failure"
            f" comes last; get() raises {own} if the failure comes last",
            f"If #2 shop.ship fails, Celery {version}: get() raises {own} if the failure comes last"
        ])
        self.assertEqual(differences(user_flows.copies()), [
            f"If #1 film.fetch fails, Celery {version}: get() waits forever"])

    def test_a_map_and_its_alarms_are_no_difference(self):
        canvas = user_tasks.count.map(["DE", "FR"]).on_error(s("alarm")) | s("sum")
        self.assertEqual(differences(canvas), [])
        self.assertEqual(differences(user_tasks.count.chunks([("DE",), ("FR",)], 1)), [])

    def test_an_application_tells_before_any_run(self):
        for flow, kind, said in (
                (user_flows.trap(), "ErrorCallback", "shop.post at /kwargs/tasks/0/options/"
                 "link_error/0: Celery calls it in place with request, exception and traceback"),
                (user_flows.wrong_call(), "WrongCall", "shop.charge at /kwargs/tasks/1: its"
                 " parameters don't take the call: missing a required "),
                (user_flows.stranger(), "NotRegistered", "shop.unknown at /kwargs/tasks/1: the"
                 " application has no task of this name")):
            self.assertIn(said, differences(flow, app)[0])
            for found in (what_if(flow, app=app).warnings, check(flow, app=app).warnings,
                          every_failure(flow, app=app).well.warnings):
                self.assertEqual([it.kind for it in found], [kind])
            self.assertIn(said, str(what_if(flow, app=app)))
            self.assertNotIn(said, str(what_if(flow)))

    def test_calls_that_fit(self):
        for name in ("order", "order_with_alarm", "film", "copies", "night", "nights", "shops",
                     "night_with_links", "night_of_a_map", "chain_in_chain"):
            found = what_if(user_flows.FLOWS[name](), app=app).warnings
            self.assertFalse({it.kind for it in found}
                             & {"WrongCall", "ErrorCallback", "NotRegistered"}, name)


@unittest.skipIf(celery is None, "Celery isn't installed")
class Cured(unittest.TestCase):
    """The signature to start."""

    @tried
    def test_the_orders(self):
        for name in ("order", "order_without_find", "order_with_alarms"):
            flow = user_flows.FLOWS[name]()
            before = json.dumps(flow, default=str)
            self.assertEqual(differences(cured(flow), app), [], name)
            self.assertEqual(json.dumps(flow, default=str), before)

    @tried
    def test_what_is_left_is_named(self):
        left = differences(cured(user_flows.order_with_alarm()))
        self.assertEqual(left, [
            f"If #{number} {name} fails, Celery {celery.__version__} never calls shop.alarm"
            for number, name in ((2, "shop.charge"), (3, "shop.ship"))])

    def test_it_means_the_same(self):
        for make in user_flows.FLOWS.values():
            flow = make()
            try:
                meant = every_failure(flow)
            except Refused:
                continue
            self.assertEqual(meant, every_failure(cured(flow)))

    def test_it_can_be_started_by_the_users_application(self):
        for flow in (user_flows.order(), user_flows.night(), user_flows.order_without_find()):
            found = cured(flow)
            self.assertIs(type(found), type(flow))
            self.assertIs(found.app, app)
        self.assertIsInstance(cured(ORDER), Signature)

    def test_each_start_has_identifiers_of_its_own(self):
        flow = user_flows.order()
        self.assertNotEqual(json.dumps(cured(flow)), json.dumps(cured(flow)))
        whole = user_flows.order_of_one_invoice()
        self.assertEqual(json.dumps(cured(whole)), json.dumps(whole))


if __name__ == "__main__":
    unittest.main()
