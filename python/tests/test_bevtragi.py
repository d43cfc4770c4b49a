"""Tests of the package, by `python/run-tests PROGRAM`, which says which ran.

Where Celery is installed the canvases are its own signatures too, besides the texts in flows/.
"""

import json
import os
import runpy
import shutil
import subprocess
import sys
import tempfile
import unittest
from datetime import date
from decimal import Decimal
from pathlib import Path
from unittest import mock

HERE = Path(__file__).resolve().parent
sys.path[:0] = [str(HERE.parent / "src"), str(HERE)]

import bevtragi
from dictionary import said_by
from bevtragi import (BadCall, CanvasError, Failure, Picture, Refused, Report, adapt, check,
                      every_failure, graph, messages, pytest_assertrepr_compare, run, what_if,
                      what_if_each)

try:
    import flows
except ImportError:
    flows = None

NAMES = ("order", "nightly", "media", "shops", "billing")


def flow(name):
    return HERE / "flows" / f"{name}.json"


def task(name, *args, **options):
    return {"task": name, "args": list(args), "options": options}


def chain(*tasks, **options):
    return {"task": "celery.chain", "subtask_type": "chain", "kwargs": {"tasks": list(tasks)},
            "options": options}


def group(*tasks):
    return {"task": "celery.group", "subtask_type": "group", "kwargs": {"tasks": list(tasks)}}


class Flows(unittest.TestCase):
    """Five canvases with arguments of any kind."""

    def test_all_goes_well(self):
        for name in NAMES:
            report = what_if(flow(name))
            self.assertEqual(report.status, "SUCCESS", name)
            self.assertEqual(report.failed, [], name)
            self.assertEqual(report.never_run, report.pending, name)

    def test_an_order_that_cannot_be_shipped(self):
        report = what_if(flow("order"), {"shop.ship": ConnectionError})
        self.assertEqual(report.failed, ["shop.ship", "shop.invoice", "shop.thank"])
        self.assertEqual(report.never_run, ["shop.invoice", "shop.thank"])
        self.assertEqual(report["shop.ship"].result, Failure("ConnectionError"))
        self.assertEqual(report[5].result, Failure("ChordError", 3, "ConnectionError"))
        self.assertEqual((report[5].ran, report[5].due_to, report[3].due_to), (False, 3, None))
        self.assertEqual(report.text(), "\n".join([
            "#1 shop.find SUCCESS 0",
            "#2 shop.charge SUCCESS 0",
            "#3 shop.ship FAILURE ConnectionError",
            "#4 shop.refund SUCCESS 0",
            "#5 shop.invoice FAILURE ChordError: Dependency #3 raised ConnectionError"
            " (not called, due to #3)",
            "#6 shop.thank FAILURE ChordError: Dependency #3 raised ConnectionError"
            " (not called, due to #3)",
            "result ChordError: Dependency #3 raised ConnectionError"]))

    def test_a_report_prints_as_the_program_explains(self):
        for name in NAMES:
            text = json.dumps(adapt(flow(name))).encode()
            for number, row in enumerate(what_if(flow(name)).rows, 1):
                stubs = ["--task", "*=7", "--task", f"{row.name}=raise:TypeError"]
                wanted = said_by(["run", "-", "--explain", *stubs], text)
                found = what_if(flow(name), {"*": 7, row.name: TypeError})
                self.assertEqual((found.text() + "\n").encode(), wanted)

    def test_one_of_several_namesakes(self):
        report = what_if(flow("nightly"), {2: TimeoutError})
        self.assertEqual([row.status for row in report.named("report.count")],
                         ["SUCCESS", "FAILURE", "SUCCESS"])
        self.assertEqual(report[4].result, Failure("ChordError", 2, "TimeoutError"))
        with self.assertRaisesRegex(KeyError, "the name of #1, #2, #3: take a number"):
            report["report.count"]
        self.assertIn("2 report.count(", report.graph())

    def test_an_error_callback_of_a_chain(self):
        for bad in ("bill.make", "bill.take", "bill.send"):
            report = what_if(flow("billing"), {bad: ValueError})
            self.assertEqual(report.ran.count("bill.alarm"), 1, bad)
        self.assertNotIn("bill.alarm", what_if(flow("billing")).ran)

    def test_chords_in_a_header(self):
        report = what_if(flow("shops"), {5: OSError})
        self.assertEqual(report.failed, ["shop.sold", "shop.sum", "report.sum"])
        self.assertEqual(report.result, Failure("ChordError", 6, "ChordError"))

    def test_the_workers_and_what_is_delivered_again_change_nothing(self):
        for name in NAMES:
            for row in what_if(flow(name)).rows:
                stubs = {row.name: RuntimeError}
                report = what_if(flow(name), stubs)
                self.assertEqual(what_if(flow(name), stubs, workers=4), report)
                self.assertEqual(what_if(flow(name), stubs, workers=2, turns=[2, 2, 1]), report)
                twice = what_if(flow(name), stubs, again=True)
                self.assertEqual(twice, report)
                self.assertEqual(twice.again, 2 * len(report.ran))
        again = what_if(flow("order"), again={"shop.ship": "late", 2: ("early", "late")}).again
        self.assertEqual(again, 3)

    def test_every_failure_of_more_tasks_than_are_asked_about_at_once(self):
        found = every_failure(chain(*(task("a") for _ in range(130))), {"a": 1})
        self.assertEqual(list(found), list(range(1, 131)))
        self.assertEqual(found[130].failed, ["a"])
        self.assertEqual((found[130][1].result, found.well[130].result), (1, 1))
        self.assertEqual(len(found[61].never_run), 130 - 61)

    def test_a_task_may_answer_otherwise_instead_of_failing(self):
        """Each of many runs is asked for, since the program has no one answer for them."""
        found = every_failure(chain(*(task("a") for _ in range(70))), {"a": 1}, error=5)
        self.assertEqual([*found], [*range(1, 71)])
        self.assertEqual([row.result for row in found[70].rows], [1] * 69 + [5])

    def test_one_call_for_all_failures_says_what_a_call_for_each_does(self):
        with mock.patch("bevtragi.failing.FEW", 0):
            there = every_failure(flow("order"), {"shop.find": 3})
        here = every_failure(flow("order"), {"shop.find": 3})
        self.assertEqual(here, there)
        self.assertEqual([str(it.rows) for it in here.values()],
                         [str(it.rows) for it in there.values()])

    def test_every_failure(self):
        found = every_failure(flow("order"), error=ConnectionError)
        self.assertEqual([*found], [1, 2, 3, 4, 5, 6])
        for number, report in found.items():
            alone = what_if(flow("order"), {report[number].name: ConnectionError})
            self.assertEqual(report, alone)
        lines = [line.partition("; Celery ")[0] for line in str(found).splitlines()]
        self.assertEqual(lines[2:4], [
            "#3 shop.ship fails: result ChordError: Dependency #3 raised ConnectionError"
            "; also called: #4 shop.refund; not called: #5 shop.invoice, #6 shop.thank",
            "#4 shop.refund fails: result 0"])
        self.assertEqual([it.name for it in every_failure(flow("nightly"))[2].rows[:3]],
                         ["report.count"] * 3)
        found = every_failure(chain(task("a"), task("b")), {"a": 5})
        self.assertEqual((found[2][1].result, found.well[1].result), (5, 5))

    def test_pictures_have_the_tasks_as_they_were_composed(self):
        picture = what_if(flow("order"), {"shop.ship": ConnectionError}).graph()
        for text in (""" label="2 shop.charge(amount='19.00', card='4242')\\nSUCCESS 0"];""",
                     """\\nFAILURE ConnectionError"];""",
                     """6 shop.thank('en')\\nFAILURE ChordError:\\n3 raised ConnectionError\\n"""):
            self.assertIn(text, picture)
        self.assertIn("""label="6 shop.thank('en')"];""", graph(flow("order")))

    @unittest.skipIf(flows is None, "Celery isn't installed")
    def test_signatures_of_celery(self):
        for name in NAMES:
            sig = flows.FLOWS[name]()
            self.assertEqual(json.loads(json.dumps(sig, default=str)),
                             json.loads(flow(name).read_text()))
            before = repr(sig)
            self.assertEqual(what_if(sig), what_if(flow(name)))
            self.assertEqual(repr(sig), before)

    def test_the_example(self):
        found = runpy.run_path(str(HERE.parent / "examples" / "test_orders.py"))
        tests = [it for name, it in found.items() if name.startswith("test_")]
        self.assertEqual(len(tests), 3)
        for it in tests:
            it()


class Answers(unittest.TestCase):
    """What tasks answer."""

    def test_the_programs_own_tasks_and_others_that_behave_so(self):
        report = run(chain(task("tasks.add", 4, 4), task("shop.double", 2)), {"shop.double": "mul"})
        self.assertEqual((report.result, report["shop.double"].name), (16, "shop.double"))
        self.assertEqual(run(task("shop.double", 2)).result, Failure("NotRegistered"))
        report = run(chain(task("tasks.add", 4, 4), task("a"), task("b")), {"*": 7, "b": "ident"})
        self.assertEqual([row.result for row in report.rows], [8, 7, 7])
        self.assertEqual(what_if(task("tasks.add", 4, 4)).result, 0)
        self.assertEqual(what_if(task("tasks.add", 4, 4), {"*": 3}).result, 3)
        self.assertEqual(run(group(task("a"), task("a")), {1: 3, "a": 4}).result, [3, 4])

    def test_each_exception_of_the_program(self):
        for kind in (ZeroDivisionError, TypeError(), OverflowError("much"), "raise:NotRegistered"):
            name = kind[6:] if isinstance(kind, str) else getattr(kind, "__name__", None) or \
                type(kind).__name__
            self.assertEqual(run(task("a"), {"a": kind}).result, Failure(name))

    def test_other_exceptions(self):
        errors = {"a": KeyError, "b": OSError, "c": TypeError, "d": ValueError, "e": LookupError}
        found = what_if(group(*map(task, "abcde")), errors)
        names = ["KeyError", "OSError", "TypeError", "ValueError", "LookupError"]
        self.assertEqual([str(it) for it in found.result], names)
        for name in names:
            self.assertIn(f'\\nFAILURE {name}"]', found.graph())

    def test_an_exception_of_a_users_own(self):
        class OutOfStock(KeyError):
            """One whose base has a name, too."""
        for error in (OutOfStock, OutOfStock("A-17")):
            self.assertEqual(what_if(task("a"), {"a": error}).result, Failure("OutOfStock"))

    def test_exceptions_that_tasks_raise_by_themselves(self):
        over = task("tasks.mul", 2 ** 60, 2)
        found = run(group(task("a"), over, task("b")), {"a": KeyError})
        self.assertEqual([it.kind for it in found.result],
                         ["KeyError", "OverflowError", "NotRegistered"])
        found = run(group(task("a"), over), {"a": KeyError, "tasks.mul": OverflowError})
        self.assertEqual([it.kind for it in found.result], ["KeyError", "OverflowError"])
        found = run(chain(task("a"), over), {"*": KeyError})
        self.assertEqual([it.result.kind for it in found.rows], ["KeyError", "KeyError"])

    def test_answers_that_are_none(self):
        for answer in (1.5, None, True, [1, "x"], {}, int, KeyboardInterrupt):
            with self.assertRaisesRegex(BadCall, "a task can't answer"):
                run(task("a"), {"a": answer})
        for answer in ("text", "tasks.add", 2 ** 60 + 1, "", "raise:", "raise:two words"):
            with self.assertRaisesRegex(BadCall, "^BadTask: a="):
                run(task("a"), {"a": answer})
        with self.assertRaisesRegex(BadCall, "raise:Retry: no exception that a task fails with"):
            run(task("a"), {"a": "raise:Retry"})

    def test_a_name_that_no_task_has(self):
        for words, said in (({"shop.shp": 0}, "shop.shp: no task has this name, did you mean shop.ship"),
                            ({7: 0}, "#7: no task has this number"),
                            ({0: 0}, "#0=0: #NUMBER=WORD is wanted")):
            with self.assertRaisesRegex(BadCall, said):
                what_if(flow("order"), words)
        with self.assertRaisesRegex(BadCall, "did you mean shop.ship"):
            what_if(flow("order"), again={"shop.shp": "late"})
        with self.assertRaisesRegex(BadCall, "7 is no task of the canvas"):
            what_if(flow("order"), again={7: "late"})
        self.assertIsInstance(what_if_each([b"["], {"shop.shp": 0})[0], Refused)
        with self.assertRaisesRegex(BadCall, "did you mean shop.ship"):
            what_if_each([flow("order"), task("b")], {"shop.shp": 0})
        self.assertEqual(len(what_if_each([flow("order"), task("b")], {"b": 0})), 2)

    def test_what_a_run_does_not_take(self):
        with self.assertRaisesRegex(BadCall, "17.*--workers"):
            what_if(task("a"), workers=17)
        with self.assertRaisesRegex(BadCall, "BadTurn"):
            what_if(task("a"), turns=[2])
        with self.assertRaisesRegex(BadCall, "BadAgain"):
            what_if(task("a"), again={"a": "later"})


class Many(unittest.TestCase):
    """Many canvases of one call."""

    def test_each_is_what_it_is_alone(self):
        canvases = [flow("order"), task("a"), chain(), flow("billing").read_text(), b"[", group()]
        found = what_if_each(canvases, {"*": 5})
        for canvas, it in zip(canvases, found):
            if isinstance(it, Report):
                self.assertEqual(it, what_if(canvas, {"*": 5}))
            else:
                with self.assertRaises(Refused) as caught:
                    what_if(canvas, {"*": 5})
                self.assertEqual(str(it), str(caught.exception))
        self.assertEqual([type(it) for it in found],
                         [Report, Report, Refused, Report, Refused, Report])
        self.assertEqual(what_if_each([]), [])

    def test_more_than_one_call_takes(self):
        canvases = [task("a", 0, number) for number in range(70)]
        with mock.patch("bevtragi.asking.MOST", 7):
            found = what_if_each(canvases, {"a": 6})
        self.assertEqual([it.result for it in found], [6] * 70)

    def test_answers_by_number(self):
        found = what_if_each([group(task("a"), task("a")), chain(task("b"), task("c"))], {2: 6})
        self.assertEqual([it.result for it in found], [[0, 6], 6])

    def test_a_line_feed_in_a_text(self):
        text = b'{"task": "a",\n "args": ["x\ny"]}'
        with self.assertRaises(Refused):
            what_if(text)
        self.assertIsInstance(what_if_each([text])[0], Refused)


class Reports(unittest.TestCase):
    """Comparisons, and what notebooks show."""

    def test_the_rows_that_differ_are_shown(self):
        one, other = what_if(flow("order")), what_if(flow("order"), {"shop.thank": KeyError})
        self.assertNotEqual(one, other)
        self.assertEqual(pytest_assertrepr_compare("==", one, other)[1:], [
            "- #6 shop.thank SUCCESS 0", "+ #6 shop.thank FAILURE KeyError",
            "- result 0", "+ result KeyError"])
        self.assertIsNone(pytest_assertrepr_compare("==", one, 5))
        self.assertIsNone(pytest_assertrepr_compare("!=", one, other))
        self.assertEqual(one.differences(what_if(task("shop.find")))[:2],
                         ["- #2 shop.charge SUCCESS 0", "- #3 shop.ship SUCCESS 0"])

    def test_reports_that_differ_in_one_row_are_not_equal(self):
        well = what_if(chain(task("a"), task("b")))
        for canvas, answers in ((chain(task("a"), task("b")), {"a": 1}),
                                (chain(task("c"), task("b")), {}),
                                (chain(task("a")), {})):
            other = what_if(canvas, answers)
            self.assertNotEqual(well, other)
            self.assertNotEqual(other, well)

    def test_lists_have_every_task(self):
        alarms = {"link_error": [task("alarm", 1), task("alarm", 2)]}
        report = what_if(chain(task("a", **alarms), *[task("b")] * 5))
        self.assertEqual((report.pending, report.never_run), (["alarm"] * 2, ["alarm"] * 2))
        self.assertEqual([row.number for row in report.named("b")], [4, 5, 6, 7, 8])
        self.assertEqual(report.succeeded, ["a"] + ["b"] * 5)

    def test_a_group_fails_with_any_of_its_members(self):
        report = what_if(group(task("a"), task("b"), task("c")), {"b": KeyError})
        self.assertEqual((report.status, report.result), ("FAILURE", [0, Failure("KeyError"), 0]))

    def test_tasks_past_the_first_256(self):
        report = what_if(chain(*[task("a")] * 300), {290: KeyError})
        self.assertEqual((report[289].due_to, report[291].due_to, report[300].due_to),
                         (None, 290, 290))
        chord = {"task": "celery.chord", "subtask_type": "chord",
                 "kwargs": {"header": [task("a")] * 300, "body": task("b")}}
        self.assertEqual(what_if(chord, {290: KeyError}).result,
                         Failure("ChordError", 290, "KeyError"))

    def test_a_picture_has_each_of_many_answers(self):
        names = [f"shop.{number}" for number in range(30)]
        report = what_if(group(*map(task, names)), {**dict.fromkeys(names, 1), names[-1]: KeyError})
        self.assertIn("FAILURE KeyError", report.graph())
        self.assertEqual(report.graph().count("SUCCESS 1"), 29)

    def test_what_a_notebook_shows(self):
        self.assertEqual(repr(what_if(task("a"))), "#1 a SUCCESS 0\nresult 0")
        picture = graph(task("a"))
        self.assertTrue(repr(picture).startswith("digraph"))
        with mock.patch("shutil.which", lambda name: None):
            self.assertIsNone(picture._repr_svg_())
        with tempfile.TemporaryDirectory() as room, mock.patch.dict(os.environ, {"PATH": room}):
            dot = Path(room, "dot")
            dot.write_text("#!/bin/sh\necho '<svg/>'\n")
            dot.chmod(0o755)
            self.assertEqual(picture._repr_svg_(), "<svg/>\n")

    def test_a_picture_by_a_dot_that_fails(self):
        with tempfile.TemporaryDirectory() as room, mock.patch.dict(os.environ, {"PATH": room}):
            with self.assertRaisesRegex(CanvasError, "Graphviz makes no picture"):
                Picture("digraph").svg()


class Profile(unittest.TestCase):
    """What is refused, and the figures of what isn't."""

    def test_a_refusal_says_where_and_what(self):
        with self.assertRaises(Refused) as caught:
            run(flow("order"))
        error = caught.exception
        self.assertEqual((error.code, error.name, error.task), (5, "BadArgs", "shop.ship"))
        self.assertEqual(error.pointer, "/kwargs/tasks/1/kwargs/header/1")
        self.assertIn("5 BadArgs in shop.ship at /kwargs/tasks/1/kwargs/header/1: found args[0] an"
                      " object", str(error))

    def test_every_command_refuses_alike(self):
        inner = chain(task("b"), group(task("a"), task("b")))
        for call in (run, what_if, check, graph, messages, adapt, every_failure):
            with self.assertRaisesRegex(Refused, "10 NestedGroup in celery.chain at /kwargs/tasks"):
                call(group(inner))
        for wrong in ({}, {"task": ""}, {"task": 5}):
            with self.assertRaisesRegex(Refused, "3 NotSignature at the top: found task"):
                what_if(wrong)
        with self.assertRaisesRegex(Refused, "^2 NotJson: invalid JSON at line 1 column 10"):
            what_if('{"task": "')
        with self.assertRaisesRegex(Refused, "12 TooMany in a at /kwargs/tasks/1024"):
            what_if(chain(*[task("a")] * 1025))

    def test_what_is_refused_otherwise_once_it_is_adapted(self):
        with self.assertRaises(Refused) as caught:
            what_if(group(task("a", 1.5), chain(task("b"), group(task("a"), task("b")))))
        self.assertEqual(str(caught.exception), "10 NestedGroup")

    def test_what_is_no_canvas(self):
        loop = {"task": "a"}
        loop["args"] = [loop]
        for wrong, said in (("flow.json", "'flow.json' is no canvas"), (print, "is no canvas"),
                            (None, "is no canvas"), (loop, "can't be written as JSON"),
                            ({(1, 2): 3}, "can't be written as JSON"),
                            (HERE / "none.json", "none.json can't be read: No such file")):
            with self.assertRaisesRegex(BadCall, said):
                what_if(wrong)

    def test_figures(self):
        figures = check(adapt(flow("order")), {"*": 0})
        self.assertEqual((figures["tasks"], figures["groups and chords"], figures["messages"]),
                         (6, 1, 5))

    def test_messages(self):
        first, second = messages(chain(task("tasks.add", 2, 2), task("tasks.mul", 8)))
        self.assertEqual((first["headers"]["task"], second["body"][0]), ("tasks.add", [4, 8]))
        self.assertEqual(messages(group()), [])
        canvas = chain(task("shop.a"), task("shop.b"))
        self.assertEqual([it["body"][0] for it in messages(canvas, {"shop.a": 7})], [[], [7]])

    def test_what_json_does_not_know_becomes_its_text(self):
        picture = graph(task("a", date(2026, 11, 26), Decimal("19.00")))
        self.assertIn("a('2026-11-26', '19.00')", picture)


class Programs(unittest.TestCase):
    """Where the program is, and programs that are none."""

    def fake(self, text, mode=0o755):
        """A program that says its version, and else does this."""
        room = tempfile.TemporaryDirectory()
        self.addCleanup(room.cleanup)
        path = Path(room.name, "canvas")
        version = 'if [ "$1" = --version ]; then echo canvas 1.0.0; exit; fi'
        path.write_text(f"#!/bin/sh\n{version}\n{text}\n")
        path.chmod(mode)
        return mock.patch.dict(os.environ, {"CANVAS": str(path)})

    def test_what_it_is(self):
        found = bevtragi.program()
        self.assertEqual((found.version, len(found.digest)), ("1.0.0", 64))
        self.assertTrue(os.access(found.path, os.X_OK))

    def test_programs_that_give_no_answer(self):
        for text, said in (("", "`canvas run` ended with status 0: it said nothing"),
                           ("echo no", "`canvas run` answered what can't be read"),
                           ("kill -9 $$", "`canvas run` was killed by signal 9"),
                           ("echo canvas: memory refused >&2; exit 2", "status 2: canvas: memory"),
                           ("echo '{}'; echo canvas: stopped >&2; exit 2", "status 2: canvas: stopp"),
                           ("printf 'canvas: \\377\\n' >&2; exit 2", "status 2: canvas: \ufffd$"),
                           ("echo \"error: unexpected argument '--json' found\" >&2; exit 1",
                            "status 1: error: unexpected argument '--json' found")):
            with self.fake(text), self.assertRaisesRegex(CanvasError, said):
                what_if(task("a"))
            # With 2 workers the program is called anew; with one, the process that stays is asked.
            with self.fake(text), self.assertRaisesRegex(CanvasError, said):
                what_if(task("a"), workers=2)
        with self.fake("sleep 5"), mock.patch("bevtragi.calling.SECONDS", 0.2):
            with self.assertRaisesRegex(CanvasError, "took more than 0.2 seconds"):
                what_if(task("a"))
        with self.fake("head -n 1", 0o644), self.assertRaisesRegex(CanvasError, "can't be called"):
            what_if(task("a"))
        with self.fake("echo '{}'"), self.assertRaisesRegex(CanvasError, "gave 1 lines for 2"):
            what_if_each([task("a"), task("b")])

    def test_what_it_is_called_with(self):
        with tempfile.TemporaryDirectory() as room:
            words = Path(room, "words")
            with self.fake(f'echo "$@" >>{words}; exec {bevtragi.program().path} "$@"'):
                run(task("a"), workers=3)
                run(task("a"), workers=2, turns=[2, 1])
                run(task("a"), again={"a": "early"})
            said = words.read_text().splitlines()
        self.assertIn("run - --workers=3 --json", said)
        self.assertIn("turns - --workers=2 --turns=2,1 --again= --json", said)
        self.assertIn("turns - --workers=1 --turns= --again=a:early --json", said)

    def test_other_programs(self):
        for path, said in (("/nowhere/canvas", "/nowhere/canvas can't be called"),
                           ("/bin/true", "is another program")):
            with mock.patch.dict(os.environ, {"CANVAS": path}):
                with self.assertRaisesRegex(CanvasError, said):
                    what_if(task("a"))
        with self.fake(""), mock.patch("bevtragi.calling.VERSION", "0.2.0"):
            with self.assertRaisesRegex(CanvasError, "1.0.0, and this package calls 0.2.0"):
                what_if(task("a"))

    def test_a_checkout_without_a_build(self):
        with tempfile.TemporaryDirectory() as top:
            Path(top, "crates.txt").touch()
            script = Path(top, "canvas")
            script.write_text("#!/bin/sh\n[ \"$CANVAS_NO_BUILD\" = 1 ] || touch built\n"
                              "[ -e there ] || exit 126\n")
            script.chmod(0o755)
            with mock.patch.dict(os.environ, {"CANVAS": str(script)}):
                with self.assertRaisesRegex(CanvasError, "there is no build of the sources in"):
                    what_if(task("a"))
            self.assertFalse(Path(top, "built").exists())


if __name__ == "__main__":
    unittest.main()
