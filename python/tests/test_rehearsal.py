"""Tests of rehearsals with functions by name, without Celery."""

import contextlib
import json
import sys
import tempfile
import threading
import time
import unittest
from pathlib import Path
from unittest import mock

HERE = Path(__file__).resolve().parent
sys.path[:0] = [str(HERE.parent / "src"), str(HERE)]

from bevtragi import (BadCall, CanvasError, Failure, Refused, rehearse, rehearse_failures,
                      rehearse_orders, rehearse_redeliveries, what_if)
from bevtragi import rehearsed_program
from bevtragi.rehearsed_calls import Calls
from plain_canvases import chain, chord, group, s

#: A chord that fails: its members, with error callbacks, and its body, with two.
FAILING = chain(s("a"), chord([s("bad", errors=[s("e")]), s("b")],
                              s("c", errors=[s("e"), s("new")])), s("d"))


def bad(_):
    raise KeyError("which")


def numbers(report):
    return [it.number for it in report.calls]


class Results(unittest.TestCase):
    """What is passed from task to task."""

    def test_results_of_any_kind(self):
        model = object()
        tasks = {"a": lambda it, by: (it, by), "b": lambda one, scale: {"one": one, "scale": scale},
                 "c": lambda parts, last=None: [parts, last], "m": model}
        canvas = chain(s("a", 1.5, by=None), chord([s("b", scale=2), s("m")],
                                                   s("c", last={1: "x"})))
        report = rehearse(canvas, tasks)
        self.assertEqual(report.result, [[{"one": (1.5, None), "scale": 2}, model], {1: "x"}])
        self.assertEqual((report.status, numbers(report)), ("SUCCESS", [1, 2, 3, 4]))
        self.assertEqual(report["a"].result, (1.5, None))
        self.assertEqual(report.of("c")[0].kwargs, {"last": {1: "x"}})
        self.assertEqual(report.changed, {})

    def test_arguments_are_passed_as_they_are_written(self):
        odd = {"tasks": [1], "it": "~0", "header": {"task": "a"},
               "n": "00000000-0000-8000-8000-000000000001"}
        report = rehearse(chain(s("a", "~1", True, 1, 1.0, "", **odd), s("b", 7, immutable=True)),
                          {"a": lambda *args, **kwargs: [args, kwargs], "b": lambda *args: args})
        self.assertEqual(repr(report["a"].result[0]), repr(("~1", True, 1, 1.0, "")))
        self.assertEqual(report["a"].result[1], odd)
        self.assertEqual(report["b"].result, (7,))

    def test_arguments_that_cannot_be_compared(self):
        class Table:
            def __ne__(self, other):
                raise ValueError("ambiguous")
            __eq__ = __ne__
        one, two = Table(), Table()
        report = rehearse(chain(s("a", one), s("b", two)), {"a": lambda it: it,
                                                            "b": lambda it, own: [it, own]})
        self.assertIs(report.result[0], one)
        self.assertIs(report.result[1], two)
        same, other = ({"a": Table(), "b": it} for it in (1, 2))
        canvas = chain(s("a"), s("b"))
        self.assertEqual(rehearse(canvas, same), rehearse(canvas, same))
        self.assertNotEqual(rehearse(canvas, same), rehearse(canvas, other))

    def test_each_call_has_a_copy_of_its_own(self):
        def spoil(it):
            it.append(1)
            return it
        canvas = group(s("spoil", (0, [7])), s("spoil", (0, [7])))
        tasks = {"spoil": lambda it: [*spoil(it[1]), type(it)]}
        self.assertEqual(rehearse(canvas, tasks).result, [[7, 1, tuple]] * 2)
        self.assertFalse(rehearse_orders(canvas, tasks))
        canvas = chain(s("a"), group(s("spoil"), s("spoil")))
        self.assertEqual(rehearse(canvas, {"a": [7], "spoil": spoil}).result, [[7, 1]] * 2)

    def test_an_error_callback_that_is_written_twice_is_called_once(self):
        for make in (lambda: float("1.5"), lambda: [{"x": 1}], lambda: tuple([2, 3])):
            one, two = (s("told", make(), immutable=True) for _ in range(2))
            flow = {**chain(s("a", errors=[one])), "options": {"link_error": [two]}}
            report = rehearse(flow, {"a": KeyError, "told": lambda given: given})
            self.assertEqual([it.answer for it in report.of("told")], [make()])

    def test_maps(self):
        def mapped(kind, it):
            return {**s("celery." + kind, immutable=True), "kwargs": {"task": s("f"), "it": it}}
        canvas = group(mapped("map", [1.5, [2]]), mapped("starmap", [(1, 2), [3]]))
        report = rehearse(canvas, {"f": lambda *args, **kwargs: (args, kwargs)})
        self.assertEqual(report.result, [((1.5,), {}), (([2],), {}), ((1, 2), {}), ((3,), {})])

    def test_an_empty_header_and_an_empty_group(self):
        self.assertEqual(rehearse(chord([], s("c")), {"c": lambda parts: [parts]}).result, [[]])
        self.assertEqual(rehearse(group(), {}).result, [])

    def test_a_file_and_its_text(self):
        with tempfile.TemporaryDirectory() as here:
            path = Path(here, "canvas.json")
            path.write_text(json.dumps(chain(s("a", {"x": 0.5}), s("b"))))
            for canvas in (path, path.read_text(), path.read_bytes()):
                tasks = {"a": lambda it: it["x"], "b": lambda it: -it}
                self.assertEqual(rehearse(canvas, tasks).result, -0.5)

    def test_a_group_at_the_end(self):
        report = rehearse(group(s("a"), s("b")), {"a": "x", "b": KeyError("k")})
        self.assertEqual((report.status, report.result), ("FAILURE", ["x", Failure("KeyError")]))
        self.assertEqual(report.text().splitlines()[-1], "result ['x', KeyError]")


class Failing(unittest.TestCase):
    """What a failure leads to."""

    def test_a_failed_header(self):
        seen = []
        report = rehearse(FAILING, {
            "a": 1, "bad": bad, "b": 2, "c": 3, "d": 4, "e": lambda uuid: uuid[-1],
            "new": lambda request, exc, traceback: seen.append(
                (request.id[-1], str(exc), traceback))})
        self.assertEqual(report.result, Failure("ChordError", 2, "KeyError"))
        self.assertEqual(report.ran, ["a", "bad", "e", "b", "e", "new"])
        self.assertEqual(report.never_run, ["c", "d"])
        self.assertEqual([it.answer for it in report.of("e")], ["2", "5"])
        self.assertEqual(seen, [("5", "Dependency 00000000-0000-8000-8000-000000000002 raised"
                                      " KeyError('which')", None)])
        self.assertIsInstance(report.errors[2], KeyError)
        self.assertIn("#2 bad FAILURE KeyError: 'which'", str(report))
        self.assertEqual(report["d"].due_to, 2)

    def test_the_bodys_error_callback_waits_for_the_whole_header(self):
        tasks = {"a": 1, "bad": bad, "b": 2, "c": 3, "d": 4, "e": 5, "new": 6}
        usual = numbers(rehearse(FAILING, tasks))
        for order in range(10):
            calls = numbers(rehearse(FAILING, tasks, order=order))
            self.assertCountEqual(calls, usual)
            self.assertLess(calls.index(4), calls.index(6))

    def test_two_failures_and_a_chord_in_a_chord(self):
        inner = chord([s("bad"), s("other")], s("in", errors=[s("told")]))
        canvas = chord([inner, s("b")], s("out", errors=[s("told")]))
        report = rehearse(canvas, {"bad": KeyError("which"), "other": OSError("full"), "in": 1,
                                   "b": 2, "out": 3, "told": lambda uuid: int(uuid[-1])})
        self.assertEqual([row.raised for row in report.rows[:3]], ["KeyError", "OSError",
                                                                  "KeyError"])
        self.assertEqual(report["in"].result, Failure("ChordError", 1, "KeyError"))
        self.assertEqual(report["out"].result, Failure("ChordError", 3, "ChordError"))
        self.assertEqual([it.answer for it in report.of("told")],
                         [report["in"].number, report["out"].number])

    def test_exceptions_of_all_kinds(self):
        class Quiet(Exception):
            def __len__(self):
                return 0

        class Schön(Exception):
            pass

        class Retry(Exception):
            pass

        class ChordError(Exception):
            pass
        for kind in (Quiet, Schön, Retry, ChordError, NotImplementedError):
            report = rehearse(chain(s("a"), s("b")), {"a": kind, "b": 1})
            self.assertEqual((report.status, report.result), ("FAILURE", Failure(kind.__name__)))
            self.assertEqual(report.never_run, ["b"])
            self.assertIsInstance(report.errors[1], kind)
            self.assertEqual((report["a"].raised, report.calls[0].raised),
                             (kind.__name__, report.errors[1]))
        with self.assertRaises(KeyboardInterrupt):
            rehearse(s("a"), {"a": KeyboardInterrupt})

    def test_lists_of_exceptions_are_of_the_first_tries(self):
        self.assertEqual(rehearse(s("a"), {"a": [1, KeyError]}).result, [1, KeyError])
        self.assertEqual(rehearse(s("a"), {"a": [KeyError, OSError]}).result, Failure("KeyError"))

    def test_each_failure(self):
        canvas = chord([s("a"), s("b", errors=[s("e")])], s("c"))
        found = rehearse_failures(canvas, {"a": 1.5, "b": 2.5, "c": sum, "e": 0},
                                  error=TimeoutError("late"))
        self.assertEqual(str(found).split("\n"), [
            "#1 a fails: result ChordError: Dependency #1 raised TimeoutError; not called: #4 c",
            "#2 b fails: result ChordError: Dependency #2 raised TimeoutError; also called: #3 e;"
            " not called: #4 c", "#4 c fails: result TimeoutError"])
        self.assertEqual(found.well.result, 4.0)


class Refusals(unittest.TestCase):
    """What is no canvas, no task or no answer."""

    def test_names_and_tasks(self):
        for tasks, said in (({}, "there is no task a: register it"), ({"a": 1, "shop.b": 2},
                            "'shop.b' is no task"), ({"a": 1, 2: 3}, "2 is no task"),
                            ([], "no dictionary")):
            with self.assertRaisesRegex(BadCall, said):
                rehearse(s("a"), tasks)
        self.assertEqual(rehearse(s("a"), {"*": 7}).result, 7)

    def test_what_is_delivered_again(self):
        for again, said in (({"b": "late"}, "'b' is no task"), ({"a": "soon"}, "not 'soon'"),
                            (7, "no dictionary")):
            with self.assertRaisesRegex(BadCall, said):
                rehearse(s("a"), {"a": 1}, again=again)

    def test_an_order_and_a_world(self):
        for how, said in (({"order": "12"}, "order is a number"), ({"order": ["a"]}, "order is"),
                          ({"world": 7}, "world is called")):
            with self.assertRaisesRegex(BadCall, said):
                rehearse(s("a"), {"a": 1}, **how)

    def test_canvases(self):
        with self.assertRaises(Refused):
            rehearse(chain(), {})
        for canvas in (7, None, "no file", {}, {"task": "a", "kwargs": 7},
                       {**chain(), "kwargs": {"tasks": 7}}, "[]"):
            with self.assertRaises(CanvasError):
                rehearse(canvas, {"a": 1})

    def test_a_refusal_names_the_task(self):
        wide = group(*[s("a")] * 5000)
        with self.assertRaises(Refused) as refused:
            rehearse(wide, {"a": 1})
        self.assertFalse(str(refused.exception.task).isdigit())

    def test_an_exception_of_the_world_is_the_callers(self):
        @contextlib.contextmanager
        def world():
            raise OSError("no database")
            yield
        with self.assertRaisesRegex(OSError, "no database"):
            rehearse(s("a"), {"a": 1}, world=world)


class Threads(unittest.TestCase):
    """Several threads that rehearse."""

    def test_one_does_at_a_time(self):
        log = []

        @contextlib.contextmanager
        def world():
            log.append("in")
            time.sleep(0.1)
            yield
            log.append("out")
        threads = [threading.Thread(target=rehearse, args=(s("a"), {"a": 1}),
                                    kwargs={"world": world}) for _ in range(3)]
        for it in threads:
            it.start()
        for it in threads:
            it.join()
        self.assertEqual(log, ["in", "out"] * 3)


class HeldAgainstTheProgram(unittest.TestCase):
    """Calls that aren't those of the program are an error."""

    TASKS = {"a": 1, "bad": bad, "b": 2, "c": 3, "d": 4, "e": 5, "new": 6}

    def rehearsal_with(self, name, wrong):
        with mock.patch.object(Calls, name, wrong):
            return rehearse(FAILING, self.TASKS)

    def test_a_call_that_is_left_out(self):
        right = Calls._ready
        with self.assertRaisesRegex(CanvasError, "aren't those of the run"):
            self.rehearsal_with("_ready", lambda it: [m for m in right(it) if m.number != 4])

    def test_a_list_that_is_not_asked_for_again(self):
        right = Calls._ask
        with self.assertRaisesRegex(CanvasError, "the result of #2, which has none"):
            self.rehearsal_with("_ask", lambda it: None if it.made else right(it))

    def test_how_often_the_program_is_asked(self):
        asked = []
        values = rehearsed_program.values

        def counted(words, given):
            asked.append(words[0])
            return values(words, given)
        with mock.patch.object(rehearsed_program, "values", counted):
            rehearse(FAILING, {**self.TASKS, "bad": 1})
            self.assertEqual(asked, ["messages", "run"])
            del asked[:]
            rehearse(FAILING, self.TASKS)
            self.assertEqual(asked, ["messages", "messages", "run"])
            del asked[:]
            rehearse_orders(FAILING, self.TASKS)
            self.assertEqual(asked, ["messages", "messages", "run"])
            del asked[:]
            more = s("celery.map", task=s("a"), it=[1, 2])
            rehearse(chain(s("b"), more), {"a": lambda it: it, "b": 1})
            self.assertEqual(asked, ["messages", "messages", "run"])


class Reports(unittest.TestCase):
    """What a report of a rehearsal answers."""

    def test_rows_by_what_one_has(self):
        report = rehearse(chain(s("a"), s("b")), {"a": 1, "b": KeyError})
        self.assertEqual([row.name for row in report], ["a", "b"])
        for there in ("a", 2, report[1]):
            self.assertIn(there, report)
        for missing in ("c", 0, 3, None):
            self.assertNotIn(missing, report)
        self.assertTrue(report)
        for name in ("on_celery", "ran", "nothing"):
            self.assertEqual(hasattr(report, name), name == "ran")

    def test_a_picture(self):
        class Out_of_stock(Exception):
            pass
        canvas = chain(s("a"), s("b"))
        picture = rehearse(canvas, {"a": Out_of_stock, "b": 1}).graph()
        self.assertIn("FAILURE Out_of_stock", picture)
        self.assertIn("SUCCESS 77", rehearse(canvas, {"a": 77, "b": 1}).graph())

    def test_calls_are_told_in_a_line(self):
        report = rehearse(s("a", 1, by="x"), {"a": KeyError("k")})
        self.assertEqual(str(report.calls[0]), "#1 a(1, by='x'): raised KeyError('k')")

    def test_the_same_as_of_what_if(self):
        tasks = {"a": 1, "bad": KeyError("k"), "b": 2, "c": 3, "d": 4, "e": 5, "new": 6}
        one, two = rehearse(FAILING, tasks), what_if(FAILING, tasks)
        self.assertEqual([row[:6] for row in one.rows], [row[:6] for row in two.rows])
        self.assertEqual((one.status, one.result), (two.status, two.result))
        self.assertEqual((one.ran, one.failed, one.pending), (two.ran, two.failed, two.pending))


class Again(unittest.TestCase):
    """Messages that are delivered again."""

    def setUp(self):
        self.stock = []
        self.canvas = chain(s("find"), group(s("take"), s("look")))
        self.tasks = {"find": 1, "take": self.take, "look": 2}

    def take(self, _):
        self.stock[0] -= 1
        return self.stock[0]

    @contextlib.contextmanager
    def world(self):
        self.stock[:] = [3]
        yield lambda: list(self.stock)

    @contextlib.contextmanager
    def hidden(self):
        with self.world():
            yield

    def rehearsed(self, again):
        return rehearse(self.canvas, self.tasks, again=again, world=self.world)

    def test_the_first_answer_counts(self):
        for at in ("early", "late", ["early", "late"]):
            report = self.rehearsed({"take": at})
            self.assertEqual(report.result, [2, 2])
            self.assertEqual((report.state, report.again),
                             ([1], 1) if isinstance(at, str) else ([0], 2))
            self.assertEqual([it.again for it in report.of("take")],
                             [False, True] + [True] * isinstance(at, list))
        self.assertEqual(self.rehearsed(True).again, 6)

    def test_each_message(self):
        self.assertEqual(numbers(self.rehearsed({"*": "late"})), [1, 2, 3, 1, 2, 3])
        self.assertEqual(numbers(self.rehearsed({"*": "lost", 1: "early"})),
                         [1, 1, 1, 2, 2, 3, 3])

    def test_the_second_answer_counts_if_the_worker_is_lost(self):
        report = self.rehearsed({"take": "lost"})
        self.assertEqual((report.result, report.state, report.again), ([1, 2], [1], 0))
        self.assertEqual([(it.answer, it.again) for it in report.of("take")],
                         [(2, False), (1, True)])

    def test_all_that_follows_is_called_again(self):
        report = self.rehearsed({"find": "whole"})
        self.assertEqual([(it.name, it.again) for it in report.calls],
                         [("find", False), ("take", False), ("look", False), ("find", True),
                          ("take", True), ("look", True)])
        self.assertEqual((report.result, report.state), ([2, 2], [1]))
        self.assertEqual([it.name for it in self.rehearsed({"take": "whole"}).calls],
                         ["find", "take", "look", "take"])

    def test_a_body_follows_if_its_chord_is_started_again(self):
        canvas = chain(s("a"), chord([s("b"), s("c")], s("d")), s("e"))
        tasks = dict.fromkeys("abcde", 1)
        self.assertEqual(numbers(rehearse(canvas, tasks, again={"b": "whole"})),
                         [1, 2, 3, 4, 5, 2])
        self.assertEqual(numbers(rehearse(canvas, tasks, again={"a": "whole"})),
                         [1, 2, 3, 4, 5] * 2)
        self.assertEqual(numbers(rehearse(canvas, tasks, again={"d": "whole"})),
                         [1, 2, 3, 4, 5, 4, 5])
        one = chain(s("a"), chord([chain(s("b"), s("c"))], s("d")), s("e"))
        for again, called in (("a", [1, 2, 3, 4, 5]), ("b", [2, 3]), ("c", [3]), ("d", [4, 5])):
            self.assertEqual(numbers(rehearse(one, tasks, again={again: "whole"})),
                             [1, 2, 3, 4, 5, *called])
        inner = chord([chain(s("a"), chord([s("b")], s("c")))], s("d"))
        for again, called in (("a", [1, 2, 3]), ("b", [2]), ("c", [3])):
            self.assertEqual(numbers(rehearse(inner, {"*": 1}, again={again: "whole"})),
                             [1, 2, 3, 4, *called])

    def test_what_follows_by_the_second_answers(self):
        answers = iter([KeyError("first"), None, None, OSError("second")])

        def once(*_):
            error = next(answers)
            if error:
                raise error
            return "well"
        canvas = chain(s("once", errors=[s("e")]), s("after"))
        tasks = {"once": once, "after": lambda it: it.upper(), "e": 0}
        report = rehearse(canvas, tasks, again={"once": "whole"})
        self.assertEqual([(it.name, it.answer) for it in report.calls[2:]],
                         [("once", "well"), ("after", "WELL")])
        self.assertEqual(report.result, Failure("KeyError"))
        report = rehearse(canvas, tasks, again={"once": "whole"})
        self.assertEqual([it.name for it in report.calls], ["once", "after", "once", "e"])

    def test_each_redelivery(self):
        found = rehearse_redeliveries(self.canvas, self.tasks, "lost", world=self.world)
        self.assertEqual([(it.number, it.at) for it in found], [(2, ("lost",))])
        self.assertEqual(str(found), "#2 take delivered again (lost): #2 take: 2, then 1; - #2 take"
                         " SUCCESS 2; + #2 take SUCCESS 1; - result [2, 2]; + result [1, 2];"
                         " - state [2]; + state [1]")
        found = rehearse_redeliveries(self.canvas, self.tasks, world=self.world)
        self.assertEqual([(it.number, it.at) for it in found],
                         [(1, ("whole",)), (2, ("early", "late", "whole")), (2, ("lost",))])
        self.assertEqual(found[1].differences, ("#2 take: 2, then 1", "- state [2]", "+ state [1]"))
        self.assertEqual(found.tried, 12)
        found = rehearse_redeliveries(self.canvas, self.tasks, "early", world=self.hidden)
        self.assertEqual([len(it.differences) for it in found], [1])
        self.tasks["take"] = 7
        found = rehearse_redeliveries(self.canvas, self.tasks, world=self.world)
        self.assertFalse(found)
        self.assertEqual(str(found), "12 redeliveries end the same")


class Order(unittest.TestCase):
    """Calls in other orders."""

    def setUp(self):
        self.log = []
        self.canvas = chord([s(it) for it in "abcde"], s("f"))
        self.tasks = dict.fromkeys("abcdef", 0)

    def noted(self, name, answer=lambda log: 0):
        return lambda *_: self.log.append(name) or answer(self.log)

    @contextlib.contextmanager
    def world(self):
        self.log.clear()
        yield

    def test_one_pair_matters(self):
        self.tasks.update(b=self.noted("b"), d=self.noted("d", lambda log: "b" in log))
        found = rehearse_orders(self.canvas, self.tasks, world=self.world)
        self.assertEqual([it[:2] for it in found], [(2, 4)])
        self.assertEqual(str(found), "#4 d before #2 b: - #4 d SUCCESS True; + #4 d SUCCESS False")
        self.assertEqual((found.tried, found.all), (120, True))
        self.assertTrue(found)

    def test_no_pair_matters(self):
        found = rehearse_orders(self.canvas, self.tasks)
        self.assertFalse(found)
        self.assertEqual((found, str(found)), ([], "all 120 orders end the same"))
        self.assertEqual(str(rehearse_orders(s("a"), {"a": 1})), "all 1 order end the same")

    def test_orders_are_drawn_if_they_are_too_many(self):
        canvas = chord([s(it) for it in "abcdef"], s("g"))
        found = rehearse_orders(canvas, dict.fromkeys("abcdefg", 1), 5)
        self.assertEqual((found.tried, found.all, str(found)), (6, False, "6 orders end the same"))

    def test_a_list_of_numbers_has_its_first_ones_first(self):
        self.assertEqual(numbers(rehearse(self.canvas, self.tasks, order=[4, 2])),
                         [4, 2, 1, 3, 5, 6])
        self.assertNotEqual(numbers(rehearse(self.canvas, self.tasks, order=1)), [1, 2, 3, 4, 5, 6])

    def test_the_same_order_that_ends_otherwise(self):
        counts = iter(range(100))
        with self.assertRaisesRegex(CanvasError, "ends otherwise each time"):
            rehearse_orders(s("a"), {"a": lambda: next(counts)})
        with self.assertRaisesRegex(CanvasError, "ends otherwise each time"):
            rehearse_redeliveries(s("a"), {"a": lambda: next(counts)})


if __name__ == "__main__":
    unittest.main()
