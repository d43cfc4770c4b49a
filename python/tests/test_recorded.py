"""Tests of answers that are those of a run that is over."""

import json
import sys
import tempfile
import unittest
from pathlib import Path

HERE = Path(__file__).resolve().parent
sys.path[:0] = [str(HERE.parent / "src"), str(HERE)]

from bevtragi import BadCall, Failure, collect, export, rehearse, run, what_if
from dictionary import Dictionary, stored as stored_by
from plain_canvases import chain, chord, s

ORDER = chain(s("find", 7), chord([s("charge"), s("ship", errors=[s("refund")])], s("invoice")),
              s("thank"))
HEAD = "00000000-0000-8000-8000-0000"


def stored(number, result=None, kind=None, message=()):
    if kind:
        result = {"exc_type": kind, "exc_message": list(message), "exc_module": "builtins"}
    return json.dumps({"status": "FAILURE" if kind else "SUCCESS", "result": result,
                       "task_id": f"{HEAD}{number:08x}", "traceback": None, "children": []})


#: What workers store if the parcel is lost.
STORED = [stored(1, {"price": 9.5}), stored(2, "paid"),
          stored(3, kind="ConnectionError", message=["no route"]), stored(4, "refunded"),
          stored(5, kind="ChordError",
                 message=[f"Dependency {HEAD}00000003 raised ConnectionError('no route')"])]


class Recorded(unittest.TestCase):
    """A run of yesterday, and what would have been."""

    def setUp(self):
        room = tempfile.TemporaryDirectory()
        self.addCleanup(room.cleanup)
        self.file = Path(room.name, "results")
        self.file.write_text("\n".join(["", *STORED, "(nil)", ""]))
        self.tasks = {"invoice": lambda parts: parts, "thank": str.upper}

    def collected(self):
        """The report of the same run, started by export()."""
        client = Dictionary()
        number = export(ORDER, client)
        for place, it in enumerate(STORED, 1):
            third = json.loads(stored_by(number, 3, "PENDING", None))["task_id"]
            told = json.loads(it.replace(f"{HEAD}00000003", third))
            client.store(number, place, told["status"], told["result"])
        return collect(ORDER, client, number)

    def test_a_file_of_stored_results(self):
        report = what_if(ORDER, answers=self.file)
        self.assertEqual(report, what_if(ORDER, {"ship": ConnectionError}))
        report = what_if(ORDER, {"ship": 0}, answers=self.file)
        self.assertEqual((report.status, report.never_run), ("SUCCESS", ["refund"]))

    def test_a_collected_report(self):
        yesterday = self.collected()
        self.assertFalse(hasattr(yesterday, "ran") or hasattr(yesterday, "on_celery"))
        self.assertEqual((yesterday["invoice"].status, yesterday["thank"].status),
                         ("FAILURE", "PENDING"))
        self.assertEqual(what_if(ORDER, answers=yesterday),
                         what_if(ORDER, {"ship": ConnectionError}))
        self.assertEqual(what_if(ORDER, {"ship": 0}, answers=yesterday).never_run, ["refund"])
        report = rehearse(ORDER, {**self.tasks, "ship": "a parcel", "thank": len},
                          answers=yesterday)
        self.assertEqual((report.of("invoice")[0].args, report.result),
                         ([["paid", "a parcel"]], 2))

    def test_a_rehearsal_of_what_would_have_been(self):
        tasks = {**self.tasks, "ship": "a parcel"}
        seen = []
        tasks["thank"] = lambda it: seen.append(it) or "thanks"
        report = rehearse(ORDER, tasks, answers=self.file)
        self.assertEqual(seen, [["paid", "a parcel"]])
        self.assertEqual((report.result, report["find"].result), ("thanks", {"price": 9.5}))

    def test_the_run_itself(self):
        report = rehearse(ORDER, self.tasks, answers=self.file)
        self.assertEqual(report.ran, ["find", "charge", "ship", "refund"])
        self.assertEqual((report["refund"].result, report.result),
                         ("refunded", Failure("ChordError", 3, "ConnectionError")))
        self.assertEqual(repr(report.errors[3]), "ConnectionError('no route')")

    def test_a_report(self):
        told = run(ORDER, {"find": 7, "charge": 8, "ship": OSError, "refund": 9, "invoice": 10,
                           "thank": 11})
        self.assertEqual(what_if(ORDER, answers=told), told)
        self.assertEqual(what_if(ORDER, {"ship": 1, 5: 2}, answers=told)["invoice"].result, 2)
        report = rehearse(ORDER, self.tasks, answers=told)
        self.assertEqual([row[:5] for row in report.rows], [row[:5] for row in told.rows])
        again = rehearse(ORDER, {"ship": {"x": 1}, **self.tasks, "thank": len}, answers=report)
        self.assertEqual(again.of("invoice")[0].args, [[8, {"x": 1}]])
        self.assertEqual(again.result, 2)

    def test_a_dictionary(self):
        answers = {"find": {"price": 1}, 2: KeyError("card"), "ship": 5, "refund": 6}
        report = rehearse(ORDER, self.tasks, answers=answers)
        self.assertEqual(report.result, Failure("ChordError", 2, "KeyError"))
        self.assertEqual(what_if(ORDER, answers=answers).result, report.result)

    def test_exceptions_by_their_names(self):
        self.file.write_text("\n".join([
            stored(1, kind="OutOfStock", message=["lamp"]),
            stored(2, kind="UnicodeDecodeError", message=["no text"])]))
        report = rehearse(ORDER, {**self.tasks, "ship": 1, "refund": 2}, answers=self.file)
        self.assertEqual((report.result, str(report.errors[1])), (Failure("OutOfStock"), "lamp"))
        report = rehearse(ORDER, {**self.tasks, "find": 0, "ship": 1, "refund": 2},
                          answers=self.file)
        self.assertEqual(report.result, Failure("ChordError", 2, "UnicodeDecodeError"))

    def test_what_is_refused(self):
        lines = {"[]": "no stored result in line 1", stored(9, 1): "a result of task #9",
                 '{"status": "SUCCESS"}': "no stored result in line 1"}
        for line, said in lines.items():
            self.file.write_text(line)
            with self.assertRaisesRegex(BadCall, said):
                what_if(ORDER, answers=self.file)
        for answers, said in ((Path("nowhere"), "can't be read"), (7, "no dictionary"),
                              ({"shop": 1}, "'shop' is no task"),
                              (run(s("a"), {"a": 1}), "of another canvas")):
            with self.assertRaisesRegex(BadCall, said):
                rehearse(ORDER, self.tasks, answers=answers)


if __name__ == "__main__":
    unittest.main()
