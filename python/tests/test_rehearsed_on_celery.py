"""Tests of what the installed Celery would have called otherwise than a rehearsal."""

import contextlib
import sys
import unittest
from pathlib import Path
from unittest import mock

HERE = Path(__file__).resolve().parent
sys.path[:0] = [str(HERE.parent / "src"), str(HERE)]

from bevtragi import BadCall, CanvasError, rehearse_differences
from plain_canvases import chain, chord, s

try:
    import celery
except ImportError:
    celery = None

#: By version: what differs if the card, or the parcel, is lost.
CHARGE = {"5.2.6": ["also calls refund(the request of ship, TypeError, its traceback) unless the"
                    " failure comes last"], "5.5.2": []}
SHIP = {"5.2.6": ["also calls refund(the request of ship, TypeError, its traceback) if the failure"
                  " comes last", "never calls refund(the request of ship, OSError, its traceback)"
                  " if the failure comes last"], "5.5.2": []}
tried = unittest.skipUnless(getattr(celery, "__version__", None) in CHARGE, "another Celery")


class WithoutCelery(unittest.TestCase):
    def test_it_is_an_error(self):
        with mock.patch.dict(sys.modules, {"celery": None}):
            with self.assertRaisesRegex(CanvasError, "Celery isn't installed here"):
                rehearse_differences(s("a"), {"a": 1})


@unittest.skipIf(celery is None, "Celery isn't installed")
class Differences(unittest.TestCase):
    """The calls of an order, whose tasks note what they did."""

    def setUp(self):
        self.app = celery.Celery("tests", broker="redis://127.0.0.1:1",
                                 backend="redis://127.0.0.1:1", set_as_current=False)
        self.log = []

        def task(function):
            return self.app.task(name=function.__name__, shared=False)(function)

        @task
        def find(number):
            return {"number": number}

        @task
        def charge(order, card):
            self.log.append("charge")
            return {"paid": len(self.log)}

        @task
        def ship(order):
            return [order["number"]]

        @task
        def refund(request, exc, traceback):
            return self.log.append("refund")

        @task
        def invoice(parts):
            return parts
        paid = celery.chord([charge.s("4242"), ship.s().on_error(refund.s())], invoice.s())
        self.flow = find.s(4711) | paid | self.app.signature("thank")
        self.stand_ins = {"thank": lambda parts: len(parts)}

    @contextlib.contextmanager
    def world(self):
        self.log.clear()
        yield lambda: list(self.log)

    def said(self, **fails):
        found = rehearse_differences(self.flow, {**self.stand_ins, **fails}, world=self.world)
        head = f"Celery {celery.__version__} "
        self.assertTrue(all(it.startswith(head) for it in found))
        return [it[len(head):] for it in found]

    def test_none_if_all_goes_well(self):
        self.assertEqual(self.said(), [])

    @tried
    def test_a_failed_header(self):
        self.assertEqual(self.said(charge=OSError("no card")), CHARGE[celery.__version__])
        self.assertEqual(self.said(ship=OSError("no route")), SHIP[celery.__version__])

    def test_other_arguments(self):
        calls = iter(["rehearsed", "on Celery"])
        found = self.said(charge=lambda order, card: next(calls))
        self.assertEqual(found, [
            "also calls invoice(['on Celery', [4711]])", "also calls thank(['on Celery', [4711]])",
            "never calls invoice(['rehearsed', [4711]])",
            "never calls thank(['rehearsed', [4711]])"])

    def test_identifiers_are_told_by_their_tasks(self):
        flow = celery.chain(self.app.signature("a", link_error=[self.app.signature("told")]))
        mine = {"a": OSError, "told": lambda uuid: uuid}
        self.assertEqual(rehearse_differences(flow, mine), [])
        mine["told"] = lambda request, exc, traceback: 1
        self.assertEqual(rehearse_differences(flow, mine, app=self.app), [])

    def test_json_and_plain_functions(self):
        flow = chain(s("a", 2), chord([s("b"), s("c")], s("d")))
        mine = {"a": lambda it: it * 2, "b": lambda it: it + 1, "c": lambda it: -it, "d": sum}
        self.assertEqual(rehearse_differences(flow, mine), [])
        with self.assertRaisesRegex(BadCall, "no task of the canvas"):
            rehearse_differences(flow, {"x": 1})

    def test_nothing_is_left(self):
        self.said(ship=OSError)  # Celery keeps a request for a task that is called directly
        tasks = {**self.app.tasks}
        before = [dict(vars(it)) for it in (self.app, *tasks.values())]
        self.said(ship=OSError)
        self.assertEqual({**self.app.tasks}, tasks)
        self.assertEqual([dict(vars(it)) for it in (self.app, *tasks.values())], before)


if __name__ == "__main__":
    unittest.main()
