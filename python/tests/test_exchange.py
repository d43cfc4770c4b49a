"""Starts on Celery's workers and their results, over a dictionary in which each key counts."""

import json
import re
import sys
import unittest
from pathlib import Path
from unittest import mock

HERE = Path(__file__).resolve().parent
sys.path[:0] = [str(HERE.parent / "src"), str(HERE)]

from dictionary import Dictionary, said_by, stored
from bevtragi import BadCall, CanvasError, Failure, Refused, collect, export
from bevtragi.exchange import commands_of

THREE = {"task": "celery.chain", "subtask_type": "chain", "kwargs": {"tasks": [
    {"task": "shop.a"}, {"task": "shop.b"}, {"task": "shop.c"}]}}


class Starts(unittest.TestCase):
    """What Redis is given."""

    def test_each_start_has_a_number_of_its_own(self):
        numbers = [export(THREE, Dictionary()) for _ in range(20)]
        self.assertEqual(len({*numbers}), 20)
        for number in numbers:
            self.assertRegex(number, "^[0-9a-f]{22}$")
        for place, digits in enumerate(zip(*numbers)):
            self.assertGreater(len({*digits}), 1, f"digit {place} is always {digits[0]}")

    def test_the_options_are_those_of_the_program(self):
        client = Dictionary()
        number = export(THREE, client, queue="orders", prefix="p_", expires=60, broker_db=1,
                        backend_db=2)
        words = ["export", "-", "--run", number, "--queue", "orders", "--prefix", "p_",
                 "--expires", "60", "--broker-db", "1", "--backend-db", "2"]
        wanted, = commands_of(said_by(words, json.dumps(THREE).encode()))
        self.assertEqual(client.commands, [tuple(wanted)])
        self.assertIn(f"p_canvas-run-{number}".encode(), wanted)


    def test_a_canvas_without_tasks_starts_nothing(self):
        client = Dictionary()
        empty = {"task": "celery.group", "subtask_type": "group", "kwargs": {"tasks": []}}
        number = export(empty, client)
        self.assertEqual(client.commands, [])
        self.assertEqual(collect(empty, client, number).rows, [])


class Results(unittest.TestCase):
    """What is asked of Redis, and made of it."""

    RUN = "0123456789abcdef012345"

    def client(self, prefix, *results):
        client = Dictionary()
        for task, it in enumerate(results, 1):
            client.store(self.RUN, task, *it, prefix=prefix)
        return client

    def test_each_task_has_the_result_of_its_key(self):
        for prefix in ("", "p_", "two words "):
            client = self.client(prefix, ("SUCCESS", 1), ("SUCCESS", "two"), ("SUCCESS", [3]))
            report = collect(THREE, client, self.RUN, prefix=prefix)
            self.assertEqual([row.result for row in report.rows], [1, "two", [3]], prefix)
            self.assertEqual(collect(THREE, client, self.RUN, prefix="q_").pending,
                             ["shop.a", "shop.b", "shop.c"])

    def test_a_completed_report_has_the_tasks_that_celery_leaves_pending(self):
        failed = ("FAILURE", {"exc_type": "OutOfStock", "exc_message": ["A-17"]})
        client = self.client("", ("SUCCESS", 1), failed)
        self.assertEqual(collect(THREE, client, self.RUN).pending, ["shop.c"])
        report = collect(THREE, client, self.RUN, complete=True)
        self.assertEqual(report.failed, ["shop.b", "shop.c"])
        self.assertEqual(report.result, Failure("OutOfStock"))


class Runs(unittest.TestCase):
    """A start and its results."""

    def test_a_start_and_its_results(self):
        canvas = {**THREE, "kwargs": {"tasks": THREE["kwargs"]["tasks"][:2]}}
        client = mock.Mock()
        number = export(canvas, client, queue="orders")
        words = client.execute_command.call_args[0]
        self.assertEqual((words[0], b"orders" in words), (b"EVAL", True))
        first = json.loads(next(it for it in words if it.startswith(b"{")))["headers"]["id"]
        done = {"status": "SUCCESS", "result": 5, "task_id": first, "traceback": None}
        client.mget.side_effect = lambda keys: [json.dumps(done).encode(), None][:len(keys)]
        report = collect(canvas, client, number)
        self.assertEqual([row[1:] for row in report.rows], [
            ("shop.a", "SUCCESS", 5, None, None), ("shop.b", "PENDING", None, None, None)])
        self.assertEqual(str(report), "#1 shop.a SUCCESS 5\n#2 shop.b PENDING -\nresult -")
        for call in (lambda: report.ran, lambda: report.never_run, report.graph):
            with self.assertRaisesRegex(CanvasError, "of a run on Celery's workers"):
                call()
        with self.assertRaisesRegex(CanvasError, "OtherTask: in the result of task 1"):
            collect(canvas, client, number[::-1])
        with self.assertRaisesRegex(BadCall, "BadRun"):
            collect(canvas, client, "7")
        client.mget.side_effect = lambda keys: [json.dumps(done), None]
        self.assertEqual(collect(canvas, client, number), report)
        with self.assertRaises(Refused):
            export({"task": "a", "args": [None]}, client)


class Fakes(unittest.TestCase):
    """The dictionary itself."""

    def test_a_key_is_that_of_the_program(self):
        keys = said_by(["keys", "-", "--run", Results.RUN, "--prefix", "p_"],
                       json.dumps(THREE).encode()).decode().splitlines()
        client = Dictionary()
        for task in (1, 2, 3):
            client.store(Results.RUN, task, "SUCCESS", task, prefix="p_")
        self.assertEqual([*client.keys], keys)
        self.assertTrue(all(re.search(json.loads(stored(Results.RUN, task, "", 0))["task_id"], key)
                            for task, key in enumerate(keys, 1)))


if __name__ == "__main__":
    unittest.main()
