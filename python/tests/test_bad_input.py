"""Bad input, hostile texts and clients that fail: a named refusal, and nothing is lost."""

import sys
import unittest
from pathlib import Path
from unittest import mock

HERE = Path(__file__).resolve().parent
sys.path[:0] = [str(HERE.parent / "src"), str(HERE)]

from dictionary import Dictionary, stored
from bevtragi import (BadCall, CanvasError, Failure, Refused, Report, Unreadable, adapt, check,
                      collect, cured, every_failure, export, graph, messages, on_celery, run,
                      what_if, what_if_each)
from bevtragi.exchange import commands_of

try:
    import celery
except ImportError:
    celery = None

TWO = {"task": "celery.chain", "subtask_type": "chain", "kwargs": {"tasks": [
    {"task": "tasks.add", "args": [4, 4]}, {"task": "tasks.mul", "args": [8]}]}}


class Starts(unittest.TestCase):
    """Starts by a client of Redis."""

    def test_a_line_end_in_a_queue_is_part_of_its_name(self):
        client = Dictionary()
        evil = "celery\r\n$3\r\nFOO"
        export(TWO, client, queue=evil)
        (words,) = client.commands
        self.assertEqual(words[0], b"EVAL")
        self.assertIn(evil.encode(), words)
        self.assertNotIn(b"FOO", words)

    def test_commands_are_read_by_their_lengths(self):
        self.assertEqual(commands_of(b"*2\r\n$3\r\nGET\r\n$4\r\na\r\nb\r\n*1\r\n$4\r\nEXEC\r\n"),
                         [[b"GET", b"a\r\nb"], [b"EXEC"]])
        for text in (b"*1\r\n$3\r\nGETS\r\n", b"*2\r\n$3\r\nGET\r\n", b"+OK\r\n", b"*x\r\n", b"*1"):
            with self.assertRaisesRegex(CanvasError, "answered what can't be read"):
                commands_of(text)

    def test_a_client_that_fails(self):
        client = mock.Mock()
        client.execute_command.side_effect = ConnectionError("refused")
        client.mget.side_effect = ConnectionError("refused")
        with self.assertRaisesRegex(CanvasError, "^Redis: ConnectionError: refused$"):
            export(TWO, client)
        with self.assertRaisesRegex(CanvasError, "^Redis: ConnectionError: refused$"):
            collect(TWO, client, "0" * 22)

    def test_a_client_that_is_none_or_answers_otherwise(self):
        for call in (lambda: export(TWO, None), lambda: collect(TWO, None, "0" * 22)):
            with self.assertRaisesRegex(CanvasError, "^Redis: AttributeError: "):
                call()
        for answer in (None, [None], [5, 6], [b"{}"] * 3):
            client = mock.Mock()
            client.mget.return_value = answer
            with self.assertRaisesRegex(CanvasError, "mget of 2 keys answers otherwise"):
                collect(TWO, client, "0" * 22)

    def test_options_that_are_none(self):
        for options in ({"without_script": True}, {"no_such": 1}, {"run": "0" * 22},
                        {"expires": 10 ** 4000}, {"queue": "\ud800"}):
            client = Dictionary()
            with self.assertRaises(CanvasError):
                export(TWO, client, **options)
            self.assertEqual(client.commands, [])
        for number in ("--help", "7", ""):
            with self.assertRaises(CanvasError):
                collect(TWO, Dictionary(), number)


class Results(unittest.TestCase):
    """Results that workers stored."""

    def collected(self, *results, canvas=TWO, **how):
        """The report of a state and value for each task, or of what is stored instead."""
        client, number = Dictionary(), "0123456789abcdef012345"
        for task, it in enumerate(results, 1):
            if isinstance(it, tuple):
                client.store(number, task, *it)
            else:
                client.store(number, task, "", 0, text=it)
        return collect(canvas, client, number, **how)

    def test_a_value_that_looks_like_a_failure_is_a_value(self):
        value = {"exc_message": ["a"], "exc_type": "ValueError"}
        report = self.collected(("SUCCESS", value), ("SUCCESS", 64))
        self.assertEqual((report[1].result, report.result), (value, 64))
        report = self.collected(("SUCCESS", 8), ("SUCCESS", value))
        self.assertEqual((report.status, report.result), ("SUCCESS", value))

    def test_failures_with_messages_of_any_kind(self):
        for message in (5, None, [], ["Dependency x raised y"], ["Dependency"]):
            report = self.collected(
                ("FAILURE", {"exc_message": message, "exc_type": "ChordError"}), ("SUCCESS", 64))
            self.assertEqual(report[1].result.kind, "ChordError", message)

    def test_a_failed_group_has_values_and_failures(self):
        canvas = {"task": "celery.group", "subtask_type": "group", "kwargs": {"tasks": [
            {"task": "a"}, {"task": "b"}]}}
        self.assertEqual(run(canvas, {"a": 3, "b": KeyError}).result, [3, Failure("KeyError")])

    def test_what_only_python_reads_is_read_as_it_reads(self):
        report = self.collected(("SUCCESS", float("inf")), ("SUCCESS", {"a": ["\ud800\n"]}))
        self.assertEqual([row.result for row in report.rows], [float("inf"), {"a": ["\ud800\n"]}])
        self.assertEqual((report.status, report.result), ("SUCCESS", {"a": ["\ud800\n"]}))
        self.assertEqual(str(report).splitlines()[0], "#1 tasks.add SUCCESS Infinity")
        error = {"exc_type": "OSError", "exc_message": ["\udcff", float("nan")]}
        report = self.collected(("FAILURE", error), "", complete=True)
        self.assertEqual([row.result for row in report.rows], [Failure("OSError")] * 2)
        spaced = stored("0123456789abcdef012345", 1, "SUCCESS", 8).replace(", ", ",\n ")
        self.assertEqual(self.collected(spaced, ("SUCCESS", 64)).succeeded,
                         ["tasks.add", "tasks.mul"])

    def test_one_that_cannot_be_read_leaves_the_others(self):
        deep = "[" * 100_000
        for bad, why in ((b"\x80\x04K\x08.", "NotJson"), (deep, "NotJson"),
                         (("REVOKED", None), "UnknownState"), (("FAILURE", 5), "UnknownException")):
            report = self.collected(bad, ("SUCCESS", 64))
            self.assertEqual([str(it) for it in report.rows],
                             [f"#1 tasks.add UNREADABLE {why}", "#2 tasks.mul SUCCESS 64"])
            self.assertEqual((report.status, report.unreadable), ("SUCCESS", ["tasks.add"]))
            report = self.collected(("SUCCESS", 8), bad)
            self.assertEqual((report.status, report.result, report.succeeded),
                             ("UNREADABLE", Unreadable(why), ["tasks.add"]))

    def test_the_list_of_a_group_and_the_result_of_another_task(self):
        canvas = {"task": "celery.group", "subtask_type": "group", "kwargs": {"tasks": [
            {"task": "a"}, {"task": "b"}, {"task": "c"}]}}
        report = self.collected(("SUCCESS", 1), "", ("REVOKED", 0), canvas=canvas)
        self.assertEqual((report.status, report.result), ("PENDING", [1, None,
                                                                     Unreadable("UnknownState")]))
        report = self.collected(("SUCCESS", 1), ("SUCCESS", float("-inf")), "{", canvas=canvas)
        self.assertEqual((report.status, report.result),
                         ("UNREADABLE", [1, float("-inf"), Unreadable("NotJson")]))
        with self.assertRaisesRegex(BadCall, "OtherTask: in the result of task 2"):
            self.collected("{", stored("0" * 22, 2, "SUCCESS", 64))


class Canvases(unittest.TestCase):
    """Canvases and answers that are none."""

    def test_texts_that_cannot_be_written(self):
        surrogate = '{"task":"a\ud800"}'
        for canvas in (surrogate, {"task": "a", "args": [float("nan")]}):
            with self.assertRaises(BadCall):
                what_if(canvas)
        with self.assertRaises(CanvasError):
            what_if({"task": "a\ud800"})
        with self.assertRaisesRegex(BadCall, "a task can't answer so large a number"):
            what_if(TWO, {"tasks.add": 10 ** 5000})

    def test_words_that_are_no_numbers(self):
        for how in ({"workers": "--help"}, {"turns": ["--help"]}, {"workers": 1.5},
                    {"workers": 10 ** 4000}, {"turns": 5}, {"tasks": None}, {"tasks": [1]},
                    {"again": "all"}, {"again": 1}, {"again": ["tasks.add"]},
                    {"again": {"tasks.add": 5}}, {"again": {"tasks.add": "early,2:late"}}):
            with self.assertRaises(BadCall, msg=str(how)):
                run(TWO, **how)

    def test_what_is_no_signature_raises_nothing_else(self):
        calls = [cured, on_celery] if celery else []
        for wrong in ({}, {"task": 5}, {"task": "a", "options": [1]}, {"task": "a", "kwargs": [1]},
                      {"task": "a", "subtask_type": "chord", "kwargs": {"body": None}},
                      {"task": "a", "subtask_type": "chain", "kwargs": {"tasks": 5}}):
            for call in (what_if, check, adapt, graph, messages, every_failure, *calls):
                try:
                    call(wrong)
                except CanvasError:
                    pass

    def test_one_that_is_none_is_one_of_many(self):
        found = what_if_each([{"task": "a"}, 5, b'{"task":"a"}\0{"task":"b"}', b"", {"task": "b"}])
        self.assertEqual([type(it) for it in found], [Report, BadCall, Refused, Refused, Report])
        self.assertEqual([found[0].ran, found[4].ran], [["a"], ["b"]])


if __name__ == "__main__":
    unittest.main()
