"""The package knows the built-in tasks that the program has."""

import re
import subprocess
import sys
import unittest
from pathlib import Path

sys.path[:0] = [str(Path(__file__).resolve().parent.parent / "src")]

import bevtragi
from bevtragi import Failure
from bevtragi.own_tasks import BEHAVIOURS


class OwnTasks(unittest.TestCase):

    def test_the_help_names_the_same_tasks(self):
        said = subprocess.run([bevtragi.program().path, "help", "tasks"], capture_output=True,
                              text=True, check=True).stdout
        self.assertEqual(sorted(re.findall(r"\btasks\.(\w+)\(", said)), sorted(BEHAVIOURS))

    def test_the_program_has_each_task_and_its_word(self):
        for word in BEHAVIOURS:
            for name, answers in ((f"tasks.{word}", {}), ("shop.a", {"shop.a": word})):
                called = bevtragi.run({"task": name}, answers)[1]
                self.assertEqual(called.result, Failure("TypeError"), (name, word))


if __name__ == "__main__":
    unittest.main()
