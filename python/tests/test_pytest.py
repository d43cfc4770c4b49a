"""Tests of the plugin for pytest, which a pytest in another process loads."""

import os
import runpy
import subprocess
import sys
import tempfile
import unittest
from importlib.util import find_spec
from pathlib import Path

HERE = Path(__file__).resolve().parent
SOURCE = str(HERE.parent / "src")

CONFTEST = """
import contextlib, pytest

pytest_plugins = ["bevtragi.pytest"]
STOCK = []

@contextlib.contextmanager
def world():
    STOCK[:] = [3]
    yield lambda: list(STOCK)

@pytest.fixture
def canvas_world():
    return world
"""

TESTS = """
from conftest import STOCK

FLOW = {"task": "celery.chain", "subtask_type": "chain",
        "kwargs": {"tasks": [{"task": "find"}, {"task": "take"}]}}
TASKS = {"find": 1, "take": lambda it: STOCK.append(it)}

def test_state(canvas):
    assert canvas.rehearse(FLOW, TASKS).state == [3, 1]
    assert not canvas.orders(FLOW, TASKS)
    assert [it.number for it in canvas.redeliveries(FLOW, TASKS, at="lost")] == [2]
    assert canvas.failures(FLOW, TASKS)[1].never_run == ["take"]

def test_what_if(canvas):
    assert canvas.what_if(FLOW, {"find": OSError}).never_run == ["take"]
    assert canvas.every_failure(FLOW)[1].never_run == ["take"]

def test_holds(canvas):
    canvas.holds(FLOW, "flow.txt")
"""

WRONG = """
from bevtragi import rehearse, what_if
FLOW = {"task": "find"}

def test_rows_that_differ():
    assert rehearse(FLOW, {"find": 1}) == rehearse(FLOW, {"find": 2})

def test_a_canvas_error():
    rehearse(FLOW, {"fnd": 1})
"""


@unittest.skipUnless(find_spec("pytest"), "pytest isn't installed")
class Plugin(unittest.TestCase):
    """The fixture, and what is shown of a test that fails."""

    def setUp(self):
        room = tempfile.TemporaryDirectory()
        self.addCleanup(room.cleanup)
        self.room = Path(room.name)
        (self.room / "conftest.py").write_text(CONFTEST)

    def ran(self, tests, *words):
        (self.room / "test_flow.py").write_text(tests)
        return subprocess.run(
            [sys.executable, "-B", "-m", "pytest", "-q", "-p", "no:cacheprovider", *words],
            cwd=self.room, capture_output=True, text=True, check=False,
            env={**os.environ, "PYTHONPATH": f"{self.room}{os.pathsep}{SOURCE}"}).stdout

    def test_the_fixture(self):
        said = self.ran(TESTS)
        self.assertIn("1 failed, 2 passed", said)
        self.assertIn("flow.txt holds otherwise; --canvas-write writes it", said)
        self.assertIn("+#1 find fails: result Exception; not called: #2 take", said)
        self.assertIn('>       canvas.holds(FLOW, "flow.txt")', said)
        self.assertIn("3 passed", self.ran(TESTS, "--canvas-write"))
        self.assertEqual((self.room / "flow.txt").read_text(),
                         "#1 find fails: result Exception; not called: #2 take\n"
                         "#2 take fails: result Exception\n")
        self.assertIn("3 passed", self.ran(TESTS))
        other = TESTS.replace('{"task": "take"}]', '{"task": "take"}, {"task": "thank"}]')
        self.assertIn("+#3 thank fails: result Exception", self.ran(other))

    def test_a_wheel_loads_it(self):
        namespace = runpy.run_path(str(HERE.parent / "wheels.py"))
        info = self.room / "bevtragi-1.0.0.dist-info"
        info.mkdir()
        (info / "METADATA").write_text("Metadata-Version: 2.1\nName: bevtragi\nVersion: 1.0.0\n")
        (info / "entry_points.txt").write_text(namespace["ENTRY_POINTS"])
        for conftest in (CONFTEST, CONFTEST.replace('pytest_plugins = ["bevtragi.pytest"]', "")):
            (self.room / "conftest.py").write_text(conftest)
            self.assertIn("3 passed", self.ran(TESTS, "--canvas-write"))

    def test_a_failing_test_ends_at_its_own_line(self):
        said = self.ran(WRONG)
        self.assertIn("two reports, which differ in these rows:", said)
        self.assertIn("- #1 find SUCCESS 1", said)
        self.assertIn("'fnd' is no task of the canvas: did you mean find?", said)
        self.assertIn('>       rehearse(FLOW, {"fnd": 1})', said)
        self.assertNotIn("def rehearse(", said)
        self.assertNotIn("def check_names(", said)


if __name__ == "__main__":
    unittest.main()
