"""The program that a wheel has: what it was built of, and what becomes of another in its place."""

import json
import os
import shutil
import subprocess
import sys
import tempfile
import unittest
from pathlib import Path

HERE = Path(__file__).resolve().parent
sys.path[:0] = [str(HERE.parent / "src"), str(HERE)]

import bevtragi

#: What a process of the package says of each call: that it answers, or why not.
CALLS = """\
import sys
sys.dont_write_bytecode = True
from bevtragi import *
from bevtragi import CanvasError, wheel

CALLS = {
    "what_if": lambda it: what_if(it),
    "what_if with workers": lambda it: what_if(it, workers=2),
    "what_if_each": lambda it: what_if_each([it]),
    "every_failure": lambda it: every_failure(it),
    "run": lambda it: run(it),
    "check": lambda it: check(it),
    "adapt": lambda it: adapt(it),
    "graph": lambda it: graph(it),
    "page": lambda it: page(it),
    "messages": lambda it: messages(it),
    "export": lambda it: export(it, None),
    "program": lambda it: program(),
}

def says(name="what_if"):
    try:
        CALLS[name]({"task": "a"})
    except CanvasError as error:
        return f"{name}: {error}"
    return f"{name} answers"
"""
#: A program of the right version that does all that it should, and leaves a trace.
SPY = """#!/bin/sh
echo called >>{trace}
exec {program} "$@"
"""
REFUSED = "isn't the program that was put into this package"


class Wheels(unittest.TestCase):
    """A package with a program in it, as a wheel is installed."""

    def setUp(self):
        room = tempfile.TemporaryDirectory()
        self.addCleanup(room.cleanup)
        self.room = Path(room.name).resolve()
        self.package = self.room / "bevtragi"
        shutil.copytree(HERE.parent / "src" / "bevtragi", self.package)
        self.real = bevtragi.program()
        self.program, self.trace = self.package / "canvas", self.room / "trace"
        shutil.copy(self.real.path, self.program)
        self.record(self.real.digest)
        self.spy = self.room / "spy"
        self.spy.write_text(SPY.format(trace=self.trace, program=self.real.path))
        self.spy.chmod(0o755)

    def record(self, digest):
        told = {"commit": "c0ffee", "toolchain": "kit", "digest": digest}
        (self.package / "program.json").write_text(json.dumps(told))

    def process(self, *words, **env):
        """What a process of Python that finds this package prints. $CANVAS names no program."""
        kept = {name: it for name, it in os.environ.items() if name != "CANVAS"}
        return subprocess.run([sys.executable, "-B", *words], cwd=self.room, check=False, text=True,
                              capture_output=True, env={**kept, "PYTHONPATH": str(self.room), **env})

    def said(self, text, **env):
        ran = self.process("-c", CALLS + text, **env)
        self.assertEqual(ran.stderr, "")
        return ran.stdout.splitlines()

    def test_what_it_was_built_of(self):
        bin_of_another = self.room / "bin"
        bin_of_another.mkdir()
        (bin_of_another / "canvas").symlink_to("/bin/true")
        right = self.real.digest
        other = right[:-1] + ("0" if right[-1] == "1" else "1")
        path = f"{bin_of_another}:{os.environ['PATH']}"
        for digest, said in ((right, "c0ffee kit None None"), (other, REFUSED)):
            self.record(digest)
            text = ("try: print(*program()[3:])\n"
                    "except CanvasError as error: print(error)")
            self.assertIn(said, self.said(text, PATH=path)[0])

    def test_records_that_cannot_be_read(self):
        for text in ("{", "[]", "{}", '{"digest": 1}', json.dumps({"digest": self.real.digest,
                                                                   "more": 1})):
            (self.package / "program.json").write_text(text)
            said = self.said("print(says('program'))")[0]
            self.assertRegex(said, f"can't be compared with its record|{REFUSED}")

    def test_each_call_answers(self):
        said = self.said("print(*map(says, CALLS), sep='\\n')")
        said = [it for it in said if not it.endswith(" answers")]
        self.assertEqual(len(said), 1)
        self.assertIn("export: Redis: AttributeError", said[0])

    def test_a_program_that_was_replaced_is_not_called(self):
        for replace in (shutil.copy, os.symlink):
            self.program.unlink()
            replace(self.spy, self.program)
            said = self.said("print(*map(says, CALLS), sep='\\n')")
            self.assertEqual(len(said), 12)
            self.assertEqual([it for it in said if REFUSED not in it], [])
            ran = self.process("-m", "bevtragi", "run", "--help")
            self.assertEqual((ran.returncode, ran.stdout), (126, ""))
            self.assertIn(REFUSED, ran.stderr)
            self.assertFalse(self.trace.exists())

    def test_a_program_that_is_replaced_between_two_calls(self):
        shutil.copy(self.program, self.room / "kept")
        text = ("import os, shutil\n"
                "print(says(), says('check'))\n"
                "shutil.copy('spy', 'new')\n"
                "os.replace('new', 'bevtragi/canvas')\n"
                "print(says('check')); print(says())\n"
                "os.replace('kept', 'bevtragi/canvas')\n"
                "print(says(), says('check'))\n")
        first, checked, asked, last = self.said(text)
        self.assertEqual((first, last), ("what_if answers check answers",) * 2)
        self.assertIn(REFUSED, asked)
        self.assertIn(REFUSED, checked)
        self.assertFalse(self.trace.exists())

    def test_it_is_read_once(self):
        text = ("import os\nfrom unittest import mock\n"
                "with mock.patch('bevtragi.wheel.record_of', wraps=wheel.record_of) as reads:\n"
                "    said = {says(it) for it in [*CALLS] * 3 if it not in ('program', 'page')}\n"
                "    print(len(said), reads.call_count)\n"
                "    os.utime('bevtragi/canvas', (1, 1))\n"
                "    said = [says(), says('check'), reads.call_count]\n"
                "    print(*said)\n")
        self.assertEqual(self.said(text), ["10 1", "what_if answers check answers 2"])

    def test_programs_from_elsewhere_are_not_compared(self):
        self.record("0" * 64)
        self.assertEqual(self.said("print(says(), says('check'))", CANVAS=str(self.spy)),
                         ["what_if answers check answers"])
        self.assertTrue(self.trace.exists())
        self.program.unlink()
        found = self.room / "bin"
        found.mkdir()
        (found / "canvas").symlink_to(self.spy)
        self.assertEqual(self.said("print(says())", PATH=f"{found}:{os.environ['PATH']}"),
                         ["what_if answers"])

    def test_the_wheels_own_by_its_path(self):
        self.record("0" * 64)
        (self.room / "link").symlink_to(self.program)
        for path in (self.program, self.room / "link"):
            self.assertIn(REFUSED, self.said("print(says())", CANVAS=str(path))[0])

    def test_a_program_without_a_record(self):
        (self.package / "program.json").unlink()
        self.assertEqual(self.said("print(says(), program()[3:])"),
                         ["what_if answers (None, None, None, None)"])


if __name__ == "__main__":
    unittest.main()
