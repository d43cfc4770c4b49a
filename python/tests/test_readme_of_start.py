"""What python/README.md says of starts is what they do."""

import contextlib
import os
import re
import shutil
import signal
import subprocess
import sys
import tempfile
import unittest
from pathlib import Path

HERE = Path(__file__).resolve().parent
sys.path[:0] = [str(HERE.parent / "src"), str(HERE)]

import bevtragi
from test_start_on_workers import SECONDS, celery, server, until

README = (HERE.parent / "README.md").read_text()
SECTION = README[README.index("\n## On your workers"):README.index("\n## What Celery does")]
EXAMPLE = HERE.parent / "examples" / "start_order.py"


class Section(unittest.TestCase):
    """What can be read without Celery."""

    def test_its_code_is_that_of_the_example(self):
        code, example = SECTION[:SECTION.index("`examples/")], EXAMPLE.read_text()
        lines = [it.strip() for it in re.findall(r"^    (.*)$", code, re.M)]
        self.assertEqual(len(lines), 5)
        for line in lines:
            self.assertIn(line, example)

    def test_it_names_what_there_is(self):
        for name in ("NotEnded", "NotHeeded", "StartedBefore", "run_of", "start"):
            self.assertIn(f"`{name}", SECTION)
            self.assertIn(name, bevtragi.__all__)
        for name in re.findall(r"`run\.(\w+)", SECTION):
            self.assertTrue(hasattr(bevtragi.Run, name) or f"self.{name}" in
                            (HERE.parent / "src" / "bevtragi" / "started_runs.py").read_text(), name)


@unittest.skipIf(celery is None or shutil.which("redis-server") is None,
                 "Celery or redis-server isn't installed")
class Example(unittest.TestCase):
    """The order of the section, on a worker."""

    def begun(self, process):
        def end():
            with contextlib.suppress(ProcessLookupError):
                os.killpg(process.pid, signal.SIGKILL)
            process.wait(SECONDS)
        self.addCleanup(end)
        return process

    def test_what_is_printed(self):
        room = tempfile.mkdtemp()
        self.addCleanup(shutil.rmtree, room, ignore_errors=True)
        self.begun(server(room, "--unixsocket", f"{room}/redis.sock"))
        until(lambda: Path(f"{room}/redis.sock").exists())
        environment = {**os.environ, "SHOP_REDIS": f"redis+socket://{room}/redis.sock",
                       "PYTHONPATH": str(HERE.parent / "src")}
        self.begun(subprocess.Popen(
            [sys.executable, "-B", "-m", "celery", "-A", "start_order", "worker", "-c", "2"],
            cwd=EXAMPLE.parent, env=environment, stdout=subprocess.DEVNULL,
            stderr=subprocess.DEVNULL, start_new_session=True))
        ran = subprocess.run([sys.executable, "-B", EXAMPLE.name], cwd=EXAMPLE.parent,
                             env=environment, capture_output=True, text=True, timeout=3 * SECONDS,
                             check=False)
        shown = SECTION[SECTION.index("It prints"):]
        self.assertEqual(ran.stdout.splitlines(), re.findall(r"^    (.*)$", shown, re.M),
                         ran.stderr)


if __name__ == "__main__":
    unittest.main()
