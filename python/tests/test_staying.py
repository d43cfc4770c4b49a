"""The process of the program that stays: what it is asked, and what becomes of one that fails."""

import os
import signal
import subprocess
import sys
import tempfile
import threading
import time
import unittest
from pathlib import Path
from unittest import mock

HERE = Path(__file__).resolve().parent
sys.path[:0] = [str(HERE.parent / "src"), str(HERE)]

import bevtragi
from bevtragi import BadCall, CanvasError, Refused, every_failure, what_if
from bevtragi.staying import end

#: A program that passes items on to another, and notes its process in a file. At an item it does
#: something else: the first time, or with a name that begins with `each-`, each time.
RELAY = """#!{python}
import os, signal, subprocess, sys, time

if sys.argv[1] == "--version":
    print("canvas {version}")
    sys.exit()
program, fault, at, room = {program!r}, {fault!r}, {at}, {room!r}
with open(room + "/starts", "a") as starts:
    starts.write(" ".join([str(os.getpid()), *sys.argv[1:]]) + "\\n")
real = subprocess.Popen([program, *sys.argv[1:]], stdin=subprocess.PIPE)
text, count = b"", 0
while True:
    part = os.read(0, 1 << 16)
    if not part:
        break
    text += part
    *items, text = text.split(b"\\0")
    for item in items:
        count += 1
        if count == at and not os.path.exists(room + "/done"):
            if not fault.startswith("each-"):
                open(room + "/done", "w").close()
            if fault.endswith("stuck"):
                time.sleep(60)
            if fault.endswith("half"):
                os.write(1, b'{{"canvas":')
            if fault.endswith("garbage"):
                os.write(1, b"no\\n")
            if fault.endswith("two"):
                os.write(1, b'{{"name":"a","note":"b"}}\\n' * 2)
                continue
            if fault.endswith("status"):
                os.write(2, b"canvas: memory refused\\n")
            real.kill()
            if fault.endswith("killed"):
                os.kill(os.getpid(), signal.SIGKILL)
            os._exit(2 * fault.endswith("status"))
        real.stdin.write(item + b"\\0")
        real.stdin.flush()
real.stdin.close()
sys.exit(real.wait())
"""


def task(name, *args, **options):
    return {"task": name, "args": list(args), "options": options}


def chain(*tasks):
    return {"task": "celery.chain", "subtask_type": "chain", "kwargs": {"tasks": list(tasks)}}


def answer(number):
    """What a question of its own gives."""
    return what_if(task("a"), {"a": number}).result


class Staying(unittest.TestCase):
    """Questions to a program whose processes are counted."""

    def setUp(self):
        self.real = bevtragi.program().path
        room = tempfile.TemporaryDirectory()
        self.addCleanup(room.cleanup)
        self.room = Path(room.name)
        self.path = self.room / "canvas"
        self.addCleanup(end)
        self.write()
        patched = mock.patch.dict(os.environ, {"CANVAS": str(self.path)})
        patched.start()
        self.addCleanup(patched.stop)

    def write(self, fault="none", at=0, version="1.0.0"):
        """The program, as another file."""
        other = self.room / "other"
        other.write_text(RELAY.format(python=sys.executable, version=version, program=self.real,
                                      fault=fault, at=at, room=str(self.room)))
        other.chmod(0o755)
        other.replace(self.path)

    def pids(self):
        starts = self.room / "starts"
        return [int(it.split()[0]) for it in starts.read_text().splitlines()] \
            if starts.exists() else []

    def test_it_is_started_once(self):
        for number in range(20):
            self.assertEqual(answer(number), number)
        flow = chain(*(task(f"t{number}") for number in range(20)))
        self.assertEqual(len(every_failure(flow)), 20)
        with self.assertRaises(Refused):
            what_if({"task": ""})
        self.assertEqual(answer(5), 5)
        (said,) = (self.room / "starts").read_text().splitlines()
        self.assertEqual(said.split()[1:],
                         ["run", "-", "--each", "--null", "--with-tasks", "--adapt", "--json"])

    def test_it_is_started_anew_after_it_was_killed(self):
        self.assertEqual(answer(1), 1)
        os.kill(self.pids()[0], signal.SIGKILL)
        self.assertEqual([answer(number) for number in range(5)], [0, 1, 2, 3, 4])
        os.kill(self.pids()[1], signal.SIGKILL)
        time.sleep(0.2)
        self.assertEqual(answer(1), 1)
        self.assertEqual(len(self.pids()), 3)

    def test_it_is_started_anew_where_it_fails_in_the_middle(self):
        for fault in ("killed", "half", "garbage", "status", "two", "ended"):
            with self.subTest(fault=fault):
                for name in ("starts", "done"):
                    (self.room / name).unlink(missing_ok=True)
                self.write(fault, 3)
                self.assertEqual([answer(number) for number in range(6)], [0, 1, 2, 3, 4, 5])
                self.assertEqual(len(self.pids()), 2)

    def test_some_of_many_are_lost(self):
        flow = chain(*(task(f"t{number}") for number in range(30)))
        whole = every_failure(flow)
        self.write("killed", 17)
        found = every_failure(flow)
        self.assertEqual(found, whole)
        self.assertEqual(found.text(), whole.text())
        self.assertEqual(len(self.pids()), 3)

    def test_one_that_is_stuck_is_ended(self):
        self.write("stuck", 3)
        self.assertEqual([answer(1), answer(2)], [1, 2])
        with mock.patch("bevtragi.calling.SECONDS", 2):
            self.assertEqual(answer(3), 3)
        first, _ = self.pids()
        with self.assertRaises(ProcessLookupError):
            os.kill(first, 0)

    def test_one_that_fails_again_is_an_error(self):
        for fault, said in (("each-killed", "^`canvas run` was killed by signal 9$"),
                            ("each-ended", "^`canvas run` ended with status 0: it said nothing$"),
                            ("each-status", "^`canvas run` ended with status 2: canvas: memory"),
                            ("each-garbage", "^`canvas run` answered what can't be read: "),
                            ("each-two", "^`canvas run` answered what can't be read: ")):
            with self.subTest(fault=fault):
                (self.room / "starts").unlink(missing_ok=True)
                self.write()
                self.assertEqual(answer(1), 1)
                self.write(fault, 1)
                with self.assertRaisesRegex(CanvasError, said):
                    answer(2)
                self.write()
                self.assertEqual(answer(3), 3)
        self.write("each-stuck", 1)
        with mock.patch("bevtragi.calling.SECONDS", 1):
            with self.assertRaisesRegex(CanvasError, "canvas took more than 1 seconds$"):
                answer(2)

    def test_another_program_at_its_place(self):
        self.assertEqual(answer(1), 1)
        self.write()
        self.assertEqual(answer(2), 2)
        self.assertEqual(len(self.pids()), 2)
        self.write(version="0.2.0")
        for _ in range(2):
            with self.assertRaisesRegex(CanvasError, "is another program: it says canvas 0.2.0"):
                answer(3)
        self.write()
        self.assertEqual(answer(4), 4)
        self.path.unlink()
        with self.assertRaisesRegex(CanvasError, "can't be called: .*No such file"):
            answer(5)
        for pid in self.pids():
            with self.assertRaises(ProcessLookupError):
                os.kill(pid, 0)

    def test_threads_get_their_own_answers(self):
        wrong = []

        def ask(first):
            for number in range(first, first + 200):
                if answer(number) != number:
                    wrong.append(number)

        threads = [threading.Thread(target=ask, args=(1000 * it,)) for it in range(8)]
        for it in threads:
            it.start()
        for it in threads:
            it.join()
        self.assertEqual((wrong, len(self.pids())), ([], 1))

    def test_a_fork_starts_its_own(self):
        self.assertEqual(answer(1), 1)
        stop = threading.Event()

        def ask():
            while not stop.is_set():
                answer(7)

        asker = threading.Thread(target=ask)
        asker.start()
        children = []
        for number in range(5):
            child = os.fork()
            if not child:
                status = 9
                try:
                    signal.alarm(40)  # so that a child that waits for a lock of its parent ends
                    status = int([answer(number), answer(8)] != [number, 8])
                    end()
                finally:
                    os._exit(status)
            children.append(child)
        statuses = [os.waitstatus_to_exitcode(os.waitpid(it, 0)[1]) for it in children]
        stop.set()
        asker.join()
        self.assertEqual(statuses, [0] * 5)
        self.assertEqual(answer(2), 2)
        self.assertEqual(len(self.pids()), 6)

    def test_an_interrupt_leaves_no_answer_behind(self):
        self.assertEqual(answer(1), 1)
        with mock.patch("bevtragi.staying.json.loads", side_effect=KeyboardInterrupt):
            with self.assertRaises(KeyboardInterrupt):
                answer(2)
        self.assertEqual(answer(3), 3)
        first, _ = self.pids()
        with self.assertRaises(ProcessLookupError):
            os.kill(first, 0)

    def test_nothing_is_left_at_the_end(self):
        text = ("import threading, time\nfrom bevtragi import what_if\n"
                "what_if({'task': 'a'})\n"
                "threading.Thread(target=time.sleep, args=(0.2,)).start()\n")
        paths = os.pathsep.join([str(HERE.parent / "src"), *sys.path])
        ended = subprocess.run([sys.executable, "-X", "dev", "-W", "error", "-c", text],
                               capture_output=True, check=False, timeout=60,
                               env={**os.environ, "PYTHONPATH": paths})
        self.assertEqual((ended.returncode, ended.stdout, ended.stderr), (0, b"", b""))
        (pid,) = self.pids()
        with self.assertRaises(ProcessLookupError):
            os.kill(pid, 0)


class Answers(unittest.TestCase):
    """Answers that are those of a call of its own."""

    def same(self, canvas, tasks, **how):
        """What both ways give: a report with what its picture is asked for, or an error."""
        found = []
        for more in ({}, {"workers": 2}):
            try:
                report = what_if(canvas, tasks, **how, **more)
                found.append((report.rows, report.status, report.result, report._asked))
            except CanvasError as error:
                found.append((type(error), str(error)))
        self.assertEqual(found[0], found[1])
        return found[0]

    def test_reports(self):
        flow = chain(task("a", link_error=[task("alarm")]), task("b", 2))
        for tasks in ({}, {"a": KeyError}, {1: 5, "a": 7}, {"*": "add", "b": ValueError},
                      {2: ConnectionError}, {"a": "ident", 1: "raise:Own"}, {"alarm": 3}):
            self.assertEqual(len(self.same(flow, tasks)[0]), 3)

    def test_refusals(self):
        for canvas in (b"", b"{", b"[]", b"\xff", b'{"task":"a"}\0', b"\0", {"task": ""}, b"\n\n",
                       b'{"task":"a","args":["' + b"x" * 1_048_576 + b'"]}',
                       {"task": "a", "kwargs": {"tasks": []}, "subtask_type": "chord"}):
            self.assertIn(self.same(canvas, {})[0], (Refused, BadCall))

    def test_answers_that_are_none(self):
        for tasks in ({"b": 1}, {9: 1}, {0: 1}, {"a": "no"}, {"a": "raise:"}, {"": 1}, {"-a": 1},
                      {"a=": 1}, {"a\n": 1}, {"a\0": 1}, {"a\r": 1}, {"\ud800": 1}, {"\udcff": 1},
                      {"\xe4": 1}, {"a": 2 ** 61}, {"a\n\n": 1}, {"a": "1\nb=2"}, {"a": "1\r"},
                      {"x" * 2_000: 1}, {True: 1}, {None: 1}, {"#1": 2}):
            self.same(task("a"), tasks)
        for tasks in ({"a": 1.5}, {"a": None}, {"a": 10 ** 5000}):
            self.assertEqual(self.same(task("a"), tasks)[0], BadCall)
        many = {f"t{number}": 1 for number in range(1_100)}
        self.assertEqual(self.same(task("a"), many)[0], BadCall)

    def test_long_questions_and_long_answers(self):
        flow = chain(*(task(f"t{number}", "x" * 20_000) for number in range(40)))
        found = every_failure(flow)
        for number in (1, 20, 40):
            one = what_if(flow, {number: Exception}, workers=2)
            self.assertEqual((found[number], found[number].ran), (one, one.ran))


if __name__ == "__main__":
    unittest.main()
