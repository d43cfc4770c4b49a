"""The page without a browser: its data, its template, its command line, and how it is written."""

import base64
import hashlib
import json
import os
import re
import runpy
import subprocess
import sys
import tempfile
import unittest
from pathlib import Path
from unittest import mock

HERE = Path(__file__).resolve().parent
sys.path[:0] = [str(HERE.parent / "src"), str(HERE)]

import bevtragi
from bevtragi import BadCall, CanvasError, Page, Picture, Refused, Report, page
from bevtragi.page_data import as_block, text_of
from bevtragi.playing import check_workers
from dictionary import stored
from fake_redis import Server
from page_canvases import hostile
from plain_canvases import chain, chord, group, s

ORDER = HERE.parent.parent / "examples" / "order" / "order.json"
TEMPLATE = HERE.parent / "src" / "bevtragi" / "template"
NUMBER = "0123456789abcdef012345"


def data_of(made):
    """The data of a page."""
    found = re.search('<script type="application/json" id="data">(.*?)</script>', made, re.DOTALL)
    return found[1]


class Data(unittest.TestCase):
    def test_no_text_ends_an_element(self):
        made = page(hostile(), title="</script>\u2028", workers=())
        data = data_of(made)
        self.assertIsNone(re.search("[<>&]|[^ -~]", data))
        self.assertEqual(json.loads(data)["title"], "</script>\u2028")
        self.assertEqual(len(re.findall("<script", made)), 2)
        self.assertEqual(len(re.findall("</script", made)), 2)
        self.assertEqual(json.loads(as_block({"a": "<&>\u00e9"})), {"a": "<&>\u00e9"})

    def test_the_line_is_the_normal_line(self):
        """A task's callbacks, a header's members, a body after it, and a group at the end."""
        flow = chain(s("a", 1, link=[s("b")], errors=[s("c")]), chord([s("d"), s("e")], s("f")),
                     group(s("g"), s("h")))
        line = json.loads(data_of(page(flow, workers=())))["line"]
        self.assertEqual(line["tasks"], [[1, [[2, [], []]], [[3, [], []]]]])
        self.assertEqual([it["tasks"][0][0] for it in line["members"]], [4, 5])
        body = line["body"]
        self.assertEqual(body["tasks"], [[6, [], []]])
        self.assertEqual([it["tasks"][0][0] for it in body["members"]], [7, 8])
        self.assertNotIn("body", body)
        self.assertEqual((line["group"], body["group"]), (1, 2))

    def test_names_and_arguments(self):
        data = json.loads(data_of(page(s("a", 1, "\u00e9", x=[2]), workers=())))
        self.assertEqual(data["tasks"], [["a", '1, "\u00e9", x=[2]']])
        long = json.loads(data_of(page(s("a", "x" * 1000), workers=())))["tasks"][0][1]
        self.assertEqual((len(long), long[-3:]), (300, "x.."))

    def test_a_large_text_is_cut(self):
        """A megabyte of characters that can't be seen."""
        unseen = "".join(map(chr, [*range(32), 0x7f, 0x202e, 0x2028])) * 4500
        made = page(s("a", unseen), workers=())
        self.assertLess(len(made), 100_000)
        self.assertIsNone(re.search("[^ -~]", data_of(made)))

    def test_only_what_was_answered_has_a_value(self):
        flow = chain(s("shop.a"), s("shop.b"), s("tasks.add", 2, immutable=True))
        data = json.loads(data_of(page(flow, {"shop.b": 5}, workers=())))
        places = [row[1] for row in data["well"]["rows"]]
        self.assertEqual(places[0], -1)
        self.assertEqual(data["values"][places[1]], "5")
        told = json.loads(data_of(page(flow, {"*": 7}, workers=())))
        self.assertNotIn(-1, [row[1] for row in told["well"]["rows"]])

    def test_failures_have_the_rows_that_differ(self):
        """Rows that are alike and follow each other are one."""
        flow = chain(*(s("a") for _ in range(9)))
        data = json.loads(data_of(page(flow, error=KeyError, workers=())))
        self.assertEqual(len(data["failures"]), 9)
        self.assertEqual([it[:3] for it in data["failures"][3]["changes"]], [[4, 4, 1], [5, 9, 2]])
        self.assertEqual(data["failures"][3]["end"][0], "FAILURE")

    def test_long_results_are_short(self):
        self.assertEqual(text_of([0] * 200), "200 times 0")
        self.assertEqual(text_of([*range(20)]), "[0, 1, 2, 3, 4, 5, 6, 7, ..]")
        self.assertEqual(text_of([[1, 1], 2]), "[2 times 1, 2]")
        self.assertEqual(len(text_of("x" * 9999)), 300)

    def test_celery_is_left_out_of_large_canvases(self):
        if not has_celery():
            self.skipTest("Celery isn't installed")
        data = json.loads(data_of(page(group(*(s("a") for _ in range(41))), workers=())))
        self.assertIsNone(data["celery"]["cases"])
        self.assertIn("Celery wasn't asked: the canvas has more than 40 tasks.", data["foot"])

    def test_without_celery(self):
        with mock.patch.dict(sys.modules, {"celery": None}):
            data = json.loads(data_of(page(ORDER, workers=())))
        self.assertIsNone(data["celery"])
        self.assertNotIn("Celery", " ".join(data["foot"]))

    def test_refusals(self):
        with self.assertRaises(Refused):
            page({"task": 5})
        for workers in ((0,), (17,), (True,), "12", 4, (1, "2")):
            with self.assertRaises(BadCall):
                check_workers(workers)
        with self.assertRaises(BadCall):
            page(ORDER, {"nope": 5})
        six = bevtragi.what_if(chain(*(s("other") for _ in range(6))))
        for results in ("rows", bevtragi.what_if(s("a")), six):
            with self.assertRaises(BadCall):
                page(ORDER, results=results, workers=())


class Steps(unittest.TestCase):
    def test_no_workers_are_no_runs(self):
        self.assertEqual(json.loads(data_of(page(ORDER, workers=())))["plays"], [])

    def test_runs_of_a_chain(self):
        plays = json.loads(data_of(page(chain(s("a"), s("b")), workers=(1,))))["plays"]
        self.assertEqual([(it["workers"], it["again"], it["failing"]) for it in plays],
                         [(1, False, 0), (1, True, 0), (1, False, 1), (1, False, 2)])
        self.assertEqual(plays[0]["steps"], "0p1 1t1 1s1 1p2 1a1 1t2 1s2 1a2")
        self.assertEqual(plays[1]["steps"].count("S"), 4)
        self.assertEqual(plays[1]["steps"].count("d"), 4)

    def test_a_header_counts_its_parts(self):
        plays = json.loads(data_of(page(chord([s("a"), s("b")], s("c")), workers=(1,))))["plays"]
        self.assertEqual(re.findall(r"1c\S+", plays[0]["steps"]), ["1c1:1:0", "1c2:1:1"])


class Template(unittest.TestCase):
    def test_it_makes_no_html_of_texts_and_loads_nothing(self):
        text = "".join(it.read_text("utf-8") for it in sorted(TEMPLATE.iterdir()))
        self.assertEqual(re.findall(
            r"innerHTML|outerHTML|insertAdjacent|document\.write|\beval\(|Function\(|\bon\w+=\"|"
            r"style=\"|href|src=|@import|url\(|fetch\(|XMLHttpRequest|WebSocket", text), [])
        self.assertEqual(set(re.findall(r"https?://[^\"' ]*", text)),
                         {"http://www.w3.org/2000/svg"})

    def test_each_part_is_in_the_page(self):
        made = page(s("a"), workers=())
        for it in TEMPLATE.iterdir():
            if it.name not in ("page.html", "answers.js"):
                self.assertIn(it.read_text("utf-8"), made, it.name)
        self.assertIsNone(re.search(r"\{\{[a-z ]+\}\}", made))

    def test_the_policy_names_one_style_and_one_script(self):
        made = page(s("a"), workers=())
        policy = re.search('Content-Security-Policy" content="(.*?)"', made)[1]
        digests = [base64.b64encode(hashlib.sha256(it.encode()).digest()).decode() for it in
                   (re.search("<style>(.*?)</style>", made, re.DOTALL)[1],
                    re.search("<script>(.*?)</script>", made, re.DOTALL)[1])]
        self.assertEqual(policy, "default-src 'none'; style-src 'sha256-{}'; script-src 'sha256-{}';"
                         " base-uri 'none'; form-action 'none'; require-trusted-types-for 'script';"
                         " trusted-types 'none'".format(*digests))

    def test_the_wheel_has_it(self):
        wheels = runpy.run_path(str(HERE.parent / "wheels.py"))
        names = {f"bevtragi/template/{it.name}" for it in TEMPLATE.iterdir()}
        self.assertLess(names, set(wheels["package_files"]()))

    def test_texts_can_be_read(self):
        """Each colour of a text has a contrast of 4.5 to 1 to what is below it, day and night."""
        css = (TEMPLATE / "page.css").read_text("utf-8")
        blocks = re.findall(r":root \{(.*?)\}", css, re.DOTALL)
        self.assertEqual(len(blocks), 2)
        faces = ("well-face", "bad-face", "skip-face", "busy-face", "card", "page")
        pairs = [(ink, face) for ink in ("ink", "dim") for face in faces]
        pairs += [(ink, face) for ink in ("well", "bad", "skip", "busy", "other", "quiet")
                  for face in ("card", "page")]
        pairs += [("bright", face) for face in ("well", "bad", "busy", "other")]
        pairs += [("busy", "busy-face"), ("other", "other-face"), ("card", "ink")]
        for block in blocks:
            colours = dict(re.findall(r"--([\w-]+): #(\w{6});", block))
            for ink, face in pairs:
                high, low = sorted((light(colours[ink]), light(colours[face])), reverse=True)
                with self.subTest(ink=ink, face=face, night=block is blocks[1]):
                    self.assertGreaterEqual((high + 0.05) / (low + 0.05), 4.5)


def light(colour):
    """The relative luminance of a colour (WCAG 2)."""
    parts = [int(colour[at:at + 2], 16) / 255 for at in (0, 2, 4)]
    parts = [it / 12.92 if it <= 0.03928 else ((it + 0.055) / 1.055) ** 2.4 for it in parts]
    return 0.2126 * parts[0] + 0.7152 * parts[1] + 0.0722 * parts[2]


class Kept(unittest.TestCase):
    """How a page is saved and shown."""

    def setUp(self):
        self.made = Page("<!DOCTYPE html>\u2260")
        folder = tempfile.TemporaryDirectory()
        self.addCleanup(folder.cleanup)
        self.folder = Path(folder.name)

    def test_save(self):
        path = self.made.save(self.folder / "a.html")
        self.assertEqual(path.read_bytes(), "<!DOCTYPE html>\u2260".encode())
        self.assertTrue(path.is_absolute())
        with self.assertRaisesRegex(BadCall, "can't be written: No such file or directory"):
            self.made.save(self.folder / "no" / "a.html")

    def test_show(self):
        with mock.patch("webbrowser.open", return_value=True) as opened:
            path = self.made.show(self.folder / "a.html")
            opened.assert_called_once_with(path.as_uri())
            with mock.patch("tempfile.tempdir", str(self.folder)):
                self.assertEqual(self.made.show().read_text("utf-8"), str(self.made))
        with mock.patch("webbrowser.open", return_value=False):
            with self.assertRaisesRegex(CanvasError, "no browser opens"):
                self.made.show(self.folder / "a.html")

    def test_a_notebook_has_it_in_a_frame_without_rights(self):
        shown = Page('<p a="1">')._repr_html_()
        self.assertIn('sandbox="allow-scripts"', shown)
        self.assertIn('srcdoc="&lt;p a=&quot;1&quot;&gt;"', shown)
        self.assertEqual(repr(self.made), "<Page of 16 characters>")


class Pictures(unittest.TestCase):
    def test_a_dot_that_takes_too_long(self):
        with tempfile.TemporaryDirectory() as room, mock.patch.dict(os.environ, {"PATH": room}):
            dot = Path(room, "dot")
            dot.write_text("#!/bin/sh\nexec /bin/sleep 5\n")
            dot.chmod(0o755)
            with mock.patch("bevtragi.pictures.SECONDS", 0.2):
                with self.assertRaisesRegex(CanvasError, r"Graphviz took more than 0.2 seconds:"
                                            r" bevtragi.page\(\) shows a large canvas"):
                    Picture("digraph").svg()


class Command(unittest.TestCase):
    """`python -m bevtragi page`."""

    def setUp(self):
        folder = tempfile.TemporaryDirectory()
        self.addCleanup(folder.cleanup)
        self.folder = Path(folder.name)

    def call(self, *words, given=b"", program=None):
        env = {**os.environ, "CANVAS": program or bevtragi.program().path,
               "PYTHONPATH": str(HERE.parent / "src"), "PYTHONDONTWRITEBYTECODE": "1"}
        return subprocess.run([sys.executable, "-W", "ignore", "-m", "bevtragi", *words],
                              input=given, capture_output=True, check=False, env=env, timeout=100)

    def fails(self, status, said, *words, **how):
        """A call that prints nothing but a line on standard error."""
        done = self.call("page", *words, **how)
        self.assertEqual((done.returncode, done.stdout), (status, b""))
        self.assertRegex(done.stderr.decode("ascii"), rf"\Acanvas: {said}.*\n\Z")

    def test_a_page_in_a_file(self):
        out = self.folder / "order.html"
        tasks = str(ORDER.with_name("tasks.txt"))
        done = self.call("page", str(ORDER), "-o", str(out), "--tasks", tasks, "--task",
                         "shop.ship=9", "--error", "OutOfStock", "--workers", "none")
        self.assertEqual((done.returncode, done.stdout.decode(), done.stderr),
                         (0, f"{out.resolve()}\n", b""))
        data = json.loads(data_of(out.read_text("utf-8")))
        values = [data["values"][row[1]] if row[1] >= 0 else "" for row in data["well"]["rows"]]
        self.assertEqual(values, ["7", "50", "9", "", "59", "59"])
        self.assertEqual(data["title"], "order")
        self.assertIn("OutOfStock", data["values"])

    def test_a_page_that_is_printed(self):
        given = json.dumps(s("a")).encode()
        done = self.call("page", "-", "--title", "x", "--task", "#1=4", given=given)
        self.assertEqual((done.returncode, done.stderr), (0, b""))
        data = json.loads(data_of(done.stdout.decode()))
        self.assertEqual((data["title"], data["values"][data["well"]["end"][1]]), ("x", "4"))

    def test_what_is_refused(self):
        bad = json.dumps({"task": "a", "options": 3}).encode()
        given = json.dumps(s("a")).encode()
        self.fails(1, "refused 5 BadArgs in a at the top: found options 3, wanted an object", "-",
                   given=bad)
        self.fails(1, r"cannot read /no\\u001b\[31m", "/no\x1b[31m")
        self.fails(1, "/no/a.html can't be written: No such file", str(ORDER), "-o", "/no/a.html",
                   "--workers", "none")
        self.fails(1, "cannot read /no", "-", "--tasks", "/no", given=given)
        self.fails(1, "refused BadTask a: an answer is NAME=WORD", "-", "--task", "a", given=given)
        self.fails(1, "'b' is no task|BadTask", "-", "--task", "b=1", given=given)
        self.fails(1, "--error is the name of a class", "-", "--error", "a b", given=given)
        self.fails(1, "workers is a list of numbers", "-", "--workers", "17", given=given)
        self.fails(1, "argument --workers: a list of numbers", "-", "--workers", "x", given=given)
        self.fails(1, r"unrecognized arguments: --\\u001b", "-", "--\x1b", given=given)
        self.fails(1, "the following arguments are required: FILE")
        self.fails(126, "/no can't be called", "-", given=given, program="/no")

    def test_all_other_words_are_the_programs(self):
        done = self.call("run", "-", given=json.dumps(s("tasks.add", 2, 2)).encode())
        self.assertIn(b"SUCCESS 4", done.stdout)
        self.assertEqual(self.call("pages").returncode, 1)

    def results(self, *lines, of=NUMBER):
        """The page of two tasks with these stored results."""
        flow, file = self.folder / "flow.json", self.folder / "results"
        flow.write_text(json.dumps(chain(s("a"), s("b"))))
        file.write_text("".join(f"{it}\n" for it in lines))
        return [str(flow), "--results", str(file), "--of", of, "--workers", "none"]

    def test_what_workers_stored(self):
        words = self.results(stored(NUMBER, 1, "SUCCESS", {"price": 9.5}), "")
        done = self.call("page", *words)
        self.assertEqual((done.returncode, done.stderr), (0, b""))
        happened = json.loads(data_of(done.stdout.decode()))["happened"]
        self.assertEqual(happened["rows"], [[0, '{"price":9.5}'], [3, ""]])
        self.assertEqual(happened["end"], "The canvas has no result yet.")
        nothing = json.loads(data_of(self.call("page", *self.results("", "(nil)")).stdout.decode()))
        self.assertEqual(nothing["happened"]["rows"], [[3, ""], [3, ""]])

    def test_results_that_are_not_of_this_canvas(self):
        one = stored(NUMBER, 1, "SUCCESS", 1)
        self.fails(1, "refused BadCount in .*: 1 results of 2 tasks", *self.results(one))
        self.fails(1, "BadRun", *self.results(one, "", of="12"))
        self.fails(1, "--results and --of go together", *self.results(one, "")[:-4])
        self.fails(1, "OtherTask", *self.results(one, one))


class Reports(unittest.TestCase):
    """Results of a run, as the page tells them."""

    def told(self, rows, **more):
        made = Report([{"name": "abcdef"[at], "result": result, "status": status, "task_id": "",
                        **extra} for at, (status, result, extra) in enumerate(rows)],
                      {"status": "PENDING", "result": None})
        made.__dict__.update(more)
        flow = chain(*(s("abcdef"[at]) for at in range(len(rows))))
        return json.loads(data_of(page(flow, workers=(), results=made)))["happened"]

    def test_each_state(self):
        failure = {"exc_type": "KeyError", "exc_message": []}
        due = {"ran": False, "due_to": "00000000-0000-8000-8000-000000000002"}
        told = self.told([("SUCCESS", 1, {}), ("FAILURE", failure, {"ran": True}),
                          ("FAILURE", failure, due), ("PENDING", None, {}), ("PENDING", None, {}),
                          ("UNREADABLE", "NotJson", {})],
                         waits_for={4: "PENDING", 5: "BUSY"}, silent={6: "nobody knows"})
        self.assertEqual(told["rows"], [[0, "1"], [1, "KeyError"], [2, "due to #2"],
                                        [4, "a worker may take it"], [5, "BUSY"],
                                        [6, '"NotJson"']])
        self.assertEqual(told["notes"], ["#6 f: nobody knows."])


class Started(unittest.TestCase):
    def test_the_page_of_a_run_so_far(self):
        """Its arguments may be anything, and a task that retries is at work."""
        client = Server().client()
        run = bevtragi.start(chain(s("a", {"price": 9.5}), s("b")), None, client, number=NUMBER)
        stored_at = {"status": "RETRY", "result": None, "task_id": run.keys[0][-36:]}
        client.keys[run.keys[0]] = json.dumps(stored_at)
        data = json.loads(data_of(run.page()))
        self.assertEqual(data["happened"]["rows"], [[5, "RETRY"], [3, ""]])
        self.assertEqual(data["title"], f"run {NUMBER}")
        self.assertEqual(data["tasks"][0], ["a", '"{\\"price\\":9.5}"'])
        for number in (0, 1):
            client.keys[run.keys[number]] = json.dumps(
                {"status": "SUCCESS", "result": [0.5], "task_id": run.keys[number][-36:]})
        data = json.loads(data_of(run.page()))
        self.assertEqual(data["happened"]["rows"], [[0, "[0.5]"], [0, "[0.5]"]])
        self.assertEqual(data["happened"]["end"], "The canvas succeeded with [0.5].")


def has_celery():
    try:
        return bool(bevtragi.celery_run.celery_version())
    except CanvasError:
        return False


if __name__ == "__main__":
    unittest.main()
