"""The program's own page, `canvas page`: its block against the program's other answers, and what it
shows in Chromium against the page of the package."""

import json
import re
import subprocess
import sys
import unittest
from pathlib import Path
from unittest import mock

HERE = Path(__file__).resolve().parent
sys.path[:0] = [str(HERE.parent / "src"), str(HERE)]


from bevtragi import Page, page, what_if
from bevtragi.calling import path_of_program
from bevtragi.layout import TEMPLATE, framed
from bevtragi.texts import OWN, words_of
from page_canvases import hostile
from plain_canvases import chain, group, s
from test_page_in_browser import InBrowser, ORDER, SHOWN, TOLD, samples

#: The runs of a page: by how many workers, and whether all is delivered again.
RUNS = ((1, False), (2, False), (2, True), (4, False))
WORD = "raise:Exception"

#: What the page of the package has besides, or says otherwise.
APART = ("title", "notes", "celery", "happened", "foot", "omitted")


def asked(words, canvas):
    """What the program prints of a canvas, adapted first. Standard error may count stores."""
    text = canvas.read_bytes() if isinstance(canvas, Path) else json.dumps(canvas).encode()
    found = subprocess.run([path_of_program(), *words], input=text, capture_output=True, check=False)
    if found.returncode:
        raise AssertionError(found.stderr)
    return found.stdout.decode()


def page_of(canvas, answers, *words):
    return asked(["page", "-", *words_of(answers, True), *words], canvas)


def block_of(made):
    """The block of a page, which has only what comes before and after it besides."""
    head, tail = framed("answers.js")
    if not (made.startswith(head) and made.endswith(tail)):
        raise AssertionError("another page")
    return made[len(head):len(made) - len(tail)]


def printed(text):
    """A text as the program prints it for a reader."""
    units = text.encode("utf-16-be")
    codes = [int.from_bytes(units[at:at + 2], "big") for at in range(0, len(units), 2)]
    return "".join(chr(it) if it == 10 or 32 <= it <= 126 else f"\\u{it:04x}" for it in codes)


def unescaped(block):
    for it in "<>&":
        block = block.replace(f"\\u{ord(it):04x}", it)
    return block


def whole(canvas):
    """What the tasks of a canvas answer: the program's own as they do, and others 0."""
    names = {row.name for row in what_if(canvas).rows}
    own = {name: name.partition(".")[2] for name in OWN if name in names}
    return {**own, "*": 0}


class Block(unittest.TestCase):
    def test_it_is_what_the_program_answers(self):
        for name, canvas, tasks in samples(random_count=20):
            with self.subTest(name):
                answers = {**whole(canvas), **tasks}
                block = block_of(page_of(canvas, answers))
                self.assertIsNone(re.search("[<>&]|[^ -~\n]", block))
                self.assertEqual(unescaped(block), self.answers(canvas, answers))

    def answers(self, canvas, answers):
        words = ["-", *words_of(answers, True)]
        line = printed(asked(["normal", "-", "--adapt", "--numbers"], canvas))
        base, *cases = asked(["run", *words, f"--failures={WORD}"], canvas).splitlines(True)
        runs = []
        for workers, again in RUNS:
            runs.append(f'{{"again":{str(again).lower()},"workers":{workers}}}\n')
            runs.append(asked(["turns", *words, "--steps", f"--workers={workers}",
                               *["--again=all"] * again], canvas))
        # a text of the canvas may have such a number already
        return unescaped("".join([line, base, *runs, *cases]))

    def test_a_word_and_no_adapting(self):
        made = asked(["page", str(ORDER), "--failures=raise:OutOfStock", "--task=*=0"], {})
        self.assertIn('"exc_type":"OutOfStock"', block_of(made))

    def test_a_large_canvas_has_no_cases_and_runs(self):
        for count, lines in ((200, 1 + 201), (201, 2)):
            block = block_of(page_of(chain(*[s("a")] * count), {"*": 0}))
            told = [json.loads(it) for it in block.splitlines()]
            self.assertEqual(sum("ask" not in it and "workers" not in it for it in told), lines)
            self.assertEqual([it["workers"] for it in told if "again" in it],
                             [1, 2, 2, 4] if count == 200 else [])
        for texts, lines in ((1, 1 + 1 + 1), (90, 2)):
            block = block_of(page_of(s("a", *["x" * 1000] * texts), {"*": 0}))
            self.assertEqual(sum('"ask"' not in it and '"workers"' not in it
                                 for it in block.splitlines()), lines)


class Shown(InBrowser):
    """What the page shows, by the part of the script that reads the block."""

    def data(self, made):
        self.open(Page(made))
        reader = (TEMPLATE / "answers.js").read_text("utf-8")
        return self.js(f"{reader}\nreturn data")

    def test_it_is_what_the_page_of_the_package_shows(self):
        compared = 0
        with mock.patch("bevtragi.page_celery.MOST_TASKS", -1):
            for name, canvas, tasks in samples(random_count=20):
                with self.subTest(name):
                    answers = {**whole(canvas), **tasks}
                    found = self.data(page_of(canvas, answers))
                    made = page(canvas, answers, workers=(1, 2, 4))
                    wanted = json.loads(re.search('id="data">(.*?)<', made)[1])
                    wanted["plays"] = [it for it in wanted["plays"] if not it["failing"]
                                       and (it["workers"], it["again"]) in RUNS]
                    self.assertEqual(found["omitted"], "")
                    for it in APART:
                        found.pop(it)
                        wanted.pop(it, None)
                    self.assertEqual(found, wanted)
                    self.is_quiet()
                    compared += len(wanted["tasks"])
        self.assertGreater(compared, 150)

    def test_the_order(self):
        """Each task is clicked, and the runs are played."""
        answers = {**whole(ORDER), **TOLD}
        clicked = SHOWN + """
            const found = [shown()];
            for (let number = 1; document.getElementById(`task-${number}`); number++) {
              document.getElementById(`task-${number}`).click();
              found.push(shown());
            }
            return found;"""
        self.open(Page(page_of(ORDER, answers)))
        mine = self.js(clicked)
        self.assertEqual(self.text("h1"), "canvas")
        self.assertIn("a task fails with Exception.", self.text("#foot"))
        with mock.patch("bevtragi.page_celery.MOST_TASKS", -1):
            self.open(page(ORDER, answers, workers=()))
        self.assertEqual(mine, self.js(clicked))
        self.open(Page(page_of(ORDER, answers)))
        for workers, again in RUNS:
            self.js("""
                const [workers, again] = arguments, byId = (id) => document.getElementById(id);
                byId("view-run").click();
                byId("workers").value = workers;
                byId("again").checked = again;
                byId("workers").onchange();""", workers, again)
            self.browser.press("End")
            self.assertIn("All is done: the canvas succeeds with ", self.text("#answer"))
            self.assertEqual(self.text("#queue"), "empty")

    def test_numbers_have_all_their_digits(self):
        great = 2 ** 60
        made = page_of(s("a", great, "\u00e9<", [1, 2]), {"*": great - 1})
        found = self.data(made)
        self.assertEqual(found["tasks"], [["a", f'{great}, "\u00e9<", [1, 2]']])
        self.assertEqual(found["values"], [str(great - 1), "Exception"])

    def test_a_large_canvas_says_what_is_left_out(self):
        self.open(Page(page_of(group(*[s("a")] * 201), {"*": 0})))
        self.assertIn("The canvas is too large for this page", self.text("#answer"))
        self.assertFalse(self.is_shown("#view-run"))
        self.click("#task-3")
        self.assertIn("The canvas is too large for this page", self.text("#answer"))
        self.is_quiet()

    def test_hostile_texts_do_nothing(self):
        self.open(Page(page_of(hostile(), {"*": 0})))
        self.assertEqual(self.js("return typeof pwned"), "undefined")
        self.assertEqual(self.js("return document.querySelectorAll('script, img, svg[onload]').length"), 2)
        self.is_quiet()


if __name__ == "__main__":
    unittest.main()
