"""What the page shows in Chromium, against what the program answers."""

import re
import sys
import tempfile
import unittest
from pathlib import Path
from unittest import mock

HERE = Path(__file__).resolve().parent
sys.path[:0] = [str(HERE.parent / "src"), str(HERE)]

import bevtragi
import browser
from bevtragi import Failure, Report, messages, page, what_if
from bevtragi.texts import OWN
from page_canvases import hostile, random_canvases
from plain_canvases import chain, chord, group, s

TOP = HERE.parent.parent
ORDER = TOP / "examples" / "order" / "order.json"
TOLD = {"shop.list": 7, "shop.charge": 50, "shop.ship": 5, "shop.refund": 0, "shop.total": "xsum",
        "shop.thank": "ident"}
RANDOM = 50

STATES = {("SUCCESS", True): "succeeded", ("FAILURE", True): "failed",
          ("FAILURE", False): "skipped", ("PENDING", False): "unneeded"}

#: What a task shows, and its row of the table.
SHOWN = """
const looks = () => [...document.querySelectorAll("#picture .task")]
  .map((it) => [Number(it.id.slice(5)), it.closest("li.stop").dataset.state,
    it.querySelector(".tag").textContent, it.querySelector(".note").textContent,
    it.getAttribute("aria-pressed")])
  .sort((one, other) => one[0] - other[0]);
const rows = () => [...document.querySelectorAll("#rows tr")].map((it) => [
  it.querySelector(".icon").dataset.state, it.cells[1].textContent,
  it.classList.contains("chosen")]);
const shown = () => ({ looks: looks(), rows: rows(),
  question: document.getElementById("question").textContent,
  answer: document.getElementById("answer").textContent });
"""


def samples(random_count=RANDOM):
    """Canvases by name, with what their tasks answer."""
    for it in sorted((TOP / "examples").glob("*.json")):
        yield it.stem, it, {}
    for it in sorted((HERE / "flows").glob("*.json")):
        yield it.stem, it, {}
    yield "order, answered", ORDER, TOLD
    yield "hostile", hostile(), {}
    for name, canvas in random_canvases(random_count):
        yield name, canvas, {}


def whole(canvas, tasks):
    """The answers of a page: the program's own tasks do what they do."""
    names = {row.name for row in what_if(canvas).rows}
    return {**{name: name.partition(".")[2] for name in OWN if name in names}, **tasks}


@unittest.skipUnless(browser.shared(), f"the page isn't tested: {browser.why()}")
class InBrowser(unittest.TestCase):
    @classmethod
    def setUpClass(cls):
        cls.browser = browser.shared()
        cls.folder = tempfile.TemporaryDirectory()
        cls.count = 0

    @classmethod
    def tearDownClass(cls):
        cls.folder.cleanup()

    def setUp(self):
        self.browser.look()
        self.browser.said()

    def open(self, made, where=""):
        """Opens a page from a file."""
        type(self).count += 1
        path = made.save(Path(self.folder.name, f"{self.count}.html"))
        self.browser.open(path.as_uri() + where)
        self.is_quiet()

    def is_quiet(self):
        self.assertEqual(self.browser.said(), [])

    def js(self, code, *given):
        return self.browser.js(code, *given)

    def click(self, where):
        self.js("document.querySelector(arguments[0]).click()", where)

    def is_shown(self, where):
        return self.js("return document.querySelector(arguments[0]).offsetParent !== null", where)

    def text(self, where):
        return self.js("return document.querySelector(arguments[0]).textContent", where)

    def states(self):
        """The state of each task."""
        return self.js(SHOWN + "return looks().map((it) => it[1])")

    def go(self, address):
        """Goes to an address in the page, and waits until the page has heard of it."""
        self.js("""return new Promise((done) => {
            if (location.hash === arguments[0]) return done();
            addEventListener("hashchange", () => setTimeout(done), {once: true});
            location.hash = arguments[0];
        })""", address)

    def wait(self, milliseconds):
        self.js("return new Promise((done) => setTimeout(done, arguments[0]))", milliseconds)


class Failures(InBrowser):
    def test_each_task_of_each_canvas(self):
        """Each task is clicked twice, so that the picture is at last what it was at first."""
        clicked = 0
        with mock.patch("bevtragi.page_celery.MOST_TASKS", -1):
            for name, canvas, tasks in samples():
                with self.subTest(name):
                    clicked += self.compare(canvas, tasks)
        self.assertGreater(clicked, 300)

    def compare(self, canvas, tasks):
        made, answers = page(canvas, tasks, workers=()), whole(canvas, tasks)
        well = what_if(canvas, answers)
        self.open(made)
        found = self.js(SHOWN + """
            const found = [shown()];
            for (let number = 1; document.getElementById(`task-${number}`); number++) {
              document.getElementById(`task-${number}`).click();
              found.push(shown());
              document.getElementById(`task-${number}`).click();
              found.push(shown());
            }
            return found;""")
        self.assertEqual(len(found), 1 + 2 * len(well.rows))
        names = {row.name for row in well.rows if row.name in answers}
        self.agree(found[0], well, well, 0, names)
        for number in range(1, len(well.rows) + 1):
            report = what_if(canvas, {**answers, number: Exception})
            self.agree(found[2 * number - 1], report, well, number, names)
            self.assertEqual(found[2 * number], found[0])
        self.is_quiet()
        return len(well.rows)

    def agree(self, shown, report, well, chosen, names):
        """What is shown of a report, where the task `chosen` fails."""
        self.assertEqual(len(shown["looks"]), len(report.rows))
        called = []
        for row, before, look, cells in zip(report.rows, well.rows, shown["looks"], shown["rows"]):
            state = STATES[row.status, row.ran]
            number, shown_state, tag, note, pressed = look
            self.assertEqual((number, shown_state, cells[0]), (row.number, state, state))
            self.assertEqual((pressed, cells[2]), (str(number == chosen).lower(), number == chosen))
            becomes = self.becoming(row, names)
            self.assertEqual(cells[1], becomes)
            if state != "succeeded" or becomes != "succeeds":
                self.assertTrue(note.endswith(becomes), note)
            is_new = row.ran and not before.ran
            called += [number] * is_new
            self.assertEqual(tag, "fails" if number == chosen and state == "failed"
                             else "only now" if is_new else "")
        self.tells(shown, report, well, chosen, called)

    def becoming(self, row, names):
        if row.status == "PENDING":
            return "not needed"
        if row.due_to:
            return f"due to #{row.due_to}"
        if row.status == "SUCCESS" and row.name not in names:
            return "succeeds"
        return str(row.result)

    def tells(self, shown, report, well, chosen, called):
        answer = shown["answer"]
        fails = report.status == "FAILURE"
        self.assertIn("canvas fails: " if fails else "canvas succeeds", answer)
        if fails and isinstance(report.result, Failure):
            self.assertIn(f"fails: {report.result}.", answer)
        if chosen:
            self.assertIn(f"What if #{chosen} ", shown["question"])
        if chosen and well[chosen].ran:
            self.assertEqual("Called only now" in answer, bool(called))
            self.assertEqual("Even then" in answer,
                             (report.status, report.result) == (well.status, well.result)
                             or report.status == well.status == "SUCCESS")
            lost = [row.number for row, before in zip(report.rows, well.rows)
                    if before.ran and not row.ran and row.status == "FAILURE"]
            self.assertEqual("No longer called, and marked as failed" in answer, bool(lost))
            for number in [*called[:6], *lost[:6]]:
                self.assertIn(f"#{number} ", answer)


class Plays(InBrowser):
    """Runs that are played step by step."""

    def test_each_run_ends_as_the_report(self):
        """It also publishes in the order of the program's messages, and each message that is
        delivered again finds a result."""
        played = 0
        with mock.patch("bevtragi.page_celery.MOST_TASKS", -1), \
                mock.patch("bevtragi.playing.MOST", 0):
            for name, canvas, tasks in samples(random_count=20):
                with self.subTest(name):
                    self.open(page(canvas, tasks, workers=(1, 3)))
                    for workers, again in ((1, False), (1, True), (3, True)):
                        played += self.play(canvas, whole(canvas, tasks), workers, again)
                    self.is_quiet()
        self.assertGreater(played, 2000)

    def play(self, canvas, answers, workers, again):
        """Plays a run to its end, step by step."""
        steps, queued, said, wrong = self.js("""
            const [workers, again] = arguments, byId = (id) => document.getElementById(id);
            byId("view-run").click();
            byId("workers").value = workers;
            byId("again").checked = again;
            byId("workers").onchange();
            const more = /and (\\d+) more/.exec(byId("queue").textContent);
            const queued = document.querySelectorAll("#queue .message").length + Number(more ? more[1] : 0);
            const said = [], wrong = [];
            for (let at = 0; at < Number(byId("slider").max); at++) {
              byId("next").click();
              said.push(byId("answer").querySelector("p").textContent);
              const taken = /^Worker (\\d+) takes (#\\d+ )/.exec(said[at]);
              const holder = taken && byId("crew").children[taken[1] - 1].textContent;
              if (taken && !holder.includes(taken[2])) wrong.push(said[at]);
            }
            return [Number(byId("slider").max), queued, said, wrong];""", workers, again)
        self.assertEqual(wrong, [])
        report = what_if(canvas, answers, workers=workers, turns=[], again=again)
        states = [STATES[row.status, row.ran].replace("unneeded", "waiting") for row in report.rows]
        self.assertEqual(self.states(), states)
        self.assertEqual(self.text("#queue"), "empty")
        self.assertEqual(sum("once more" in it for it in said), report.again)
        for count, size in self.js("""return [...document.querySelectorAll(".gate")]
                .map((it) => it.textContent.split(" of ").map(Number))"""):
            self.assertIn(count, (0, size))
        if workers == 1 and not again:
            sent = [int(it["headers"]["id"][-8:], 16)
                    for it in messages(bevtragi.adapt(canvas), {"*": 0, **answers})]
            published = [int(re.search(r" publishes #(\d+) ", it)[1]) for it in said
                         if " publishes #" in it]
            self.assertEqual(published, sent[queued:])
        return steps

    def test_a_run_in_which_the_chosen_task_fails(self):
        self.open(page(ORDER), "#run=2,0,3,0")
        self.assertIn("In this run #3 shop.ship fails.", self.text("#answer"))
        self.browser.press("End")
        report = what_if(ORDER, {3: Exception})
        self.assertEqual(self.states(), [STATES[row.status, row.ran] for row in report.rows])
        self.assertEqual(self.text(".gate"), "2 of 2")
        self.assertIn("All is done: the canvas fails: ChordError", self.text("#answer"))

    def test_keys_and_the_slider(self):
        self.open(page(ORDER))
        self.click("#view-run")
        self.js("document.activeElement.blur()")
        self.browser.press("ArrowRight", "ArrowRight", "ArrowRight", "ArrowLeft")
        self.assertIn("Step 2 of", self.text("#question"))
        self.browser.press("End")
        self.assertIn("All is done", self.text("#answer"))
        self.browser.press("Home")
        self.assertIn("A run of", self.text("#question"))
        self.js("const it = document.getElementById('slider'); it.value = 5; it.oninput()")
        self.assertIn("Step 5 of", self.text("#question"))
        self.wait(300)
        self.assertEqual(self.js("return location.hash"), "#run=2,0,0,5")
        self.browser.press("Space")
        self.assertEqual(self.text("#play"), "Pause")
        self.browser.press("Space")
        self.assertEqual(self.text("#play"), "Play")


class Celery(InBrowser):
    """The other truth: what the installed Celery does."""

    def setUp(self):
        super().setUp()
        try:
            self.version = bevtragi.on_celery(s("a")).version
        except bevtragi.CanvasError:
            self.skipTest("Celery isn't installed")

    def test_each_failure_of_the_order(self):
        self.open(page(ORDER, workers=()))
        well = what_if(ORDER)
        for number in range(len(well.rows) + 1):
            fails = {number: Exception} if number else {}
            report = what_if(ORDER, fails)
            with self.subTest(number):
                self.go(f"#fails={number}")
                note = self.js("const it = document.querySelector('#answer .other');"
                               " return it && it.textContent")
                self.assertEqual(note, f"\u2260 {report.note}." if report.note else None)
                for order in ("first", "last"):
                    self.paints(bevtragi.on_celery(ORDER, fails, failures=order), number, order)

    def paints(self, run, number, order):
        """Which tasks are shown as called on Celery, and how get() ends."""
        self.go(f"#celery={number}")
        at = {"first": 0, "last": 1}[order]
        self.js("const it = document.querySelectorAll('#orders button')[arguments[0]];"
                " if (it) it.click()", at)
        self.assertEqual(sorted(self.names("succeeded") + self.names("failed")), sorted(run.called))
        self.assertEqual(self.names("skipped"), [name for name, states in run.states.items()
                                                 if "FAILURE" in states and name not in run.called])
        self.assertIn(f"On Celery {run.version}, {run.end}.", self.text("#answer"))

    def names(self, state):
        """The names of the tasks that are shown in a state."""
        return self.js("""return [...document.querySelectorAll("#picture .task")]
            .filter((it) => it.closest("li.stop").dataset.state === arguments[0])
            .map((it) => it.querySelector(".name").textContent)""", state)

    def test_a_false_refund_has_a_sign(self):
        if self.version != "5.2.6":
            self.skipTest("Celery 5.2.6 isn't installed")
        self.open(page(ORDER, workers=()), "#fails=2")
        self.assertEqual(self.text("#task-4 .unlike"), "\u2260 Celery may call it")
        self.assertEqual(self.js("""return [...document.querySelectorAll("#rows tr")]
            .map((it) => Boolean(it.querySelector(".other")))"""), [False, True, True] + 3 * [False])
        self.click("#truth-celery")
        self.assertEqual(self.text("#task-4 .unlike"), "\u2260 means: not called")

    def test_tasks_that_are_alike(self):
        alarm = s("alarm")
        flow = group(s("a", errors=[alarm]), s("b", errors=[alarm]))
        flow["options"] = {"link_error": [alarm]}
        self.open(page(flow, workers=()), "#celery=1")
        self.assertIn("On Celery", self.text("#answer"))
        self.is_quiet()


class Happened(InBrowser):
    """What workers stored."""

    def test_states_of_a_run(self):
        rows = [{"name": name, "status": status, "result": result, "task_id": ""}
                for name, status, result in (
                    ("shop.list", "SUCCESS", ["lamp"]), ("shop.charge", "RETRY", None),
                    ("shop.ship", "FAILURE", {"exc_type": "OutOfStock", "exc_message": []}),
                    ("shop.refund", "STARTED", None), ("shop.total", "UNREADABLE", "NotJson"),
                    ("shop.thank", "PENDING", None))]
        report = Report(rows, {"status": "PENDING", "result": None})
        self.open(page(ORDER, workers=(), results=report))
        self.assertEqual(self.states(),
                         ["succeeded", "working", "failed", "working", "unknown", "waiting"])
        self.assertEqual(self.text("#task-1 .note"), '#1 \u2192 ["lamp"]')
        self.assertEqual(self.text("#task-2 .note"), "#2 \u00b7 RETRY")
        self.assertEqual(self.text("#question"), "What happened")
        self.assertIn("The canvas has no result yet.", self.text("#answer"))
        self.click("#task-3")
        self.assertEqual(self.text("#question"), "What if #3 shop.ship fails?")
        self.click("#view-happened")
        self.assertEqual(self.text("#question"), "What happened")
        self.wait(300)
        self.assertEqual(self.js("return location.hash"), "#happened=1")
        self.is_quiet()


class Keys(InBrowser):
    def test_from_task_to_task(self):
        self.open(page(ORDER, workers=()))
        self.js("document.getElementById('task-1').focus()")
        self.browser.press("ArrowRight", "ArrowDown")
        self.assertEqual(self.js("return document.activeElement.id"), "task-3")
        self.browser.press("Enter")
        self.assertEqual(self.text("#question"), "What if #3 shop.ship fails?")
        self.wait(300)
        self.assertEqual(self.js("return location.hash"), "#fails=3")
        self.browser.press("ArrowLeft", "Space")
        self.assertEqual(self.text("#question"), "What if #2 shop.charge fails?")
        self.browser.press("Escape")
        self.assertEqual(self.text("#question"), "When nothing fails")
        self.assertEqual(self.js("return document.querySelectorAll('#picture [tabindex=\"0\"]')"
                                 ".length"), 1)

    def test_addresses(self):
        self.open(page(ORDER, workers=()), "#fails=2")
        self.assertEqual(self.text("#question"), "What if #2 shop.charge fails?")
        for where in ("#fails=99", "#fails=0", "#run=1,2", "#<b>", "#fails=1,2,3x"):
            self.go(where)
            self.assertEqual(self.text("#question"), "When nothing fails", where)
        self.is_quiet()


class Small(InBrowser):
    def test_canvases_with_little_in_them(self):
        for canvas, count, said in ((group(), 0, "no tasks"), (s("a"), 1, "Its task is called"),
                                    (chord([], s("a")), 1, "Its task is called"),
                                    (chain(s("a"), group()), 1, "Its task is called")):
            self.open(page(canvas))
            self.assertEqual(len(self.states()), count)
            self.assertIn(said, self.text("#answer"))
            for where in ("#view-run", "#next", "#play", "#play", "#view-failures"):
                if self.is_shown(where):
                    self.click(where)
            self.is_quiet()


class Hostile(InBrowser):
    def test_names_and_texts_stay_text(self):
        canvas = hostile()
        rows = what_if(canvas).rows
        for title in ("</title><script>pwned=1</script>", "a\u202eb"):
            self.open(page(canvas, title=title, workers=(3,)))
            for where in ("#task-3", "#view-run", "#view-failures", "#truth-celery", "#down"):
                self.click(where)
            found = self.js("""return {
              pwned: window.pwned || null,
              scripts: document.scripts.length,
              foreign: document.querySelectorAll("img, iframe, link, object, embed, style").length,
              asked: performance.getEntriesByType("resource").length,
              named: [...document.querySelectorAll("#picture .task")]
                .map((it) => [Number(it.id.slice(5)), it.querySelector(".name").textContent])
                .sort((one, other) => one[0] - other[0]).map((it) => it[1]),
              titles: [...document.querySelectorAll("[title]")].map((it) => it.title)
                .join("") + document.title }""")
            self.assertIsNone(found["pwned"])
            self.assertEqual((found["scripts"], found["foreign"], found["asked"]), (2, 1, 0))
            self.assertEqual(found["named"], [row.name for row in rows])
            self.assertIsNone(re.search("[\x00-\x1f\x7f\u2028\u202e\U000e0041]", found["titles"]))
            self.is_quiet()

    def test_the_policy_lets_nothing_else_in(self):
        self.open(page(s("a"), workers=()))
        found = self.js("""
            const script = document.createElement("script");
            try { script.text = "window.pwned = 1"; document.body.append(script); } catch (error) { }
            try { document.body.innerHTML = "<img src=x onerror=pwned=1>"; } catch (error) { window.refused = 1; }
            return [window.pwned || 0, window.refused || 0];""")
        self.assertEqual(found, [0, 1])
        self.js("const it = document.createElement('img'); it.src = 'http://127.0.0.1:9/x';"
                " document.body.append(it)")
        self.wait(50)
        self.assertIn("Content Security Policy", " ".join(self.browser.said()))

    def test_in_a_frame_of_a_notebook(self):
        made = page(hostile(), workers=())
        path = Path(self.folder.name, "frame.html")
        path.write_text("<!DOCTYPE html><meta charset=utf-8>" + made._repr_html_(), "utf-8")
        self.browser.open(path.as_uri())
        self.browser.enter_frame()
        self.click("#task-3")
        self.assertIn("What if #3", self.text("#question"))
        self.assertIsNone(self.js("return window.pwned || null"))
        self.is_quiet()


class Large(InBrowser):
    def test_a_header_of_200_is_folded(self):
        flow = chain(s("media.probe"), chord([s("media.encode", at) for at in range(200)],
                                             s("media.join", errors=[s("media.alarm")])),
                     s("media.publish"))
        self.open(page(flow, workers=()))
        self.assertEqual(self.text(".more"), "193 more193 succeed")
        is_seen = "return document.getElementById('task-100').offsetParent !== null"
        self.assertFalse(self.js(is_seen))
        self.js("document.querySelectorAll('#rows tr')[99].click()")
        self.assertTrue(self.js(is_seen))
        self.assertEqual(self.text(".more"), "192 more192 succeed")
        visible = "return [...document.querySelectorAll('#rows tr')].filter((it) => !it.hidden).length"
        self.assertEqual(self.js(visible), 4)
        self.click(".more")
        self.assertIn("1 fail", self.text(".more"))
        self.js("const it = document.getElementById('search'); it.value = 'join'; it.oninput()")
        self.assertEqual(self.js(visible), 1)

    def test_it_fits_a_phone_and_is_printed(self):
        for it in (ORDER, TOP / "examples" / "chain-through-groups.json"):
            self.browser.look(390, 844, phone=True)
            self.open(page(it))
            self.click("#task-1")
            self.assertLessEqual(self.js("return document.documentElement.scrollWidth"), 390)
            self.js("document.getElementById('view-run').click()")
            self.assertLessEqual(self.js("return document.documentElement.scrollWidth"), 390)
            self.browser.command("Emulation.clearDeviceMetricsOverride")
            self.assertGreater(len(self.browser.command("Page.printToPDF")["data"]), 10_000)

    def test_a_thousand_tasks(self):
        """They take some 2 seconds of processor time to open, and 0.1 for a step."""
        shops = [chain(s("shop.fetch", at), *(s(f"shop.step{it}") for it in range(14)))
                 for at in range(66)]
        flow = chain(s("nightly.begin"), chord(shops, s("nightly.report")), s("nightly.send"))
        with mock.patch("bevtragi.calling.SECONDS", 600):
            made = page(flow, workers=(4,))
        self.browser.open("about:blank")
        self.assertLess(self.takes(lambda: self.open(made)), 8)
        self.assertEqual(len(self.states()), 66 * 15 + 3)
        self.assertLess(self.takes(lambda: self.click("#task-500")), 3)
        self.assertIn("What if #500", self.text("#question"))
        self.click("#view-run")
        self.js("const it = document.getElementById('slider'); it.value = 3000; it.oninput()")
        self.assertLess(self.takes(lambda: self.click("#next")), 1)
        self.assertIn("Step 3001 of", self.text("#question"))

    def takes(self, act):
        """The processor time of an act, until the page is drawn."""
        start = self.browser.seconds()
        act()
        self.js("return new Promise((done) => requestAnimationFrame(() => setTimeout(done, 0)))")
        return self.browser.seconds() - start


if __name__ == "__main__":
    unittest.main()
