"""What python/README.md says of rehearsals is what they do."""

import re
import runpy
import sys
import unittest
from pathlib import Path

HERE = Path(__file__).resolve().parent
sys.path[:0] = [str(HERE.parent / "src"), str(HERE)]

import bevtragi
from bevtragi import (collect, export, rehearse, rehearse_differences, rehearse_failures,
                      rehearse_orders, rehearse_redeliveries, what_if)
from dictionary import Dictionary

try:
    import celery
except ImportError:
    celery = None

README = (HERE.parent / "README.md").read_text()
SECTION = README[README.index("\n## Your own tasks"):README.index("\n## On your workers")]
EXAMPLE = HERE.parent / "examples" / "test_real_orders.py"


def unwrapped(text):
    return " ".join(text.split())


class Section(unittest.TestCase):
    """What can be read without Celery."""

    def test_its_code_is_that_of_the_example(self):
        code = "\n".join(re.findall(r"^    (.*)$", SECTION, re.M))
        example = EXAMPLE.read_text()
        for line in code.splitlines():
            if not line.startswith("#"):
                self.assertIn(line.strip(), example)

    def test_it_names_what_there_is(self):
        for name in re.findall(r"`(rehearse\w*)", SECTION):
            self.assertIn(name, bevtragi.__all__)
        for name in ("orders", "redeliveries", "failures", "differences", "rehearse", "holds"):
            self.assertRegex(SECTION, rf"`(canvas)?\.{name}\b")


@unittest.skipIf(celery is None, "Celery isn't installed")
class Order(unittest.TestCase):
    """The order of the section."""

    @classmethod
    def setUpClass(cls):
        cls.names = runpy.run_path(str(EXAMPLE))
        cls.flow, cls.world = cls.names["order_flow"], staticmethod(cls.names["world"])

    def test_the_tests_of_the_example_pass(self):
        tests = [it for name, it in self.names.items() if name.startswith("test_")]
        self.assertEqual(len(tests), 3)
        for test in tests:
            test()

    def test_what_is_printed(self):
        shown = re.findall(r"^    (#.*)$", SECTION, re.M)
        orders = rehearse_orders(self.flow, {"shop.ship": ConnectionError}, world=self.world)
        redeliveries = rehearse_redeliveries(self.flow, world=self.world)
        self.assertEqual([*str(orders).splitlines(), *str(redeliveries).splitlines()], shown)

    def test_failures_and_differences(self):
        lines = str(rehearse_failures(self.flow, world=self.world)).splitlines()
        self.assertEqual(lines[-1], "#6 shop.thank fails: result Exception")
        found = rehearse_differences(self.flow, {"shop.ship": ConnectionError}, world=self.world)
        self.assertEqual(len(found), {"5.2.6": 2, "5.5.2": 0}.get(celery.__version__, len(found)))

    def test_a_run_that_is_over(self):
        client = Dictionary()
        number = export(self.flow, client)
        for place, it in enumerate([{"number": 4711}, {"paid": 19.0, "card": "4242"}], 1):
            client.store(number, place, "SUCCESS", it)
        client.store(number, 3, "FAILURE", {"exc_type": "ConnectionError", "exc_message": []})
        report = collect(self.flow, client, number)
        found = rehearse(self.flow, {"shop.ship": {"parcel": "lamp"}}, answers=report,
                         world=self.world)
        self.assertEqual((found.result, found.state), ("en: lamp", ({"lamp": 3}, {})))
        self.assertEqual(what_if(self.flow, answers=report).never_run,
                         ["shop.invoice", "shop.thank"])


if __name__ == "__main__":
    unittest.main()
