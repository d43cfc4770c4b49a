"""What README.md says of Celery, and of the package, holds."""

import json
import re
import sys
import unittest
from pathlib import Path

HERE = Path(__file__).resolve().parent
sys.path[:0] = [str(HERE.parent / "src"), str(HERE)]

from bevtragi import cured, differences, what_if

try:
    import celery
except ImportError:
    celery = None
else:
    from celery import chord, signature

README = (HERE.parent.parent / "README.md").read_text()
CELERY = (HERE.parent.parent / "docs" / "CELERY.md").read_text()
FLOWS = (HERE / "flows" / "README.md").read_text()


def s(name, *args):
    return signature(name, args)


def order():
    """The order of the first example."""
    paid = chord([s("shop.charge"), s("shop.ship", "DE").on_error(s("shop.refund"))],
                 s("shop.invoice"))
    return s("shop.find", 4711) | paid | s("shop.thank")


def real_runs(version, kind, fails, flow="order"):
    """What became of a flow of user_flows on workers of a version while this failed."""
    rows = map(json.loads, (HERE / "flows" / f"started-{version}.jsonl").read_text().splitlines())
    return [it[kind] for it in rows if it["flow"] == flow and it["fails"] == fails]


class RealWorkers(unittest.TestCase):
    """Runs that are written down."""

    def test_which_version_refunds_a_parcel_that_was_shipped(self):
        for version, refunds in (("5.2.6", 1), ("5.5.2", 0)):
            self.assertIn(version, README)
            run, = real_runs(version, "started", "shop.charge")
            self.assertEqual(run["called"].get("shop.refund", 0), refunds, version)
            self.assertEqual(run["called"]["shop.ship"], 1)

    def test_a_cured_order_is_right_on_both(self):
        self.assertIn("`cured(order).apply_async()` starts it so that\nboth versions do what it means",
                      README)
        for version in ("5.2.6", "5.5.2"):
            run, = real_runs(version, "cured", "shop.charge")
            self.assertNotIn("shop.refund", run["called"])
            run, = real_runs(version, "cured", "shop.ship")
            self.assertEqual(run["called"]["shop.refund"], 1)


    def test_alarms_that_are_never_called_and_a_get_that_waits_forever(self):
        self.assertIn("alarms that are never called, and a `get()` that waits forever", README)
        for version in ("5.2.6", "5.5.2"):
            run, = real_runs(version, "started", "step.one", "alarm_on_a_body_and_more")
            self.assertNotIn("step.alarm", run["called"])
            run, = real_runs(version, "started", "guide.create_user", "guide_new_user")
            self.assertEqual(run["get"], "WAITS")


@unittest.skipIf(celery is None, "Celery isn't installed")
class FirstExample(unittest.TestCase):
    """The order of the first example."""

    def test_it_means_what_is_said(self):
        report = what_if(order(), {"shop.ship": ConnectionError})
        self.assertIn("shop.refund", report.ran)
        self.assertEqual(report.never_run, ["shop.invoice", "shop.thank"])

    def test_what_the_installed_celery_does_otherwise(self):
        shown = re.findall(r"^    (If #.*)$", README, re.M)
        self.assertEqual(len(shown), 2)
        if celery.__version__ == "5.2.6":
            self.assertEqual(differences(order()), shown)
        if celery.__version__ == "5.5.2":
            self.assertEqual(differences(order()), [])
        self.assertEqual(differences(cured(order())), [])


@unittest.skipIf(celery is None, "Celery isn't installed")
class Table(unittest.TestCase):
    """The table of flows/README.md, and its sums."""

    def test_it_is_of_the_runs_that_are_written_down(self):
        import compared
        self.assertIn(compared.table(), FLOWS)

    def test_how_many_runs_are_alike(self):
        import compared
        found = compared.counts().values()
        for version in compared.VERSIONS:
            alike = [sum(sum(it["runs"][kind, version]) for it in found) for kind in compared.KINDS]
            self.assertEqual(alike, [232, 237, 267])
            self.assertEqual(sum(len(it["runs"]["start", version]) for it in found), 279)
        self.assertIn("On each version, 232 of 279 runs are alike by `apply_async()`, 237 by"
                      " `cured()`, and\n267 by `start()`.", CELERY)
        self.assertIn("On real workers of each version, 232 of 279 runs of flows do what the canvas"
                      " means if\n`apply_async()` starts them, and 267 if `start` does", README)


if __name__ == "__main__":
    unittest.main()
