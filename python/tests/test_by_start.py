"""Flows that start() began on real workers (by_start.py), beside what they mean. All but those of
OTHERWISE call the same tasks as often, and wait() ended in each."""

import json
import sys
import unittest
from collections import Counter
from pathlib import Path

HERE = Path(__file__).resolve().parent
sys.path[:0] = [str(HERE.parent / "src"), str(HERE)]

import bevtragi

try:
    import celery
except ImportError:
    celery = None
else:
    import alarmed_flows
    import compared
    import user_flows
    from test_everyday_flows import RAISES
    from everyday_runs import counted, rehearsed

VERSIONS = ("5.2.6", "5.5.2")
#: The flows that workers run otherwise, which start() warns of, but for the last: what Celery does,
#: and how many runs are otherwise.
OTHERWISE = {
    "trap": ("an error callback of one parameter and a default is called with three arguments", 1),
    "alarm_with_a_default": ("the same", 1),
    "wrong_call": ("a call that the task doesn't take is a TypeError of the task before it", 3),
    "stranger": ("no error callback of a task is called that no worker has", 4),
    "chains_as_callbacks": ("the link of an error callback that is called in place isn't", 1),
    "replaced": ("a task replaces itself", 2)}
DIFFERENCES = HERE.parent.parent / "examples" / "celery-differences"


def runs(version, kind):
    file = HERE / "flows" / f"by-start-{version}.jsonl"
    return [it for it in map(json.loads, file.read_text().splitlines()) if it["of"] == kind]


class Waits(unittest.TestCase):
    """What needs no Celery to be seen."""

    def test_each_wait_ended_and_so_did_each_get(self):
        for version in VERSIONS:
            found = [it for kind in ("user", "alarmed", "everyday", "difference")
                     for it in runs(version, kind) if "refused" not in it]
            self.assertEqual(len(found), 470)
            self.assertEqual([it for it in found if it["waits_for"] or it["get"] == "WAITS"], [])
            for it in found:
                self.assertEqual(it["get"] == "SUCCESS", it["status"] == "SUCCESS", it)
                self.assertTrue(it["same"], it)  # what wait() reported didn't change

    def test_the_differences(self):
        """A start cures what differs, but for a task that no worker has."""
        for version in VERSIONS:
            found = {it["flow"]: it for it in runs(version, "difference")}
            self.assertEqual({*found}, {it.stem for it in DIFFERENCES.glob("*.json")})
            self.assertEqual([name for name, it in found.items() if "refused" in it],
                             ["empty-chain"])
            for name, it in found.items():
                if "refused" not in it:
                    wanted = bevtragi.run(bevtragi.adapt(DIFFERENCES / f"{name}.json"))
                    is_alike = (it["rows"], it["ran"]) == (wanted_rows(wanted), sorted(wanted.ran))
                    self.assertEqual(is_alike, name != "unregistered-alarm", (name, it))


def wanted_rows(report):
    return [str(it) for it in report.rows] + [f"result {report.shown(report.result)}"]


@unittest.skipIf(celery is None, "Celery isn't installed")
class Calls(unittest.TestCase):
    """Who was called."""

    def test_flows_as_users_write_them(self):
        for version in VERSIONS:
            found = {}
            for it in runs(version, "user"):
                if not compared.is_alike(compared.meant(it["flow"], it["fails"]), it):
                    found[it["flow"]] = found.get(it["flow"], 0) + 1
            self.assertEqual(found, {name: count for name, (_, count) in OTHERWISE.items()})
            self.assertEqual(len(runs(version, "user")), 279)

    def test_the_report_says_who_was_called(self):
        """All but some of those of which no result comes."""
        for version in VERSIONS:
            for it in runs(version, "user"):
                if it["flow"] not in OTHERWISE:
                    more = Counter(it["called"]) - Counter(it["ran"])
                    self.assertEqual(Counter(it["ran"]) + more, Counter(it["called"]), it)
                    self.assertLessEqual({*more}, {one.split()[1] for one in it["silent"]}, it)

    def test_alarms_that_celery_is_not_told_of_are_silent(self):
        for version in VERSIONS:
            found = runs(version, "alarmed")
            self.assertEqual({it["flow"] for it in found}, {*alarmed_flows.FLOWS})
            silent = 0
            for it in found:
                report = bevtragi.what_if(alarmed_flows.FLOWS[it["flow"]](),
                                          {it["fails"]: Exception} if it["fails"] else {})
                called = sorted(name for name, count in it["called"].items()
                                for _ in range(count))
                self.assertEqual(called, it["ran"])
                self.assertEqual(sorted([*called, *(one.split()[1] for one in it["silent"])]),
                                 sorted(report.ran), it)
                silent += bool(it["silent"])
            self.assertEqual((len(found), silent), (62, 15))

    def test_everyday_flows_with_their_arguments(self):
        first = runs("5.2.6", "everyday")
        wanted = [counted(rehearsed(it["flow"], it["fails"])[1]) for it in first]
        for version in VERSIONS:
            otherwise = [it for it, calls in zip(runs(version, "everyday"), wanted)
                         if it["calls"] != calls]
            self.assertEqual([it["flow"] for it in otherwise],
                             ["order", "learning", "transfer", "transfer", "transfer"], RAISES)
            self.assertEqual(len(runs(version, "everyday")), 111)


if __name__ == "__main__":
    unittest.main()
