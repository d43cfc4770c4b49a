"""Rehearsals of fourteen everyday flows, beside the calls that real workers made.

The runs are those of everyday_runs.py: nothing fails, each call fails in turn, and each call that
is made then only fails as well. The workers call what a rehearsal calls in all but those of
OTHERWISE.
"""

import json
import sys
import unittest
from pathlib import Path

HERE = Path(__file__).resolve().parent
sys.path[:0] = [str(HERE.parent / "src"), str(HERE)]

try:
    import celery
except ImportError:
    celery = None
else:
    import everyday_flows as flows
    from bevtragi import rehearse
    from everyday_runs import counted, rehearsed

#: The error callbacks of a chain in a body: none is called, and those of the last member are, which
#: succeeded, with a TypeError of Celery's own; or with the member's own failure replaced by it.
BODY = "a chord whose body is a chain, and a header that fails"
#: The error callback is called three times, and those after it on the task are not.
RAISES = "an error callback with request, exception and traceback that raises"
#: By version: the number of the run, its flow, and why the workers call otherwise.
OTHERWISE = {
    "5.2.6": {2: ("order", BODY), 3: ("order", BODY), 4: ("order", BODY), 66: ("learning", RAISES),
              85: ("transfer", RAISES), 87: ("transfer", RAISES), 88: ("transfer", RAISES)},
    "5.5.2": {4: ("order", RAISES), 66: ("learning", RAISES), 85: ("transfer", RAISES),
              87: ("transfer", RAISES), 88: ("transfer", RAISES)}}


def runs(version, name="everyday"):
    file = HERE / "flows" / f"{name}-{version}.jsonl"
    return [json.loads(it) for it in file.read_text().splitlines()]


@unittest.skipIf(celery is None, "Celery isn't installed")
class EverydayFlows(unittest.TestCase):
    """The calls, with their arguments and retries."""

    @classmethod
    def setUpClass(cls):
        cls.reports, cls.calls = [], []
        for run in runs("5.2.6"):
            report, notes = rehearsed(run["flow"], run["fails"])
            cls.reports.append(report)
            cls.calls.append(counted(notes))

    def test_real_workers_call_the_same(self):
        for version, known in OTHERWISE.items():
            found = {number: run["flow"] for number, (run, calls)
                     in enumerate(zip(runs(version), self.calls)) if run["calls"] != calls}
            self.assertEqual(found, {number: flow for number, (flow, _) in known.items()}, version)
            self.assertEqual(len(runs(version)), 111)

    def test_a_failure_by_a_stand_in_is_one_by_the_task(self):
        for run, report in zip(runs("5.2.6"), self.reports):
            flows.FAILS.clear()
            failing = {it.number: flows.ERRORS["Boom"]("fails") for it in report.calls
                       if flows.call_of(it.name, it.args, it.kwargs) in run["fails"]}
            if len(failing) == 1:
                other = rehearse(flows.FLOWS[run["flow"]](), failing)
                self.assertEqual(other.ran, report.ran)
                self.assertEqual([(it.number, it.retries, it.raised is None) for it in other.calls],
                                 [(it.number, it.retries, it.raised is None)
                                  for it in report.calls])

    def test_real_workers_call_the_same_again(self):
        well = {run["flow"]: report for run, report in zip(runs("5.2.6"), self.reports)
                if not run["fails"]}
        one, two = ({(it["flow"], it["again"]): it["calls"] for it in runs(version, "redelivered")}
                    for version in OTHERWISE)
        self.assertEqual((len(one), one), (81, two))
        for run in runs("5.2.6", "redelivered"):
            first = len(rehearsed(run["flow"], {})[1])
            number = next(it.number for it in well[run["flow"]].calls
                          if flows.call_of(it.name, it.args, it.kwargs) == run["again"])
            notes = rehearsed(run["flow"], {}, again={number: "whole"})[1]
            self.assertEqual(run["calls"], counted(notes[first:]), (run["flow"], run["again"]))

    def test_what_the_caller_gets(self):
        wanted = {"order": "en: 2", "words": ["c", "a"], "report": "<h1>Sold: 485.0</h1>",
                  "crawl": {"/a": 0, "/b": 2, "/c": 0}, "signup": True, "pictures": 4}
        well = {run["flow"]: report for run, report in zip(runs("5.2.6"), self.reports)
                if not run["fails"]}
        self.assertEqual(len(well), 14)
        for flow, result in wanted.items():
            self.assertEqual(well[flow].result, result)


if __name__ == "__main__":
    unittest.main()
