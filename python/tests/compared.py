"""How runs on real workers compare with what each flow means: the table of flows/README.md.

    python3 compared.py       prints it, from flows/started-VERSION.jsonl and
                              flows/by-start-VERSION.jsonl; it needs Celery

A run is alike if the same tasks are called as often and the caller's `get()` ends as the report
says: with a value, or with an exception, and not never. If start() began the run, wait() has to
end, too.
"""

import json
import os
import sys
from pathlib import Path

# No compiled modules are left in the tree.
sys.dont_write_bytecode = True

HERE = Path(__file__).resolve().parent
sys.path[:0] = [str(HERE.parent / "src"), str(HERE)]

from bevtragi import Refused, what_if

import user_flows
from user_tasks import OutOfStock

VERSIONS = ("5.2.6", "5.5.2")


#: How a flow is started: as it is, as cured() gives it, and by start().
KINDS = ("started", "cured", "start")


def lines(name, version):
    file = HERE / "flows" / f"{name}-{version}.jsonl"
    return [json.loads(line) for line in file.read_text().splitlines()]


def runs(version):
    """The runs of a version that are written down, with each kind of start."""
    by_start = {(it["flow"], it["fails"]): it for it in lines("by-start", version)
                if it["of"] == "user"}
    return [{**it, "start": by_start[it["flow"], it["fails"]]}
            for it in lines("started", version)]


def meant(flow, fails):
    """What a flow means if this fails: the tasks that are called, and whether it succeeds; or None
    if it is refused."""
    try:
        report = what_if(user_flows.FLOWS[flow](), {fails: OutOfStock} if fails else {})
    except Refused:
        return None
    called = {name: report.ran.count(name) for name in report.ran}
    return called, report.status == "SUCCESS"


def is_alike(here, there):
    """Whether a run on workers is what is meant."""
    called, succeeds = here
    return there["called"] == called and not there.get("waits_for") and \
        there["get"] != "WAITS" and (there["get"] == "SUCCESS") == succeeds


def counts():
    """For each flow the number of its runs, and by version and kind of start how many are alike."""
    found = {}
    for version in VERSIONS:
        for row in runs(version):
            here = meant(row["flow"], row["fails"])
            counted = found.setdefault(row["flow"], {"runs": {}, "refused": here is None})
            for kind in KINDS:
                alike = counted["runs"].setdefault((kind, version), [])
                alike.append(here is not None and is_alike(here, row[kind]))
    return found


def table():
    """The table: the flows of which a run isn't alike, and how many there are."""
    rows = ["| Flow | Runs | 5.2.6 | 5.5.2 | `cured()`, 5.2.6 | `cured()`, 5.5.2 |"
            " `start()`, 5.2.6 | `start()`, 5.5.2 |",
            "|---|---|---|---|---|---|---|---|"]
    order = [(kind, version) for kind in KINDS for version in VERSIONS]
    found = counts()
    shown = {name: it for name, it in found.items()
             if it["refused"] or not all(map(all, it["runs"].values()))}
    for name, it in shown.items():
        cells = ["refused here"] * len(order) if it["refused"] else \
            [str(sum(it["runs"][key])) for key in order]
        rows.append(f"| `{name}` | {len(it['runs'][order[0]])} | {' | '.join(cells)} |")
    others = [it for name, it in found.items() if name not in shown]
    count = str(sum(len(it["runs"][order[0]]) for it in others))
    rows.append(f"| {len(others)} others | {count} | {' | '.join([count] * len(order))} |")
    return "\n".join(rows)


if __name__ == "__main__":
    os.environ.setdefault("CANVAS", "canvas")
    print(table())
