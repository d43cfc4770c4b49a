"""Starts the flows of `user_flows`, `alarmed_flows` and `everyday_flows` by `bevtragi.start` on real
workers, with nothing failing and with tasks failing, and the canvases of
examples/celery-differences as they are, and says what becomes of each run.

    python3 by_start.py PLACE [--write] [KIND..]    a Redis of its own: a socket's path, or a port
    python3 by_start.py PLACE --of "KIND FLOW"      a JSON object for each run of one flow

A KIND is user, alarmed, everyday or difference; without one it is each. It empties databases 1 to 3
of that Redis. It prints a line for each run that ends otherwise than
flows/by-start-VERSION.jsonl says, and with --write it writes that file anew. The status is 1 if a
run differs. PYTHON names another Python than the one that it is run by.
"""

import gc
import json
import os
import signal
import subprocess
import sys
import time
import warnings
from collections import Counter
from pathlib import Path

# No compiled modules are left in the tree.
sys.dont_write_bytecode = True

HERE = Path(__file__).resolve().parent
EXAMPLES = HERE.parent.parent / "examples"
PYTHON = os.environ.get("PYTHON") or sys.executable
#: How long a run may take, and how long a caller waits for a result of a run that has ended.
SECONDS, GET_SECONDS = 30, 2


def ended(flow, rests, app=None):
    """How a started flow ends: by wait(), by the names that it says were called, by settle(), and
    by `get()`."""
    from bevtragi import NotEnded, Refused, start

    with warnings.catch_warnings():
        warnings.simplefilter("ignore")
        try:
            run = start(flow, app)
        except Refused as error:
            return {"refused": error.name}
    try:
        report, waits = run.wait(timeout=SECONDS), []
    except NotEnded as error:
        report, waits = error.report, error.report.due()
    rests()
    found = {"waits_for": waits, "ran": sorted(report.ran), "status": report.status,
             "silent": [f"#{number} {report[number].name}" for number in report.silent]}
    if app is not None:
        found["rows"] = report.text().splitlines()
    if not waits:
        found["settled"] = sorted(run.settle())
        # An error callback that is called in place and raises replaces a failure that was stored.
        found["same"] = bool(report.silent) or run.report() == report
        found["get"] = got(run.result)
    return found


def got(result):
    """How the caller's `get()` ends: with a value, with the name of an exception, or not. A group
    raises any of several exceptions: here it is that of the first member that failed."""
    end = got_of_one(result)
    if end in ("SUCCESS", "WAITS") or not hasattr(result, "results"):
        return end
    return next(it for it in map(got_of_one, result.results) if it != "SUCCESS")


def got_of_one(result):
    from celery.exceptions import TimeoutError as Late

    try:
        result.get(timeout=GET_SECONDS)
        return "SUCCESS"
    except Late:
        return "WAITS"
    except Exception as error:
        return type(error).__name__


def user_runs(name):
    """Each run of one of the `user_flows`: its calls by name."""
    from user_flows import FLOWS
    return named_runs(name, FLOWS)


def alarmed_runs(name):
    """Each run of one of the `alarmed_flows`: its calls by name."""
    from alarmed_flows import FLOWS
    return named_runs(name, FLOWS)


def named_runs(name, flows):
    import started
    from places import client_of

    started.QUIET = 0.4
    store = client_of(os.environ["CANVAS_REDIS"])
    for label, fails in started.failures(flows[name]()):
        store.flushdb()
        if fails:
            store.set("fails", json.dumps(fails))
        end = ended(flows[name](), lambda: started.rests(store))
        called = Counter(it.decode() for it in store.lrange("called", 0, -1))
        yield {"flow": name, "fails": label, **end, "called": dict(sorted(called.items()))}


def everyday_runs(name):
    """Each run of one of the `everyday_flows`: its calls with their arguments and retries."""
    import everyday_flows as flows
    import everyday_runs as runs

    for line in (HERE / "flows" / "everyday-5.2.6.jsonl").open():
        known = json.loads(line)
        if known["flow"] == name:
            flows.store.flushdb()
            if known["fails"]:
                flows.store.hset("fails", mapping=known["fails"])
            end = ended(flows.FLOWS[name](), lambda: runs.rests(flows.store))
            calls = runs.counted(it.decode() for it in flows.store.lrange("calls", 0, -1))
            yield {"flow": name, "fails": known["fails"], **end, "calls": calls}


def difference_runs(name):
    """The run of a canvas that Celery treats otherwise (docs/CELERY.md)."""
    import tasks
    tasks.app.backend.client.flushdb()
    end = ended(EXAMPLES / "celery-differences" / f"{name}.json", lambda: time.sleep(0.4), tasks.app)
    yield {"flow": name, "fails": None, **end}


KINDS = {"user": user_runs, "alarmed": alarmed_runs, "everyday": everyday_runs,
         "difference": difference_runs}


def all_runs(place, kinds):
    """Each run of each flow. A process of its own starts each flow, as a user's program would."""
    import alarmed_flows
    import user_flows
    known = (HERE / "flows" / "everyday-5.2.6.jsonl").read_text().splitlines()
    names = {"user": [*user_flows.FLOWS], "alarmed": [*alarmed_flows.FLOWS],
             "everyday": [*dict.fromkeys(json.loads(it)["flow"] for it in known)],
             "difference": sorted(it.stem for it in EXAMPLES.glob("celery-differences/*.json"))}
    for kind in kinds:
        for name in names[kind]:
            words = [PYTHON, "-B", str(HERE / "by_start.py"), place, "--of", f"{kind} {name}"]
            said = subprocess.run(words, stdout=subprocess.PIPE, check=True, timeout=1200)
            yield from ({"of": kind, **json.loads(it)} for it in said.stdout.splitlines())


def workers(place):
    import everyday_runs
    import started
    from places import url_of
    words = [PYTHON, "-B", "-m", "celery", "-A", "tasks", "worker", "-Q", "celery,fast", "-n",
             "differ@localhost", "-c", "2", "--without-gossip", "--without-mingle",
             "--without-heartbeat"]
    own = subprocess.Popen(words, cwd=EXAMPLES / "celery", stdout=subprocess.DEVNULL,
                           stderr=subprocess.DEVNULL, start_new_session=True,
                           env={**os.environ, "CANVAS_REDIS": url_of(place, 3)})
    return [started.start_worker(), everyday_runs.start_worker(), own]


def main():
    place, *words = sys.argv[1:]
    sys.path[:0] = [str(HERE.parent / "src"), str(HERE), str(EXAMPLES / "celery")]
    from places import url_of
    os.environ["CANVAS_REDIS"], os.environ["EVERYDAY_REDIS"] = url_of(place, 1), url_of(place, 2)
    import celery

    gc.disable()  # see started.py
    if words[:1] == ["--of"]:
        kind, name = words[1].split()
        if kind == "difference":
            os.environ["CANVAS_REDIS"] = url_of(place, 3)
        for run in KINDS[kind](name):
            print(json.dumps(run), flush=True)
        return 0
    file = HERE / "flows" / f"by-start-{celery.__version__}.jsonl"
    known = [json.loads(it) for it in file.open()] if file.exists() else []
    kinds = [it for it in words if it in KINDS] or [*KINDS]
    started, found = workers(place), []
    time.sleep(3)
    try:
        for run in all_runs(place, kinds):
            found.append(run)
            if run not in known:
                print(f"{run['flow']}, {run['fails'] or 'nothing'} fails: {json.dumps(run)}",
                      flush=True)
    finally:
        for worker in started:
            os.killpg(worker.pid, signal.SIGTERM)
            worker.wait(60)
    differ = [it for it in found if it not in known]
    print(f"Celery {celery.__version__}: {len(found)} runs started by start(), of which"
          f" {len(found) - len(differ)} end as {file.name} says")
    if "--write" in words:
        kept = {it: [run for run in (found if it in kinds else known) if run["of"] == it]
                for it in KINDS}
        file.write_text("".join(json.dumps(run) + "\n" for runs in kept.values() for run in runs))
    return 1 if differ else 0


if __name__ == "__main__":
    sys.exit(main())
