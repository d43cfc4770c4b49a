"""Starts the flows of `everyday_flows` by `apply_async()` on real workers, and notes the calls that
they make: nothing fails, each call fails, and each call that is made then only fails as well.

    python3 everyday_runs.py PLACE [--write]    a Redis of its own: a socket's path, or a port

It empties database 2 of that Redis. It prints a line for each run in which the workers call
otherwise than flows/everyday-VERSION.jsonl says, and with --write it writes that file anew. The
status is 1 if a run differs. PYTHON names another Python than the one that it is run by.
"""

import gc
import json
import os
import signal
import subprocess
import sys
import time
from collections import Counter
from pathlib import Path

# No compiled modules are left in the tree.
sys.dont_write_bytecode = True

HERE = Path(__file__).resolve().parent
PYTHON = os.environ.get("PYTHON") or sys.executable
SECONDS = 60
#: How long nothing may change before the workers count as at rest.
QUIET = 0.4


def counted(notes):
    """How often each call was made. An identifier in it is the call that it is of."""
    calls = [json.loads(it) for it in notes]
    named = {it[1]: it[0] for it in calls}
    return Counter(json.dumps([call, retries, [named.get(it, "?") for it in ids]])
                   for call, _, retries, ids in calls)


def rehearsed(flow, fails, **how):
    """The report of a flow in which these calls fail, and the notes of the calls."""
    import everyday_flows as flows
    from bevtragi import rehearse

    flows.CALLS.clear()
    flows.FAILS.clear()
    flows.FAILS.update(fails)
    return rehearse(flows.FLOWS[flow](), **how), [*flows.CALLS]


def cases():
    """A flow and the calls that fail, of each run."""
    import everyday_flows as flows

    def called(flow, fails):
        return [*dict.fromkeys(json.loads(it)[0] for it in rehearsed(flow, fails)[1])]
    for flow in flows.FLOWS:
        yield flow, {}
        well = called(flow, {})
        for call in well:
            yield flow, {call: "Boom"}
            for other in called(flow, {call: "Boom"}):
                if other not in well:
                    yield flow, {call: "Boom", other: "Boom"}


def rests(store):
    """Waits until no message is left and nothing has changed for a while."""
    until, last, since = time.monotonic() + SECONDS, None, time.monotonic()
    while time.monotonic() < until:
        waiting = store.llen("everyday") + store.hlen("unacked")
        now = (store.llen("calls"), waiting, len(store.keys("celery-task-meta-*")))
        if now != last:
            last, since = now, time.monotonic()
        elif waiting == 0 and time.monotonic() - since > QUIET:
            return
        time.sleep(0.02)
    raise TimeoutError("the workers don't come to rest")


def started(flow, fails):
    """The calls that the workers make for a flow in which these calls fail."""
    import everyday_flows as flows

    flows.store.flushdb()
    if fails:
        flows.store.hset("fails", mapping=fails)
    flows.FLOWS[flow]().apply_async()
    rests(flows.store)
    return counted(it.decode() for it in flows.store.lrange("calls", 0, -1))


def start_worker():
    words = [PYTHON, "-B", "-m", "celery", "-A", "everyday_flows", "worker", "-Q", "everyday",
             "-n", "everyday@localhost", "-c", "2", "--without-gossip", "--without-mingle",
             "--without-heartbeat"]
    return subprocess.Popen(words, cwd=HERE, stdout=subprocess.DEVNULL, stderr=subprocess.DEVNULL,
                            start_new_session=True)


def main():
    place, *words = sys.argv[1:]
    sys.path[:0] = [str(HERE.parent / "src"), str(HERE)]
    wanted = [*cases()]
    for name in ("everyday_flows", "places"):
        sys.modules.pop(name, None)
    from places import url_of
    os.environ["EVERYDAY_REDIS"] = url_of(place, 2)
    import celery

    gc.disable()  # see started.py
    file = HERE / "flows" / f"everyday-{celery.__version__}.jsonl"
    known = [json.loads(it) for it in file.open()] if file.exists() else []
    worker, found = start_worker(), []
    try:
        for flow, fails in wanted:
            found.append({"flow": flow, "fails": fails, "calls": started(flow, fails)})
    finally:
        os.killpg(worker.pid, signal.SIGTERM)
        worker.wait(SECONDS)
    differ = [it for it in found if it not in known]
    for it in differ:
        print(f"{it['flow']}, {[*it['fails']] or 'nothing'} fails: {json.dumps(it['calls'])}")
    print(f"Celery {celery.__version__}: {len(found)} runs, of which {len(found) - len(differ)}"
          f" call what {file.name} says")
    if "--write" in words:
        file.write_text("".join(json.dumps(it) + "\n" for it in found))
    return 1 if differ else 0


if __name__ == "__main__":
    sys.exit(main())
