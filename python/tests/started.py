"""Starts the flows of `user_flows` by `apply_async()` on real workers, well and with tasks failing,
each as it is and as `cured()` gives it, and says what became of each run. `tools/try-celery` calls it.

    python3 started.py PLACE [--write]    a Redis of its own: a socket's path, or a port of 127.0.0.1
    python3 started.py PLACE --of FLOW    a JSON object for each run of one flow

It empties database 1 of that Redis. It prints a line for each run that ends otherwise than
flows/started-VERSION.jsonl says, and with --write it writes that file anew. The status is 1 if a
run differs. PYTHON names another Python than the one that it is run by.
"""

import gc
import json
import os
import signal
import subprocess
import sys
import time
from collections import Counter
from pathlib import Path

# No compiled modules are left in the tree.
sys.dont_write_bytecode = True

HERE = Path(__file__).resolve().parent
PYTHON = os.environ.get("PYTHON") or sys.executable
SECONDS = 60
#: How long nothing may change before the workers count as at rest.
QUIET = 1.0
QUEUES = ("users", "bank")
#: Redis keeps the messages of a priority in a list of its own.
PRIORITIES = ("", "\x06\x163", "\x06\x166", "\x06\x169")


def called_tasks(tree, found):
    """The name, arguments and keywords of each task of a signature, in the file's order."""
    kind, kwargs = tree.get("subtask_type"), tree.get("kwargs") or {}
    if kind in ("chain", "group"):
        parts = kwargs["tasks"]
    elif kind == "chord":
        header = kwargs["header"]
        parts = [*(header if isinstance(header, list) else header["kwargs"]["tasks"]),
                 kwargs["body"]]
    else:
        parts = []
        found.append((tree["task"], tree.get("args") or [], kwargs))
    for part in parts:
        called_tasks(part, found)
    options = tree.get("options") or {}
    for key in ("link", "link_error"):
        callbacks = options.get(key) or []
        for callback in callbacks if isinstance(callbacks, list) else [callbacks]:
            called_tasks(callback, found)
    return found


def has_callbacks_of_its_own(tree):
    """Whether a chain, group or chord has callbacks, or is one: its tasks aren't numbered as here."""
    if isinstance(tree, list):
        return any(map(has_callbacks_of_its_own, tree))
    if not isinstance(tree, dict):
        return False
    options = tree.get("options") or {} if "task" in tree else {}
    callbacks = [it for key in ("link", "link_error") for it in options.get(key) or []
                 if isinstance(options.get(key), list)]
    if tree.get("subtask_type") and callbacks or any(it.get("subtask_type") for it in callbacks):
        return True
    return any(map(has_callbacks_of_its_own, tree.values()))


def failures(flow):
    """What fails in each run of a flow: nothing; each name; and each task of a name that several
    have, if its own arguments tell it from the others. A pair: the label, and what Redis holds."""
    from kombu.utils.json import dumps

    tree = json.loads(dumps(flow))
    tasks = [it for it in called_tasks(tree, []) if not it[0].startswith("celery.")]
    yield None, None
    names = Counter(name for name, _, _ in tasks)
    for name in names:
        yield name, {"name": name}
    if has_callbacks_of_its_own(tree) or len(tasks) != len(called_tasks(tree, [])):
        return
    for number, (name, args, kwargs) in enumerate(tasks, 1):
        alike = [it for it in tasks if it[0] == name and it[2] == kwargs
                 and it[1][len(it[1]) - len(args):] == args]
        if names[name] > 1 and len(alike) == 1:
            yield number, {"name": name, "args": args, "kwargs": kwargs}


def waiting(store):
    """How many messages wait or are being worked on."""
    lists = sum(store.llen(queue + priority) for queue in QUEUES for priority in PRIORITIES)
    return lists + store.hlen("unacked")


def rests(store):
    """Waits until no message is left and nothing has changed for a while."""
    until = time.monotonic() + SECONDS
    last, since = None, time.monotonic()
    while time.monotonic() < until:
        now = (store.llen("called"), waiting(store), len(store.keys("celery-task-meta-*")))
        if now != last:
            last, since = now, time.monotonic()
        elif now[1] == 0 and time.monotonic() - since > QUIET:
            return
        time.sleep(0.03)
    raise TimeoutError("the workers don't come to rest")


def got(result):
    """How the caller's `get()` ends: SUCCESS, WAITS, or the name of an exception."""
    from celery.exceptions import TimeoutError as Late

    try:
        result.get(timeout=1.0)
        return "SUCCESS"
    except Late:
        return "WAITS"
    except Exception as error:
        return type(error).__name__


def started(store, flow, fails):
    """What becomes of a flow that is started while this fails: the tasks that are called, how
    `get()` ends, and the states that the workers store of tasks, by name."""
    store.flushdb()
    if fails:
        store.set("fails", json.dumps(fails))
    try:
        result = flow.apply_async()
    except Exception as error:
        return {"called": {}, "get": f"RAISED {type(error).__name__}", "states": {}}
    rests(store)
    called = Counter(it.decode() for it in store.lrange("called", 0, -1))
    states = Counter()
    for key in store.scan_iter("celery-task-meta-*"):
        meta = json.loads(store.get(key))
        if meta.get("name") and not meta["name"].startswith("celery."):
            states[f"{meta['name']} {meta['status']}"] += 1
    return {"called": dict(sorted(called.items())), "get": got(result),
            "states": dict(sorted(states.items()))}


def runs_of(name):
    """Each run of a flow, as a JSON object."""
    from bevtragi import cured
    from places import client_of
    from user_flows import FLOWS

    store = client_of(os.environ["CANVAS_REDIS"])
    for label, fails in failures(FLOWS[name]()):
        yield {"flow": name, "fails": label, "started": started(store, FLOWS[name](), fails),
               "cured": started(store, cured(FLOWS[name]()), fails)}


def runs(place):
    """Each run of each flow. A process of its own starts each flow, as a user's program would."""
    from user_flows import FLOWS

    for name in FLOWS:
        words = [PYTHON, "-B", str(HERE / "started.py"), place, "--of", name]
        said = subprocess.run(words, stdout=subprocess.PIPE, check=True, timeout=20 * SECONDS)
        yield from map(json.loads, said.stdout.splitlines())


def start_worker():
    """A worker of one process, so that tasks end in the order of their messages."""
    words = [PYTHON, "-B", "-m", "celery", "-A", "user_tasks", "worker", "-Q", ",".join(QUEUES),
             "-n", "users@localhost", "-c", "1", "--without-gossip", "--without-mingle",
             "--without-heartbeat"]
    return subprocess.Popen(words, cwd=HERE, stdout=subprocess.DEVNULL, stderr=subprocess.DEVNULL,
                            start_new_session=True)


def main():
    place, *words = sys.argv[1:]
    sys.path[:0] = [str(HERE.parent / "src"), str(HERE)]
    from places import url_of
    os.environ["CANVAS_REDIS"] = url_of(place, 1)
    import celery

    if words[:1] == ["--of"]:
        # A result that is collected unsubscribes, by a lock of redis 6.1.0 that this thread may
        # hold: the caller of Celery 5.5.2 then waits forever, with any timeout.
        gc.disable()
        for run in runs_of(words[1]):
            print(json.dumps(run), flush=True)
        return 0
    file = HERE / "flows" / f"started-{celery.__version__}.jsonl"
    known = {}
    if file.exists():
        known = {(it["flow"], it["fails"]): it for it in map(json.loads, file.open())}
    worker = start_worker()
    found, differ = [], 0
    try:
        for run in runs(place):
            found.append(run)
            before = known.get((run["flow"], run["fails"]))
            if before != run:
                differ += 1
                print(f"{run['flow']}, {run['fails'] or 'nothing'} fails: {json.dumps(run)}, and"
                      f" was {json.dumps(before)}", flush=True)
    finally:
        os.killpg(worker.pid, signal.SIGTERM)
        worker.wait(SECONDS)
    print(f"Celery {celery.__version__}: {len(found)} runs started by apply_async(), of which"
          f" {len(found) - differ} end as {file.name} says")
    if "--write" in words:
        file.write_text("".join(json.dumps(it) + "\n" for it in found))
    return 1 if differ else 0


if __name__ == "__main__":
    sys.exit(main())
