"""Delivers each message of the flows of `everyday_flows` again on a real worker, after the flow has
ended, and notes the calls that this leads to.

    python3 everyday_redeliveries.py PLACE [--write]    a Redis of its own: a socket's path, or a port

It empties database 2 of that Redis. Messages pass through this script, which keeps a copy of each.
It prints a line for each message that leads to other calls than flows/redelivered-VERSION.jsonl
says, and with --write it writes that file anew. The status is 1 if a message does. PYTHON names
another Python than the one that it is run by.
"""

import gc
import json
import os
import signal
import subprocess
import sys
import time
from pathlib import Path
from uuid import uuid4

# No compiled modules are left in the tree.
sys.dont_write_bytecode = True

HERE = Path(__file__).resolve().parent
sys.path[:0] = [str(HERE.parent / "src"), str(HERE)]

from everyday_runs import PYTHON, QUIET, SECONDS, counted

#: The queue of the worker. Tasks are sent to the queue "everyday".
QUEUE = "passed"


def passed(store):
    """Passes messages to the worker until nothing changes, and gives them in their order."""
    found, last, since = [], None, time.monotonic()
    until = since + SECONDS
    while time.monotonic() < until:
        message = store.rpop("everyday")
        if message is not None:
            found.append(message)
            store.lpush(QUEUE, message)
        waiting = store.llen(QUEUE) + store.hlen("unacked")
        now = (len(found), store.llen("calls"), waiting, len(store.keys("celery-task-meta-*")))
        if now != last:
            last, since = now, time.monotonic()
        elif waiting == 0 and time.monotonic() - since > QUIET:
            return found
        time.sleep(0.005)
    raise TimeoutError("the worker doesn't come to rest")


def notes(store):
    return [it.decode() for it in store.lrange("calls", 0, -1)]


def tagged(message):
    """A message with a tag of its own, since a worker counts the tags that it has to acknowledge."""
    told = json.loads(message)
    told["properties"]["delivery_tag"] = str(uuid4())
    return json.dumps(told)


def redelivered(flow):
    """The calls that each message of a flow leads to when it is delivered again."""
    import everyday_flows as flows

    store = flows.store
    store.flushdb()
    flows.FLOWS[flow]().apply_async()
    messages = passed(store)
    before = notes(store)
    called = {}
    for it in before:
        called.setdefault(json.loads(it)[1], json.loads(it)[0])
    seen = set()
    for message in messages:
        number = json.loads(message)["headers"]["id"]
        if number in seen or number not in called:
            continue
        seen.add(number)
        store.delete("calls")
        store.lpush(QUEUE, tagged(message))
        passed(store)
        yield {"flow": flow, "again": called[number], "calls": counted(notes(store))}


def start_worker():
    words = [PYTHON, "-B", "-m", "celery", "-A", "everyday_flows", "worker", "-Q", QUEUE, "-n",
             "again@localhost", "-c", "4", "--without-gossip", "--without-mingle",
             "--without-heartbeat"]
    return subprocess.Popen(words, cwd=HERE, stdout=subprocess.DEVNULL, stderr=subprocess.DEVNULL,
                            start_new_session=True)


def main():
    place, *words = sys.argv[1:]
    from places import url_of
    os.environ["EVERYDAY_REDIS"] = url_of(place, 2)
    import celery
    from everyday_flows import FLOWS

    gc.disable()  # see started.py
    file = HERE / "flows" / f"redelivered-{celery.__version__}.jsonl"
    known = [json.loads(it) for it in file.open()] if file.exists() else []
    worker = start_worker()
    try:
        found = [it for flow in FLOWS for it in redelivered(flow)]
    finally:
        os.killpg(worker.pid, signal.SIGTERM)
        worker.wait(SECONDS)
    differ = [it for it in found if it not in known]
    for it in differ:
        print(f"{it['flow']}, {it['again']} again: {json.dumps(it['calls'])}")
    print(f"Celery {celery.__version__}: {len(found)} messages delivered again, of which"
          f" {len(found) - len(differ)} lead to what {file.name} says")
    if "--write" in words:
        file.write_text("".join(json.dumps(it) + "\n" for it in found))
    return 1 if differ else 0


if __name__ == "__main__":
    sys.exit(main())
