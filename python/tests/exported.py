"""Runs the five flows on a real Celery worker, with no task failing and with each failing in turn,
and compares what it calls and stores with what_if(). `tools/try-celery` starts it.

    python3 exported.py PLACE    a Redis of its own: the path of its socket, or a port of 127.0.0.1
"""

import os
import signal
import subprocess
import sys
import time
from pathlib import Path

HERE = Path(__file__).resolve().parent
sys.path[:0] = [str(HERE.parent / "src"), str(HERE)]

from places import client_of, url_of
from bevtragi import adapt, collect, export, what_if

SECONDS = 30


def is_at_rest(canvas, client, run, wanted):
    """Whether each task that is called has its result."""
    rows = collect(canvas, client, run).rows
    return all(row.status == it.status for row, it in zip(rows, wanted.rows) if it.ran)


def compared(canvas, client, bad):
    """What is wrong of a run in which a task of a number fails; and whether Celery left others
    pending."""
    tasks = {bad: ZeroDivisionError} if bad else {}
    wanted = what_if(canvas, tasks)
    client.delete("answers", "called")
    if bad:
        client.hset("answers", bad, "raise:ZeroDivisionError")
    run = export(canvas, client, queue="flows")
    until = time.monotonic() + SECONDS
    while not is_at_rest(canvas, client, run, wanted) and time.monotonic() < until:
        time.sleep(0.05)
    time.sleep(0.2)
    found = collect(canvas, client, run, complete=True)
    calls = [int(client.hget("called", row.number) or 0) for row in found.rows]
    wrong = found.differences(wanted)
    if calls != [int(row.ran) for row in wanted.rows]:
        wrong.append(f"called {calls} times")
    return wrong, collect(canvas, client, run).pending != wanted.pending


def compare(client):
    bad = 0
    for file in sorted((HERE / "flows").glob("*.json")):
        canvas = adapt(file)
        numbers = range(len(what_if(canvas).rows) + 1)
        ends = [compared(canvas, client, number) for number in numbers]
        for number, (wrong, _) in enumerate(ends):
            if wrong:
                print(f"{file.stem}, {number} fails: DIFFERS", *wrong, sep="\n  ")
        bad += sum(bool(wrong) for wrong, _ in ends)
        left = sum(is_left for _, is_left in ends)
        alike = sum(not wrong for wrong, _ in ends)
        print(f"{file.stem}: {alike} of {len(ends)} runs alike; Celery left some tasks pending in"
              f" {left}")
    return bad


def main():
    url = url_of(sys.argv[1], 0)
    words = [sys.executable, "-B", "-m", "celery", "-A", "flow_tasks", "worker", "-Q", "flows",
             "-n", "flows@localhost", "-c", "2", "--without-gossip", "--without-mingle",
             "--without-heartbeat"]
    worker = subprocess.Popen(words, cwd=HERE, env={**os.environ, "CANVAS_REDIS": url},
                              stdout=subprocess.DEVNULL, stderr=subprocess.DEVNULL,
                              start_new_session=True)
    try:
        return 1 if compare(client_of(url)) else 0
    finally:
        os.killpg(worker.pid, signal.SIGTERM)
        worker.wait(SECONDS)


if __name__ == "__main__":
    sys.exit(main())
