"""The application of `tools/benchmarks/starts`, and its canvas of 50 tasks. STARTS_REDIS is the URL."""
import os

from celery import Celery, chain, chord

URL = os.environ.get("STARTS_REDIS") or "redis://127.0.0.1:1/"
app = Celery("starts_app", broker=f"{URL}0", backend=f"{URL}1")
app.conf.update(
    task_acks_late=True, task_reject_on_worker_lost=True, worker_prefetch_multiplier=4,
    broker_connection_retry_on_startup=True,
    # A worker that is killed may hold the lock of who brings messages back, for five minutes.
    broker_transport_options={"visibility_timeout": int(os.environ.get("STARTS_VISIBILITY", 3600)),
                              "unacked_mutex_expire": 10})
#: The members of the header, and the tasks of each.
MEMBERS, LENGTH = 9, 4
TASKS = 50


class Lost(Exception):
    """What a parcel that is lost raises."""


@app.task(name="shop.step")
def step(number, more=1):
    return number + more


@app.task(name="shop.ship")
def ship(number, is_lost=False):
    if is_lost:
        raise Lost(number)
    return number


@app.task(name="shop.total")
def total(numbers):
    return sum(numbers)


@app.task(name="shop.note")
def note(number):
    return number


@app.task(name="shop.alarm")
def alarm(identifier):
    return identifier


def canvas(number, is_lost):
    """A chord of chains with an alarm for each, and what follows; if a parcel is lost, the last
    member fails."""
    def member(place):
        last = ship.s(is_lost and place == MEMBERS - 1).on_error(alarm.s())
        return chain(step.s(number), *(step.s() for _ in range(LENGTH - 2)), last)

    last = step.s()
    last.link(note.s())
    header = [member(place) for place in range(MEMBERS)]
    return chord(header, total.s().on_error(alarm.s())) | step.s() | last


def wanted(number, is_lost):
    """Its result, or None if it fails, and how many of its tasks are called."""
    called = MEMBERS * LENGTH
    return (None, called + 2) if is_lost else (MEMBERS * (number + LENGTH - 1) + 2, called + 4)
