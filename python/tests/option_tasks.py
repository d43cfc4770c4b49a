"""The application of test_options_on_workers.py: each task notes the options that it was sent with.
START_BROKER and START_RESULTS are its URLs."""

import datetime
import json
import time

from celery import Celery

from places import client_of
from start_tasks import BROKER, RESULTS, SETTINGS

app = Celery("option_tasks", broker=BROKER or "memory://", backend=RESULTS or "cache+memory://",
             set_as_current=False)
app.conf.update(SETTINGS, task_routes={"it.routed": {"queue": "routed", "priority": 6}})
#: Options of one class, and the queues that a worker has to take from.
CLASSED = {"expires": 3000, "priority": 7, "queue": "other", "time_limit": 70}
QUEUES = "starts,other,routed,third"


class Lost(Exception):
    """What a task fails with."""


def left(text):
    """The seconds from now to a moment, in hundreds."""
    if text is None:
        return None
    moment = datetime.datetime.fromisoformat(text.replace("Z", "+00:00"))
    return round((moment - datetime.datetime.now(datetime.timezone.utc)).total_seconds() / 100)


def noted(request, how, label):
    """Notes the options of a message of a flow that was started in some way."""
    found = {name: getattr(request, name, None) for name in ("own_header", "shadow")}
    found.update(
        expires=left(request.expires), priority=request.delivery_info.get("priority"),
        is_late=None if request.eta is None else left(request.eta) <= 0,
        ignore_result=bool(request.ignore_result), queue=request.delivery_info.get("routing_key"),
        timelimit=[*(request.timelimit or (None, None))],
        shown=[getattr(request, name, None) == "own" for name in ("argsrepr", "kwargsrepr")])
    client_of(RESULTS).hset(how, label, json.dumps(found))


def named(name, **options):
    return app.task(name=name, bind=True, shared=False, **options)


@named("it.shown")
def shown(self, *_given, how, label):
    noted(self.request, how, label)


@named("it.classed", **CLASSED)
def classed(self, *_given, how, label):
    noted(self.request, how, label)


@named("it.routed")
def routed(self, *_given, how, label):
    noted(self.request, how, label)


@named("it.fail")
def fail(self, *_given, how, label):
    noted(self.request, how, label)
    raise Lost(label)


@named("it.alarm")
def alarm(self, _uuid, how, label):
    noted(self.request, how, label)


@named("it.sleep")
def sleep(self, *_given):
    time.sleep(30)
