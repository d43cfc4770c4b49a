"""The application of test_start_on_workers.py: START_BROKER and START_RESULTS are its URLs."""

import os

from celery import Celery

BROKER, RESULTS = os.environ.get("START_BROKER"), os.environ.get("START_RESULTS")
app = Celery("start_tasks", broker=BROKER or "memory://", backend=RESULTS or "cache+memory://",
             set_as_current=False)
SETTINGS = {
    "task_default_queue": "starts",
    "broker_connection_retry_on_startup": True,
    "broker_transport_options": {"global_keyprefix": "{own}"},
    "result_backend_transport_options": {"global_keyprefix": "kept"},
    "broker_use_ssl": {"ssl_cert_reqs": "none"} if str(BROKER).startswith("rediss") else None,
    "redis_backend_use_ssl": {"ssl_cert_reqs": "none"} if str(RESULTS).startswith("rediss") else None,
}
app.conf.update(SETTINGS)


class Lost(Exception):
    """What a task fails with."""


@app.task(name="it.echo", shared=False)
def echo(*args, **kwargs):
    return [args, kwargs]


@app.task(name="it.both", shared=False)
def both(given, *args, **kwargs):
    return [given, args, kwargs]


@app.task(name="it.fail", shared=False)
def fail(*_args):
    raise Lost("A-17", 2)


@app.task(name="it.alarm", bind=True, shared=False)
def alarm(self, uuid, why):
    return why
