"""The built-in tasks as real Celery tasks: start workers with `celery -A tasks worker`.

CANVAS_REDIS names the Redis that has both the queue and the results.
"""

import os

from celery import Celery

REDIS = os.environ.get("CANVAS_REDIS", "redis://127.0.0.1:6379/0")

# A call with wrong arguments is to fail in the worker, not where it is sent.
app = Celery("tasks", broker=REDIS, backend=REDIS, strict_typing=False)

LIMIT = 2**60


def whole(x):
    if type(x) is not int:
        raise TypeError("a whole number is wanted")
    return x


def within(x):
    if abs(x) > LIMIT:
        raise OverflowError("past 2^60")
    return x


@app.task(name="tasks.add")
def add(x, y):
    return within(whole(x) + whole(y))


@app.task(name="tasks.mul")
def mul(x, y):
    return within(whole(x) * whole(y))


@app.task(name="tasks.div")
def div(x, y):
    return within(whole(x) // whole(y))


@app.task(name="tasks.xsum")
def xsum(numbers):
    if type(numbers) is not list:
        raise TypeError("a list is wanted")
    return within(sum(whole(x) for x in numbers))


@app.task(name="tasks.ident")
def ident(x):
    return whole(x)


@app.task(name="tasks.log_error")
def log_error(uuid):
    """The number of the failed task, which stands at the end of its identifier."""
    try:
        return int(uuid[-8:], 16)
    except (TypeError, ValueError):
        raise TypeError("an identifier is wanted") from None
