"""The application of `tools/benchmarks/instead`: tasks that the program has too. INSTEAD_REDIS is the
URL of a Redis; without it broker and results are in memory."""
import os

from celery import Celery

URL = os.environ.get("INSTEAD_REDIS")
app = Celery("tasks", broker=f"{URL}0" if URL else "memory://",
             backend=f"{URL}1" if URL else "cache+memory://")


@app.task(name="tasks.add")
def add(x: int, y: int) -> int:
    return x + y


@app.task(name="tasks.mul")
def mul(x: int, y: int) -> int:
    return x * y


@app.task(name="tasks.xsum")
def xsum(numbers: list) -> int:
    return sum(numbers)
