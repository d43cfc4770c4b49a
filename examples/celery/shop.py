"""An order whose tasks return what they like and raise exceptions of their own.

`python3 shop.py` prints it as JSON, `celery -A shop worker` starts a worker for it. CANVAS_REDIS
names the Redis that has both the queue and the results.
"""

import json
import os

from celery import Celery, chord

REDIS = os.environ.get("CANVAS_REDIS", "redis://127.0.0.1:6379/0")

app = Celery("shop", broker=REDIS, backend=REDIS, strict_typing=False)

STOCK = {"lamp": 2, "desk": 0}


class OutOfStock(Exception):
    """There is too little of an item."""


@app.task(name="shop.price")
def price(item, count):
    return {"item": item, "sum": 19.95 * count}


@app.task(name="shop.pick")
def pick(item, count):
    if STOCK[item] < count:
        raise OutOfStock(item)
    return [item] * count


@app.task(name="shop.pack")
def pack(items):
    return {"parcel": items, "weight": 0.5 * len(items)}


@app.task(name="shop.ship")
def ship(parts):
    return {"parts": parts, "sent": True}


@app.task(name="shop.refund")
def refund(failed):
    return "refund of " + failed


order = chord(
    [price.s("lamp", 2), pick.s("lamp", 1) | pack.s(), pick.s("desk", 1).on_error(refund.s())],
    ship.s(),
)

if __name__ == "__main__":
    print(json.dumps(order))
