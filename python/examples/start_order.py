"""Starts an order on your workers, with Redis as broker and result backend. In one terminal

    celery -A start_order worker

and in another `python3 start_order.py`. SHOP_REDIS names the Redis.
"""

import os

from celery import Celery, chord

import bevtragi

REDIS = os.environ.get("SHOP_REDIS", "redis://127.0.0.1:6379/0")
app = Celery("shop", broker=REDIS, backend=REDIS, set_as_current=False)


class OutOfStock(Exception):
    """There is none left."""


@app.task(name="shop.find", shared=False)
def find(number):
    return {"number": number, "item": "desk", "price": 9.5}


@app.task(name="shop.charge", shared=False)
def charge(order, card):
    return {"paid": order["price"] * 2, "card": card["number"][-4:]}


@app.task(name="shop.ship", shared=False)
def ship(order, country):
    raise OutOfStock(order["item"])


@app.task(name="shop.refund", shared=False)
def refund(failed_task):
    return {"refunded": 19.0}


@app.task(name="shop.invoice", shared=False)
def invoice(parts):
    return {**parts[0], **parts[1]}


@app.task(name="shop.thank", shared=False)
def thank(paper, language):
    return f"{language}: {paper['parcel']}"


paid = chord([charge.s({"number": "4242 4242"}), ship.s("DE").on_error(refund.s())], invoice.s())
order_flow = find.s(4711) | paid | thank.s("en")


def main():
    run = bevtragi.start(order_flow, app)      # in the place of order_flow.apply_async()
    report = run.wait(timeout=60)
    print(report)
    run.settle()
    try:
        run.result.get(timeout=60)             # Celery's own AsyncResult
    except Exception as error:
        print(type(error).__name__)
    again = bevtragi.run_of(run.number, order_flow, app)
    assert again.report() == report


if __name__ == "__main__":
    main()
