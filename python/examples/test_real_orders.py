"""Tests of an order with the shop's own tasks, for pytest: no broker, and no worker."""

from contextlib import contextmanager

from celery import Celery, chord

from bevtragi import rehearse, rehearse_orders, rehearse_redeliveries

app = Celery("shop", broker="redis://nowhere", backend="redis://nowhere", set_as_current=False)
STOCK, PAID = {}, {}


@app.task(name="shop.find", shared=False)
def find(number):
    return {"number": number, "item": "lamp", "price": 9.5}


@app.task(name="shop.charge", bind=True, shared=False)
def charge(self, order, card):
    PAID.setdefault(order["number"], order["price"] * 2)
    return {"paid": PAID[order["number"]], "card": card[-4:]}


@app.task(name="shop.ship", autoretry_for=(ConnectionError,), max_retries=3, shared=False)
def ship(order, country):
    STOCK[order["item"]] -= 1
    return {"parcel": order["item"], "country": country}


@app.task(name="shop.refund", shared=False)
def refund(request, exc, traceback):
    return {"refunded": PAID.pop(request.args[0]["number"], 0)}


@app.task(name="shop.invoice", shared=False)
def invoice(parts):
    return {**parts[0], **parts[1]}


@app.task(name="shop.thank", shared=False)
def thank(paper, language):
    return f"{language}: {paper['parcel']}"


paid = chord([charge.s("4242"), ship.s("DE").on_error(refund.s())], invoice.s())
order_flow = find.s(4711) | paid | thank.s("en")


@contextmanager
def world():
    """What each rehearsal starts from, and what it has become of it."""
    STOCK.update(lamp=3)
    PAID.clear()
    yield lambda: (dict(STOCK), dict(PAID))


def test_a_lost_parcel_is_refunded():
    report = rehearse(order_flow, {"shop.ship": ConnectionError("no route")}, world=world)
    assert report.of("shop.ship")[0].retries == 3
    assert report["shop.refund"].result == {"refunded": 19.0}
    assert report.never_run == ["shop.invoice", "shop.thank"]


def test_in_any_order():
    assert not rehearse_orders(order_flow, world=world)


def test_a_card_is_charged_once():
    assert not [it for it in rehearse_redeliveries(order_flow, world=world)
                if it.name == "shop.charge"]
