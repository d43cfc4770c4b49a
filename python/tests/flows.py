"""Five canvases as a user of Celery composes them. `python3 flows.py` writes them to flows/."""

import json
from datetime import date
from decimal import Decimal
from pathlib import Path

from celery import chord, group, signature

HERE = Path(__file__).resolve().parent


def s(name, *args, **kwargs):
    return signature(name, args, kwargs)


def order():
    """An order is looked up, charged and shipped side by side, and then there are an invoice and
    thanks. What can't be shipped is refunded."""
    item = {"sku": "A-17", "count": 2, "price": 9.5, "gift": None}
    charge = s("shop.charge", card="4242", amount=Decimal("19.00"))
    ship = s("shop.ship", item, express=True).on_error(s("shop.refund"))
    paid = chord([charge, ship], s("shop.invoice", copies=2))
    return s("shop.find", 4711) | paid | s("shop.thank", "en")


def nightly():
    """A report: each region is counted, the counts are added, and the sum is sent."""
    day = date(2026, 11, 26)
    counts = group(s("report.count", region, day=day) for region in ("DE", "FR", "IT"))
    return counts | s("report.add") | s("report.send", to=["a@example.org", "b@example.org"])


def media():
    """A film: two sizes and a picture, each by a chain of its own, and then it is published."""
    sizes = [s("film.encode", "in.mov", {"height": it}) | s("film.upload") for it in (480, 1080)]
    still = s("film.still", "in.mov", 12.5) | s("film.shrink") | s("film.upload")
    return s("film.fetch", "in.mov") | chord([*sizes, still], s("film.publish"))


def shops():
    """Chords in the header of a chord: what each shop sold, and then what all did."""
    each = [chord([s("shop.sold", shop, half) for half in (1, 2)], s("shop.sum")) for shop in "xyz"]
    return chord(each, s("report.sum"))


def billing():
    """A chain with an error callback, which Celery gives to each of its tasks, and a link."""
    take = s("bill.take", 12).set(link=s("bill.log"), queue="bank", countdown=5)
    bill = s("bill.make", {"customer": 7}) | take | s("bill.send", mail=None)
    return bill.on_error(s("bill.alarm"))


FLOWS = {flow.__name__: flow for flow in (order, nightly, media, shops, billing)}


if __name__ == "__main__":
    for name, flow in FLOWS.items():
        text = json.dumps(flow(), default=str, indent=1)
        (HERE / "flows" / f"{name}.json").write_text(text + "\n")
