"""Tests of an order, for pytest: no broker, no worker, and no task is called.

`ORDER` may as well be the signature that the shop starts. The file is its JSON, which is

    paid = chord([charge.s(card="4242", amount="19.00"),
                  ship.s({"sku": "A-17", ..}, express=True).on_error(refund.s())],
                 invoice.s(copies=2))
    json.dumps(find.s(4711) | paid | thank.s("en"))
"""

from pathlib import Path

from bevtragi import every_failure, what_if

ORDER = Path(__file__).resolve().parent.parent / "tests" / "flows" / "order.json"


def test_who_is_charged_and_gets_nothing_is_refunded():
    report = what_if(ORDER, {"shop.ship": ConnectionError})
    assert "shop.refund" in report.ran
    assert report.never_run == ["shop.invoice", "shop.thank"]


def test_nobody_is_thanked_for_what_failed():
    for number, report in every_failure(ORDER, error=TimeoutError).items():
        if report[number].ran and report[number].name != "shop.thank":
            assert "shop.thank" not in report.ran, report


def test_whatever_is_delivered_twice():
    for bad in ("shop.find", "shop.charge", "shop.ship", "shop.invoice", "shop.thank"):
        report = what_if(ORDER, {bad: ConnectionError})
        assert report.status == "FAILURE"
        assert what_if(ORDER, {bad: ConnectionError}, workers=4, again=True) == report
