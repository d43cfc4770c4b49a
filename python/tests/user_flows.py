"""Canvases as users of Celery compose them, of the tasks in user_tasks.py. FLOWS has each by its
name; each call makes a new signature."""

import json
from datetime import date

from celery import Signature, chain, chord, group

import flows
from user_tasks import (
    add, add_two, alarm, app, best, bill_alarm, charge, clean, count, create_user, deploy, encode,
    evaluate, fan, fetch, find, five, four, import_contact, import_contacts, invoice, last, log,
    log_bill, mail, make_bill, mean, multiply, notify_complete, one, post, publish, refund, send,
    send_welcome_email, ship, six, split, step_alarm, step_old_alarm, thank, three, train,
    two, upload, xsum)

#: The flows that `flows` composes of names only have names of their own here.
FLOWS = {f"{name}_by_names": make for name, make in flows.FLOWS.items()}


def flow(make):
    FLOWS[make.__name__] = make
    return make


ITEM = {"sku": "A-17", "count": 2, "price": 9.5, "gift": None}


def both():
    """What is charged and shipped of an order, side by side."""
    return [charge.s(card="4242", amount=19.5), ship.s(ITEM, express=True).on_error(refund.s())]


@flow
def order():
    return find.s(4711) | chord(both(), invoice.s(copies=2)) | thank.s("en")


@flow
def order_without_find():
    order = {"number": 4711}
    paid = [charge.s(order, card="4242"), ship.s(order, ITEM).on_error(refund.s())]
    return chord(paid, invoice.s(copies=2)) | thank.s("en")


@flow
def order_of_one_invoice():
    return find.s(4711) | chord(both(), invoice.s().on_error(alarm.s()))


@flow
def order_with_alarm():
    return find.s(4711) | chord(both(), invoice.s().on_error(alarm.s())) | thank.s("en")


@flow
def order_with_alarms():
    return find.s(4711) | group(both()) | (invoice.s() | thank.s("en")).on_error(alarm.s())


@flow
def film():
    sizes = [encode.s(height=it, crf=21.5) | upload.s(bucket="films") for it in (480, 1080)]
    done = publish.s(title="t").on_error(clean.s())
    return fetch.s("https://x/in.mov") | chord(sizes, done) | mail.s("a@example.org")


@flow
def copies():
    return fetch.s("https://x/in.mov") | group(upload.s(bucket="eu"), upload.s(bucket="us"))


@flow
def night():
    counts = group(count.s(it, day=date(2026, 11, 26)) for it in ("DE", "FR", "IT"))
    return counts | add.s() | send.s(to=["a@example.org"])


@flow
def nights():
    each = [chord([count.s(it), count.s(it, day=None)], add.s()) for it in ("DE", "FR")]
    return chord(each, add.s()) | send.s()


@flow
def shops():
    return chord([chord([count.s(it), count.s(it)], add.s()) for it in "xy"], add.s())


@flow
def night_with_links():
    counted = count.s("DE")
    counted.link(log.s())
    counted.link_error(refund.s())
    counted.link_error(alarm.s())
    return counted | send.s(to=[]) | log.si(7)


@flow
def night_of_a_map():
    return count.starmap([("DE", None), ("FR", None)]) | add.s() | send.s()


@flow
def trap():
    return find.s(4711).on_error(post.s()) | thank.s()


@flow
def wrong_call():
    return find.s(4711) | charge.s() | thank.s()


@flow
def stranger():
    unknown = app.signature("shop.unknown").on_error(refund.s())
    return find.s(4711) | unknown | thank.s()


@flow
def chain_in_chain():
    return chain(find.s(4711), chain(ship.s(), log.s()).on_error(refund.s()), thank.s())


@flow
def shipped_at_once():
    """The same order with the chord first, after which comes more."""
    parts = [one.s(), two.s().on_error(step_old_alarm.s())]
    return chord(parts, three.s()) | last.s()


@flow
def alarm_on_both_parts():
    """A header in which each member has an alarm, and a body of two."""
    parts = [one.s(1).on_error(step_old_alarm.s()), two.s(2).on_error(step_old_alarm.s())]
    return chord(parts, three.s() | last.s())


# ---- models

@flow
def training():
    """Chords in the header of a chord after a task, and a group at the end."""
    folds = [chord([train.s(fold, params={"rate": rate}) | evaluate.s() for rate in (0.1, 0.01)],
                   mean.s(name=f"fold {fold}")) for fold in (0, 1)]
    return split.s("data", folds=2) | chord(folds, best.s()) | group(deploy.s("eu"),
                                                                    deploy.s("us"))


# ---- bills

@flow
def alarm_with_a_default():
    """An error callback of one parameter and one with a default."""
    return make_bill.s(1).on_error(post.s()) | last.s()


@flow
def alarm_on_each_bill():
    """A group of chains that have an alarm, and a sum."""
    bills = [(make_bill.s(it) | log_bill.s()).on_error(bill_alarm.s()) for it in (1, 2)]
    return group(bills) | last.s()


# ---- shapes

@flow
def group_as_body():
    """A chord whose body is a group, and something after it."""
    return chord([one.s(1), two.s(2)], group(three.s(), four.s())) | last.s()


@flow
def sent_by_another_service():
    """A chain read from JSON, with an alarm on the whole."""
    text = json.dumps(chain(app.signature("step.one", args=[{"id": 1}]),
                            app.signature("step.two", kwargs={"deep": [1, None]}),
                            app.signature("step.last")))
    return Signature.from_dict(json.loads(text)).on_error(app.signature("step.alarm"))


@flow
def chains_as_callbacks():
    """A chain as a link and as an error callback."""
    first = one.s(1)
    first.link(two.s() | three.s())
    first.link_error(four.si() | five.si())
    return first | last.s()


@flow
def alarm_on_a_chord_in_a_chain():
    """An alarm on a chord with something before it and after it."""
    return one.s(1) | chord([two.s(), three.s()], four.s()).on_error(step_alarm.s()) | last.s()


@flow
def replaced():
    """A task that replaces itself by a chord."""
    return one.s(1) | fan.si(2) | last.s()


@flow
def group_of_one():
    """What a list of one gives."""
    return one.s(1) | group([two.s()]) | last.s()


@flow
def empty_group():
    """What an empty list gives."""
    return one.s(1) | group([]) | last.s()


@flow
def chord_with_options():
    """A chord with options and keywords of its own."""
    return chord([one.s(1), two.s(2)], three.s(x={"y": 1}), interval=1, max_retries=5,
                 kwargs={"z": 1})


@flow
def composed_of_parts():
    """Parts that are composed elsewhere."""
    head = one.s(1) | two.s()
    middle = group(three.s(), four.s()) | five.s()
    return (head | middle | six.s()) | (group(one.s(), two.s()) | last.s())


@flow
def alarm_on_a_body():
    """An alarm on a chord's body, at the end."""
    return chord([one.s(1), two.s(2)], three.s().on_error(step_alarm.s()))


@flow
def alarm_on_a_body_and_more():
    """The same with something after the chord."""
    return chord([one.s(1), two.s(2)], three.s().on_error(step_alarm.s())) | last.s()


@flow
def alarm_after_a_group():
    """A group, a task with an alarm, and one more task."""
    return group(one.s(1), two.s(2)) | three.s().on_error(step_alarm.s()) | last.s()


@flow
def old_alarm_after_a_group():
    """The same with an alarm that takes one parameter."""
    return group(one.s(1), two.s(2)) | three.s().on_error(step_old_alarm.s()) | last.s()


@flow
def mapped_in_chunks():
    """Chunks of calls as a group, and a task for all."""
    return add_two.chunks([(it, 1) for it in range(6)], 2).group() | last.s()


@flow
def chunks_alone():
    """Chunks as they are."""
    return add_two.chunks([(it, 1) for it in range(6)], 2)


# ---- the user guide's

@flow
def guide_chain():
    return chain(add_two.s(4, 4), multiply.s(8), multiply.s(10))


@flow
def guide_chord():
    return chord((import_contact.s({"name": it}) for it in "abc"), notify_complete.si("import"))


@flow
def guide_new_user():
    return create_user.s("artv", first="Art") | group(import_contacts.s(), send_welcome_email.s())


@flow
def guide_map():
    return xsum.map([list(range(10)), list(range(100))])


@flow
def guide_group_in_a_chain():
    return chain(add_two.s(4, 4), group(multiply.s(it) for it in range(3)), xsum.s(), add_two.s(1))


# ---- signatures that were started or stamped

@flow
def frozen():
    """A chord as it is left by a first start, which freezes its header and its body."""
    paid = chord([one.s(1), two.s(2)], three.s())
    paid.body.freeze()
    for number, member in enumerate(paid.tasks):
        member.freeze(chord=paid.body, group_index=number)
    paid.tasks = group(paid.tasks)
    paid.tasks.options.update(task_id="before", chord=paid.body, root_id=None, parent_id=None)
    return paid.set(task_id="before")


@flow
def stamped():
    """A chain with stamps, read from JSON as Celery 5.3 and later write it."""
    stamps = {"stamped_headers": ["tenant"], "tenant": "acme"}
    parts = [app.signature("step.one", args=[1], options=stamps),
             app.signature("step.two", options={**stamps, "stamps": {"tenant": ["acme"]}})]
    text = json.dumps(dict(chain(parts), options=stamps))
    return Signature.from_dict(json.loads(text))
