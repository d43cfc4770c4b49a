"""Fourteen flows as users of Celery write them, with tasks that do a little of what such tasks do.

Each call is noted: in CALLS, or in a Redis if EVERYDAY_REDIS has its URL, as for a worker. FAILS,
or `fails` in that Redis, says which calls fail: a call, as call_of() writes it, and an exception.
"""

import functools
import inspect
import json
import os
import re

from celery import Celery, chain, chord, group

URL = os.environ.get("EVERYDAY_REDIS")
app = Celery("everyday_flows", broker=URL or "memory://", backend=URL or "cache+memory://",
             set_as_current=bool(URL))
app.conf.update(task_default_queue="everyday", task_acks_late=True, strict_typing=False,
                worker_prefetch_multiplier=1, broker_connection_retry_on_startup=True)
CALLS, FAILS = [], {}
if URL:
    from places import client_of
    store = client_of(URL)


class OutOfStock(Exception):
    pass


class Boom(Exception):
    pass


ERRORS = {"Boom": Boom, "OutOfStock": OutOfStock, "ConnectionError": ConnectionError}
UUID = re.compile("[0-9a-f]{8}-[0-9a-f]{4}-[0-9a-f]{4}-[0-9a-f]{4}-[0-9a-f]{12}")


def shown(it):
    """An argument as JSON; of what an error callback gets, what is the same in each run."""
    if hasattr(it, "delivery_info"):
        return ["request", "id"]
    if isinstance(it, BaseException):
        return ["exception", type(it).__name__]
    if isinstance(it, str) and (UUID.fullmatch(it) or it.startswith("Traceback")):
        return "id" if UUID.fullmatch(it) else "traceback"
    if isinstance(it, dict):
        return {str(key): shown(one) for key, one in it.items()}
    return [shown(one) for one in it] if isinstance(it, (list, tuple)) else it


def ids_of(args):
    """The identifiers of tasks in the arguments of an error callback."""
    return [it if isinstance(it, str) else it.id for it in args
            if hasattr(it, "delivery_info") or isinstance(it, str) and UUID.fullmatch(it)]


def call_of(name, args, kwargs):
    """A call as a text."""
    return json.dumps([name, shown(args), shown(kwargs)], sort_keys=True, default=str)


def task(name, **options):
    """A task of the application whose calls are noted, and fail if that is wanted."""
    def made(function):
        @functools.wraps(function)
        def called(*args, **kwargs):
            own, request = (args[1:], args[0].request) if options.get("bind") else \
                (args, called.task.request)
            call = call_of(name, own, kwargs)
            note = json.dumps([call, request.id, request.retries or 0, ids_of(own)])
            if URL:
                store.rpush("calls", note)
                fails = (store.hget("fails", call) or b"").decode()
            else:
                CALLS.append(note)
                fails = FAILS.get(call)
            if fails:
                raise ERRORS[fails](f"{name} fails")
            return function(*args, **kwargs)
        called.__signature__ = inspect.signature(function)  # Celery looks at an error callback's
        called.task = app.task(name=name, shared=False, lazy=False, **options)(called)
        return called.task
    return made


# 1 An order is charged and shipped side by side; a refund is called with request, exception and
# traceback.
@task("shop.find")
def find(number):
    return {"number": number, "item": "lamp", "price": 9.5, "gift": None}


@task("shop.charge")
def charge(order, card, currency="EUR"):
    return {"paid": order["price"] * 2, "card": card[-4:], "currency": currency}


@task("shop.ship", throws=(OutOfStock,))
def ship(order, express=False):
    return [order["item"], express]


@task("shop.refund")
def refund(request, exc, traceback):
    return f"refund after {type(exc).__name__}"


@task("shop.invoice")
def invoice(parts, copies):
    return {"paid": parts[0]["paid"], "parcel": parts[1], "copies": copies}


@task("shop.thank")
def thank(paper, language):
    return f"{language}: {paper['copies']}"


def order():
    shipped = ship.s(express=True).on_error(refund.s())
    paid = chord([charge.s("4242 4242"), shipped], invoice.s(copies=2))
    return find.s(4711) | paid | thank.s("en")


# 2 Two sizes of a film and a picture, each by a chain of its own; then it is published, with links.
@task("film.fetch")
def fetch(path):
    return {"path": path, "seconds": 61.5}


@task("film.encode")
def encode(film, height):
    return f"{film['path']}@{height}"


@task("film.still")
def still(film, at):
    return f"{film['path']}#{at}"


@task("film.shrink")
def shrink(path):
    return path + ".small"


@task("film.upload")
def upload(path, bucket="films"):
    return {"url": f"s3://{bucket}/{path}"}


@task("film.publish")
def publish(places):
    return sorted(it["url"] for it in places)


@task("film.tell", ignore_result=True)
def tell(urls, who):
    return f"{who}: {len(urls)}"


def media():
    sizes = [encode.s(it) | upload.s() for it in (480, 1080)]
    picture = still.s(12.5) | shrink.s() | upload.s(bucket="stills")
    done = publish.s().set(link=[tell.s("team"), tell.s("press")])
    return fetch.s("in.mov") | chord([*sizes, picture], done)


# 3 Billing, by a chain for each customer, with an alarm that takes an identifier; a summary.
@task("bill.make")
def bill(customer, day=None):
    return {"customer": customer, "sum": customer * 10.25, "day": day}


@task("bill.take")
def take(made, account):
    return {**made, "taken": True, "account": account}


@task("bill.log")
def log(made):
    return made["sum"]


@task("bill.send")
def send(made, mail=None):
    return f"sent {made['sum']} to {mail}"


@task("bill.alarm")
def alarm(uuid):
    return "alarm"


@task("bill.summary")
def summary(sent):
    return len(sent)


def billing():
    def one(customer):
        taken = take.s("DE00").set(link=log.s(), queue="everyday")
        return (bill.s(customer, day="2026-11-29") | taken
                | send.s(mail=f"{customer}@example.org")).on_error(alarm.s())
    return chord([one(7), one(8)], summary.s().on_error(alarm.s()))


# 4 Rows are cleaned, loaded and counted.
@task("etl.clean")
def clean(row, unit):
    return {"row": row, "unit": unit}


@task("etl.load")
def load(chunks, table):
    return {"table": table, "rows": sum(len(it) if isinstance(it, list) else 1 for it in chunks)}


@task("etl.vacuum")
def vacuum(table, full):
    return full


def etl():
    rows = [({"id": 1}, "kg"), ({"id": 2}, "kg"), ({"id": 3}, "t")]
    loaded = chord([clean.s(*row) for row in rows], load.s("weights"))
    return chain(loaded, vacuum.si("weights", True))


# 5 Words are counted in each text, and the counts are merged.
@task("words.count")
def count(text):
    return {word: text.split().count(word) for word in set(text.split())}


@task("words.merge")
def merge(counts):
    found = sorted({word for it in counts for word in it})
    return {word: sum(it.get(word, 0) for it in counts) for word in found}


@task("words.top")
def top(counts, most):
    return sorted(counts, key=lambda it: (-counts[it], it))[:most]


def words():
    return group(count.s(text) for text in ("a b a", "b c", "c c c")) | merge.s() | top.s(2)


# 6 Pages are fetched, with retries: the second one comes at the third try.
@task("web.get", bind=True, autoretry_for=(ConnectionError,), max_retries=2, default_retry_delay=0,
      retry_kwargs={"countdown": 0})
def get(self, page):
    if page == "/b" and self.request.retries < 2:
        raise ConnectionError(page)
    return {"page": page, "tries": self.request.retries}


@task("web.put", bind=True, max_retries=1)
def put(self, pages, index):
    try:
        if self.request.retries == 0:
            raise OSError("disk")
    except OSError as error:
        raise self.retry(exc=error, countdown=0)
    return {it["page"]: it["tries"] for it in pages}


def crawl():
    return group(get.s(it) for it in ("/a", "/b", "/c")) | put.s(index="main")


# 7 A campaign that ends in a group.
@task("mail.segment")
def segment(campaign):
    return {"name": campaign, "people": ["ann", "bob"]}


@task("mail.send")
def mail(parted, which, subject=""):
    return f"{subject} {parted['people'][which]}"


@task("mail.bounce")
def bounce(uuid):
    return "bounced"


def campaign():
    mails = [mail.s(it, subject="Hi").on_error(bounce.s()) for it in (0, 1)]
    return segment.s("spring") | group(mails)


# 8 Models are trained, the best is chosen and deployed, and rolled back if that fails.
@task("ml.load")
def read(source):
    return [[1, 2.5], [2, 4.5]]


@task("ml.train")
def train(rows, model, **parameters):
    return {"model": model, "loss": len(model) * 0.5, "parameters": parameters}


@task("ml.choose")
def choose(models, by="loss"):
    return min(models, key=lambda it: it[by])


@task("ml.deploy")
def deploy(model, where):
    return f"{model['model']} on {where}"


@task("ml.rollback")
def rollback(request, exc, traceback, where):
    return f"rolled back {where}"


def learning():
    models = [train.s("tree", depth=3), train.s("net", layers=[8, 8]), train.s("mean")]
    return (read.s("s3://rows") | group(models) | choose.s(by="loss")
            | deploy.s("prod").on_error(rollback.s("prod")))


# 9 A report of shops: a chord in a chord, and a page.
@task("report.sold")
def sold(shop, half):
    return ord(shop) + half / 2


@task("report.sum")
def added(numbers):
    return sum(numbers)


@task("report.page")
def page(total, title):
    return f"<h1>{title}: {total}</h1>"


def report():
    each = [chord([sold.s(shop, half) for half in (1, 2)], added.s()) for shop in "xy"]
    return chord(each, added.s()) | page.s("Sold")


# 10 A sign-up of immutable tasks, with links on the first.
@task("user.create")
def create(mail, plan=None):
    return {"id": 17, "mail": mail}


@task("user.welcome")
def welcome(mail):
    return True


@task("user.crm")
def crm(user, source):
    return [user["id"], source]


@task("user.trial")
def trial(days):
    return days


def signup():
    made = create.s("a@example.org", plan={"name": "pro", "seats": 5})
    made.link(crm.s("web"))
    made.link(welcome.si("a@example.org"))
    return made | trial.si(14) | welcome.si("b@example.org")


# 11 A transfer between two banks, which is undone if a part fails.
@task("bank.reserve")
def reserve(amount, account):
    return {"hold": amount, "account": account}


@task("bank.debit")
def debit(hold):
    return hold["hold"]


@task("bank.credit")
def credit(amount, account):
    return {"amount": amount, "account": account}


@task("bank.undo")
def undo(request, exc, traceback, account):
    return f"undone {account}"


@task("bank.tell", bind=True)
def told(self, uuid, account):
    return f"told {account}"


def transfer():
    return (reserve.s(99.9, "A") | debit.s().on_error(undo.s("A"))
            | credit.s("B").on_error(undo.s("A")).on_error(undo.s("B")).on_error(told.s("B")))


# 12 Pictures: a group in a group, and a chain of one.
@task("pic.thumb")
def thumb(picture, size):
    return [picture, size]


@task("pic.zip")
def packed(thumbs):
    return len(thumbs)


def pictures():
    sizes = [group([thumb.s(it, size) for size in (64, 128)]) for it in ("a.png", "b.png")]
    return chord(group(sizes), packed.s())


# 13 An import: a chain in a chain, two chords, and an empty list among the results.
@task("imp.list")
def listed(path):
    return []


@task("imp.check")
def checked(files, kind):
    return {"kind": kind, "files": files}


@task("imp.store")
def stored(parts, *, table):
    return [it["kind"] for it in parts] + [table]


def imports():
    first = listed.s("/in") | group(checked.s("csv"), checked.s("xml")) | stored.s(table="t")
    second = group(checked.s("x"), checked.s("y")) | stored.s(table="u")
    return first | chain(checked.s("all"), second)


# 14 A webhook: an error callback with a link, and a task that fails.
@task("hook.post")
def post(url, body):
    return {"url": url, "status": 200}


@task("hook.note")
def note(uuid):
    return 1


@task("hook.count")
def counted(so_far, by):
    return so_far + by


@task("hook.wrong")
def wrong(given):
    return given["no such key"]


def webhook():
    noted = note.s().set(link=counted.s(10))
    return group(post.s("https://a", {"x": [1.5, None]}).on_error(noted),
                 post.s("https://b", {}) | wrong.s().on_error(note.s()) | counted.s(1))


FLOWS = {it.__name__: it for it in (order, media, billing, etl, words, crawl, campaign, learning,
                                    report, signup, transfer, pictures, imports, webhook)}
