"""Tasks as users of Celery write them: keyword-only parameters, bound tasks, classes of their own,
and error callbacks of each kind. `started.py` runs them on real workers, with the Redis that
$CANVAS_REDIS names. Nobody calls them in the other tests."""

import json
import os

from celery import Celery, Task, group, shared_task
from kombu.utils.json import dumps

REDIS = os.environ.get("CANVAS_REDIS", "redis://127.0.0.1:1/0")


class OutOfStock(Exception):
    """What a task fails with."""


def is_to_fail(told, name, args, kwargs):
    """Whether a call is the one that is to fail: of the task of that name; and if several tasks
    have it, of the one with these arguments of its own, which come after the input."""
    if told["name"] != name:
        return False
    if "args" not in told:
        return True
    own = told["args"]
    args, kwargs = json.loads(dumps([args, kwargs]))
    return kwargs == told["kwargs"] and args[len(args) - len(own):] == own


class Noted(Task):
    """Notes each call that fits the task's parameters in Redis, and fails if Redis says so. Celery's
    own tasks, such as that of a map, are of this class too, and aren't noted."""

    abstract = True

    def __call__(self, *args, **kwargs):
        if "CANVAS_REDIS" not in os.environ:
            raise AssertionError("a task was called")
        from places import client_of
        store = client_of(REDIS)
        self.__header__(*args, **kwargs)
        if not self.name.startswith("celery."):
            store.rpush("called", self.name)
        told = store.get("fails")
        if told is not None and is_to_fail(json.loads(told), self.name, args, kwargs):
            raise OutOfStock(self.name)
        return self.run(*args, **kwargs)


class Tenant(Noted):
    """A class of a user's own, with something to do at a failure."""

    abstract = True
    tenant = "acme"

    def on_failure(self, exc, task_id, args, kwargs, einfo):
        self.tenant = "none"


app = Celery("user_tasks", broker=REDIS, backend=REDIS, task_cls=Noted)
app.conf.update(task_default_queue="users", result_extended=True,
                broker_connection_retry_on_startup=True)


# ---- a shop

@app.task(name="shop.find")
def find(number):
    return {"number": number, "sum": 19.5}


@app.task(name="shop.charge", bind=True)
def charge(self, order, *, card, amount=None):
    return {**order, "card": card}


@app.task(name="shop.ship", base=Tenant, acks_late=True)
def ship(order, item=None, express=False):
    return {"parcel": item, "weight": 0.5}


@app.task(name="shop.invoice")
def invoice(parts, copies=1):
    return {"parts": len(parts), "copies": copies}


@app.task(name="shop.thank")
def thank(invoice, lang="en"):
    return lang


@app.task(name="shop.refund")
def refund(uuid):
    return None


@app.task(name="shop.alarm")
def alarm(request, exc, traceback):
    return None


@app.task(name="shop.post")
def post(uuid, channel="#ops"):
    return None


@app.task(name="shop.sold")
def sold(shop, half):
    return 4


@app.task(name="shop.sum")
def sum_of_shop(counts):
    return sum(counts)


@app.task(name="shop.reserve")
def reserve(*, order, items):
    return {"order": order}


# ---- films

@app.task(name="film.fetch")
def fetch(url):
    return "/tmp/in.mov"


@app.task(name="film.probe", bind=True)
def probe(self, path):
    return {"path": path, "rate": 23.976}


@app.task(name="film.encode", autoretry_for=(ConnectionError,), max_retries=1)
def encode(path, height=480, crf=23.5):
    return "film.mp4"


@app.task(name="film.still")
def still(film, name, at=12.5):
    return "still.png"


@app.task(name="film.shrink")
def shrink(picture):
    return picture


@app.task(name="film.upload")
def upload(path, *, bucket="films", acl=None):
    return {"url": f"s3://{bucket}/{path}"}


@app.task(name="film.publish")
def publish(urls, title=None):
    return {"id": 17, "urls": urls}


@app.task(name="film.mail")
def mail(film, to):
    return True


@app.task(name="film.clean")
def clean(request, exc, traceback):
    return None


# ---- what is counted at night

@app.task(name="night.count")
def count(region, day=None):
    return 3


@shared_task(name="night.add")
def add(counts):
    return 9


@app.task(name="night.send", ignore_result=False)
def send(total, to=()):
    return {"total": total}


@app.task(name="night.log")
def log(total):
    return None


@app.task(name="report.count")
def count_for_report(region, *, day):
    return 7


@app.task(name="report.add")
def add_for_report(counts):
    return sum(counts)


@app.task(name="report.sum")
def sum_for_report(sums):
    return sum(sums)


@app.task(name="report.send")
def send_report(total, *, to):
    return None


# ---- bills

@app.task(name="bill.make")
def make_bill(what):
    return {"bill": what}


@app.task(name="bill.take")
def take_money(bill, amount):
    return amount


@app.task(name="bill.log")
def log_bill(amount):
    return None


@app.task(name="bill.send")
def send_bill(amount, *, mail):
    return None


@app.task(name="bill.alarm")
def bill_alarm(failed):
    return None


# ---- models

@app.task(name="model.split")
def split(data, folds=2):
    return {"folds": folds}


@app.task(name="model.train")
def train(data, fold, params=None):
    return {"fold": fold}


@app.task(name="model.evaluate")
def evaluate(model):
    return 0.93


@app.task(name="model.mean")
def mean(scores, name=None):
    return 0.93


@app.task(name="model.best")
def best(scores):
    return {"best": 1}


@app.task(name="model.deploy")
def deploy(model, region):
    return region


# ---- steps that take anything

def step(name):
    @app.task(name=name)
    def run(*args, **kwargs):
        return {"did": name}
    return run


one, two, three, four, five, six, last = map(
    step, ("step.one", "step.two", "step.three", "step.four", "step.five", "step.six", "step.last"))


@app.task(name="step.alarm")
def step_alarm(request, exc, traceback):
    return None


@app.task(name="step.old_alarm")
def step_old_alarm(failed):
    return None


@app.task(name="step.fan", bind=True)
def fan(self, count):
    """A task that is replaced by a chord."""
    return self.replace(group(two.si() for _ in range(count)) | three.s())


# ---- the examples of Celery's user guide

@app.task(name="guide.add")
def add_two(x, y):
    return x + y


@app.task(name="guide.mul")
def multiply(x, y):
    return x * y


@app.task(name="guide.xsum")
def xsum(numbers):
    return sum(numbers)


@app.task(name="guide.create_user")
def create_user(name, **about):
    return {"name": name}


@app.task(name="guide.import_contacts")
def import_contacts(user):
    return 3


@app.task(name="guide.send_welcome_email")
def send_welcome_email(user):
    return True


@app.task(name="guide.import_contact")
def import_contact(contact):
    return 1


@app.task(name="guide.notify_complete")
def notify_complete(name):
    return None
