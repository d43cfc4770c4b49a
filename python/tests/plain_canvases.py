"""Canvases as Celery writes them, made without Celery."""


def s(name, *args, immutable=False, link=(), errors=(), **kwargs):
    """The signature of a task."""
    return {"task": name, "args": list(args), "kwargs": kwargs,
            "options": {"link": list(link), "link_error": list(errors)}, "subtask_type": None,
            "immutable": immutable}


def chain(*tasks):
    return {"task": "celery.chain", "args": [], "kwargs": {"tasks": list(tasks)}, "options": {},
            "subtask_type": "chain", "immutable": False}


def group(*tasks):
    return {**chain(*tasks), "task": "celery.group", "subtask_type": "group"}


def chord(header, body):
    return {**chain(), "task": "celery.chord", "subtask_type": "chord",
            "kwargs": {"header": list(header), "body": body}}
