"""Signatures as Celery writes them, of which canvases from chance are made."""


def call(name, *args, **kwargs):
    return {"task": name, "args": list(args), "kwargs": kwargs}


def whole(name, *args, **kwargs):
    """A call that takes no input."""
    return dict(call(name, *args, **kwargs), immutable=True)


def primitive(kind, **kwargs):
    return {"task": "celery." + kind, "subtask_type": kind, "kwargs": kwargs}


def chain(*parts):
    return primitive("chain", tasks=list(parts))


def group(*parts):
    return primitive("group", tasks=list(parts))


def chord(header, body):
    return primitive("chord", header=header, body=body)


def summed():
    return call("tasks.xsum")
