"""Options of signatures that a start heeds, over a Redis in a dictionary."""

import base64
import contextlib
import datetime
import json
import random
import sys
import unittest
from pathlib import Path
from types import SimpleNamespace

HERE = Path(__file__).resolve().parent
sys.path[:0] = [str(HERE.parent / "src"), str(HERE)]

from fake_redis import App, RedisBackend, Server, messages
from bevtragi import BadCall, CanvasError, NotEnded, Refused as CanvasRefused, StartedBefore, start
from test_start import NUMBER, Silent, chain, chord, group, task

#: One of each kind.
EVERY = {"argsrepr": "(..)", "countdown": 0.5, "eta": "2036-11-30T12:00:00+01:00", "expires": 60,
         "headers": {"own": {"id": 1}}, "ignore_result": True, "kwargsrepr": "{..}", "priority": 4,
         "queue": "bank", "shadow": "ship", "soft_time_limit": 5, "time_limit": 7.5}
LATER = {"compression": "gzip", "delivery_mode": 1, "exchange": "e", "retry": True,
         "retry_policy": {"max_retries": 1}, "routing_key": "r", "serializer": "json"}
#: Arguments that look like signatures with options.
LOOKALIKE = {"task": "x", "args": [], "kwargs": {}, "subtask_type": None,
             "options": {"task_id": f"{NUMBER}00000001", "countdown": 3}}


def at(text):
    return datetime.datetime.fromisoformat(text)


def left(text):
    """The seconds from now to a moment."""
    return (at(text) - datetime.datetime.now(datetime.timezone.utc)).total_seconds()


class Firsts(Silent):
    """The messages of first tasks."""

    def sent(self, key="celery", **options):
        server = Server()
        start(task("shop.a", 1, **options), client=server.client())
        (headers, properties, _), = messages(server.client(), key)
        return headers, properties

    def test_options_are_headers(self):
        headers, properties = self.sent()
        self.assertEqual({*headers}, {"group", "group_index", "id", "lang", "parent_id", "root_id",
                                      "task"})
        for name in ("argsrepr", "ignore_result", "kwargsrepr", "shadow"):
            found = self.sent(**{name: EVERY[name]})
            self.assertEqual((found[0].pop(name), {*found[0]}), (EVERY[name], {*headers}))
            self.assertEqual({*found[1]}, {*properties})
        self.assertEqual(self.sent(time_limit=7.5)[0]["timelimit"], [7.5, None])
        self.assertEqual(self.sent(soft_time_limit=5)[0]["timelimit"], [None, 5])
        self.assertEqual(self.sent(soft_time_limit=5, time_limit=7)[0]["timelimit"], [7, 5])
        self.assertEqual(self.sent(headers={"own": [1]})[0]["own"], [1])

    def test_countdown_and_eta(self):
        self.assertAlmostEqual(left(self.sent(countdown=600)[0]["eta"]), 600, delta=60)
        for name in ("eta", "expires"):
            for value, text in (("2036-11-30T12:00:00+01:00", "2036-11-30T12:00:00+01:00"),
                                ("2036-11-30T12:00:00.500Z", "2036-11-30T12:00:00.500000+00:00"),
                                ("2036-11-30T12:00:00", "2036-11-30T12:00:00"),
                                ({"__type__": "datetime", "__value__": "2036-11-30T12:00:00"},
                                 "2036-11-30T12:00:00")):
                self.assertEqual(self.sent(**{name: value})[0][name], text)
        self.assertAlmostEqual(left(self.sent(countdown=5, eta=EVERY["eta"])[0]["eta"]), 5, delta=4)
        self.assertEqual(self.sent(countdown=0, eta=EVERY["eta"])[0]["eta"], EVERY["eta"])
        self.assertNotIn("eta", self.sent(countdown=0)[0])

    def test_expires(self):
        headers, properties = self.sent(expires=600)
        self.assertAlmostEqual(left(headers["expires"]), 600, delta=60)
        self.assertEqual(properties["expiration"], "600000")
        self.assertEqual(self.sent(expires=-5)[1]["expiration"], "0")
        self.assertEqual(self.sent(expires="2020-11-30T12:00:00")[1]["expiration"], "0")
        self.assertGreater(int(self.sent(expires="2036-11-30T12:00:00")[1]["expiration"]), 10 ** 9)

    def test_a_priority_has_its_own_list(self):
        for priority, suffix in ((0, ""), (2, ""), (3, "3"), (5, "3"), (9, "9"), (20, "9"), (-4, "")):
            key = f"celery\x06\x16{suffix}" if suffix else "celery"
            self.assertEqual(self.sent(key, priority=priority)[1]["priority"], priority)
        client = Server().client()
        app = App(backend=RedisBackend(client), before="own_", broker=client,
                  broker_transport_options={"priority_steps": [0, 5], "sep": ":"})
        start(task("shop.a", priority=7), app)
        self.assertEqual([*client.keys][-1:], ["own_orders:5"])

    def test_the_queue(self):
        properties = self.sent("bank", queue="bank")[1]
        self.assertEqual(properties["delivery_info"]["routing_key"], "bank")
        server = Server()
        start(task("shop.a", queue="bank"), client=server.client(), queue="other")
        self.assertEqual(messages(server.client(), "other")[0][1]["delivery_info"]["routing_key"],
                         "other")

    def test_options_of_classes_and_routes(self):
        own = SimpleNamespace(run=print, expires=300, priority=7, queue="slow", time_limit=9,
                              soft_time_limit=None, ignore_result=True)
        asked, server = [], Server()
        app = App(server, tasks={"shop.a": own})
        inner = app.amqp.router.route
        app.amqp.router.route = lambda *words: asked.append(words) or {
            **inner(*words), "headers": {"routed": 1}}
        start(task("shop.a", [2], kwargs={"k": None}), app)
        (headers, properties, _), = messages(server.client(), "slow\x06\x166")
        self.assertEqual((headers["timelimit"], headers["routed"]), ([9, None], 1))
        self.assertTrue(headers["ignore_result"] and left(headers["expires"]) > 200)
        self.assertEqual((properties["priority"], properties["delivery_info"]["routing_key"]),
                         (7, "slow"))
        self.assertEqual(asked, [({"priority": 7, "queue": "slow"}, "shop.a", [[2]], {"k": None}, own)])
        start(task("shop.a", priority=1, queue="quick", expires=5, time_limit=2), app)
        (headers, properties, _), = messages(server.client(), "quick")
        self.assertEqual((headers["timelimit"], properties["priority"]), ([2, None], 1))
        self.assertLess(left(headers["expires"]), 6)

    def test_several_lists_get_all_or_nothing(self):
        flow = chord([task("shop.a", 1, queue="one"), task("shop.a", 2), task("shop.a", 3, priority=9),
                      task("shop.a", 4, queue="one")], task("shop.b"))
        for broken in ("one", "celery", "celery\x06\x169"):
            server = Server()
            server.databases[0] = {broken: "a text"}
            with self.assertRaisesRegex(CanvasError, "is no list"):
                start(flow, client=server.client())
            self.assertEqual(server.databases, {0: {broken: "a text"}})
        server = Server()
        start(flow, client=server.client(), number=NUMBER)
        found = {key: [it[2][0] for it in messages(server.client(), key)]
                 for key, it in server.client().keys.items() if isinstance(it, list)}
        self.assertEqual(found, {"one": [[1], [4]], "celery": [[2]], "celery\x06\x169": [[3]]})
        for key in found:
            (_, properties, _), *_ = messages(server.client(), key)
            self.assertEqual(properties["delivery_info"]["routing_key"], key.split("\x06")[0])
        sizes = [it for key, it in server.client().keys.items() if key.endswith(".s")]
        self.assertEqual(sizes, ["4"])
        before = json.dumps(server.databases)
        with self.assertRaises(StartedBefore):
            start(flow, client=server.client(), number=NUMBER)
        self.assertEqual(json.dumps(server.databases), before)


def bare(message):
    """A message without its options."""
    headers, properties, body = json.loads(json.dumps(message))
    for name in (*EVERY, "own", "timelimit"):
        headers.pop(name, None)
    properties.pop("expiration", None)
    properties["priority"] = 0
    properties["delivery_info"]["routing_key"] = "celery"
    parts = body[2]
    for it in [parts["chord"], *(it for key in ("callbacks", "chain", "errbacks")
                                 for it in parts[key] or ())]:
        strip(it)
    return headers, properties, body


def strip(sig):
    """Takes the options off a frozen signature."""
    if not isinstance(sig, dict):
        return
    for key in (*EVERY, *LATER):
        sig["options"].pop(key, None)
    inner = sig["kwargs"] if sig["subtask_type"] else {}
    for found in [inner.get("tasks"), inner.get("header"), inner.get("body"), sig["options"].get("chord"),
                  *(sig["options"].get(key) for key in ("chain", "link", "link_error"))]:
        for it in found if isinstance(found, list) else [found]:
            strip(it)


def frozen(sig, found):
    """The options of each frozen signature, by the name of its task."""
    if isinstance(sig, list):
        for it in sig:
            frozen(it, found)
    elif isinstance(sig, dict):
        if "task" in sig and not sig.get("subtask_type"):
            found.setdefault(sig["task"], sig["options"])
        for it in sig.values():
            frozen(it, found)
    return found


class Laters(Silent):
    """The frozen signatures of tasks that come later."""

    def test_options_travel_with_each_task(self):
        def own(name, **more):
            return task(name, name, **{**EVERY, **LATER, "countdown": float(len(name)), **more})
        alarm = own("alarm", link=[own("after")])
        flow = chain(task("a", link=[own("link", link=[own("deeper")])], link_error=[alarm]),
                     own("next"), chord([own("m"), chain(own("n"), own("nn"))],
                                        chain(own("body"), own("bodys"))), group(own("x"), own("yyyy")))
        client = Server().client()
        run = start(flow, client=client)
        (_, _, body), = messages(client)
        found = frozen(body[2], {})
        self.assertEqual({*found}, {"link", "deeper", "alarm", "after", "next", "m", "n", "nn", "body",
                                    "bodys", "x", "yyyy"})
        for name, options in found.items():
            wanted = {**EVERY, **LATER, "countdown": float(len(name))}
            if name == "body":
                wanted.pop("priority")
            self.assertEqual({key: options.get(key) for key in wanted}, wanted, name)
        self.assertEqual(run.ignored, ["priority of 1 signature"])

    def test_the_body_of_first_members_has_its_options(self):
        client = Server().client()
        run = start(chord([task("a"), task("b", countdown=3)], chain(task("c", **EVERY), task("d", expires=9))),
                    client=client)
        for headers, _, body in messages(client):
            found = frozen(body[2], {})
            self.assertEqual({key: found["c"][key] for key in EVERY}, EVERY)
            self.assertEqual(found["d"]["expires"], 9)
            self.assertEqual("eta" in headers, headers["task"] == "b")
        self.assertEqual(run.ignored, [])

    def test_taking_the_options_out_gives_the_message_of_the_program(self):
        chance, tried = random.Random(4711), 0
        while tried < 25:
            flow = self.canvas(chance, 3)
            plain = json.loads(json.dumps(flow))
            self.take_off(plain)
            with contextlib.suppress(CanvasRefused):  # a group in a chord's member
                self.assertEqual([bare(it) for it in self.sent(flow)], self.sent(plain))
                tried += 1

    def sent(self, flow):
        """The messages in all lists, in the order of their tasks."""
        client = Server().client()
        start(flow, client=client, number=NUMBER)
        return sorted((it for key, texts in client.keys.items() if isinstance(texts, list)
                       for it in messages(client, key)), key=lambda it: it[0]["id"])

    def canvas(self, chance, deep):
        kind = chance.choice(["task", "chain", "group", "chord"]) if deep else "task"
        if kind == "task":
            options = {key: it for key, it in EVERY.items() if chance.random() < 0.3}
            if deep:
                for key in ("link", "link_error"):
                    options.update({key: [self.canvas(chance, 0)]} if chance.random() < 0.3 else {})
            return task(chance.choice("abc"), 1.5, LOOKALIKE, kwargs={"k": LOOKALIKE}, **options)
        inner = [self.canvas(chance, deep - 1) for _ in range(chance.randrange(1, 4))]
        if kind == "chord":
            return chord(inner, self.canvas(chance, deep - 1))
        return (chain if kind == "chain" else group)(*inner)

    def take_off(self, sig):
        """Takes the options off a canvas."""
        if isinstance(sig, list):
            for it in sig:
                self.take_off(it)
        elif isinstance(sig, dict):
            options = sig.get("options", {})
            for key in EVERY:
                options.pop(key, None)
            inner = sig["kwargs"] if sig["task"].startswith("celery.") else {}
            for it in [*options.values(), *inner.values()]:
                self.take_off(it)


class Refused(Silent):
    """Options of another kind, and those that aren't heeded."""

    def test_another_kind_is_a_sentence(self):
        seconds = "a number of seconds below 10.10"
        for name, value, kind in (
                ("countdown", "10", seconds), ("countdown", True, seconds), ("countdown", 1e10, seconds),
                ("expires", -10 ** 11, f"{seconds}, or a date and time"),
                ("eta", 10, "a date and time"), ("eta", "soon", "a date and time"),
                ("eta", {"__type__": "date", "__value__": "2036-11-30"}, "a date and time"),
                ("expires", "soon", f"{seconds}, or a date and time"),
                ("expires", [], f"{seconds}, or a date and time"),
                ("priority", 1.5, "a whole number"), ("priority", "high", "a whole number"),
                ("queue", "", "the name of a queue"), ("queue", {"name": "x"}, "the name of a queue"),
                ("headers", ["x"], "a dictionary"), ("time_limit", "1", seconds),
                ("soft_time_limit", [1], seconds), ("ignore_result", 1, "true or false"),
                ("shadow", 7, "a text"), ("argsrepr", [], "a text"), ("kwargsrepr", {}, "a text")):
            client = Server().client()
            for flow, whose in ((task("shop.a", **{name: value}), "#1 shop.a"),
                                (chain(task("shop.a"), task("b", **{name: value})), "#2 b")):
                with self.assertRaisesRegex(BadCall, f"^{name} of {whose} is {kind}, not "):
                    start(flow, client=client)
            self.assertEqual(client.server.databases, {})

    def test_none_is_no_option(self):
        client = Server().client()
        flow = chain(task("a", **dict.fromkeys(EVERY)), task("b", **dict.fromkeys(EVERY)))
        self.assertEqual(start(flow, client=client).ignored, [])
        (headers, _, body), = messages(client)
        self.assertNotIn("eta", headers)
        self.assertEqual({*body[2]["chain"][0]["options"]}, {"task_id"})

    def test_headers_of_the_message_are_its_own(self):
        client = Server().client()
        own = {"id": "x", "task": "y", "lang": "z", "root_id": 1, "parent_id": 2, "group": 3,
               "group_index": 4}
        run = start(chain(task("a", headers={**own, "mine": 1}), task("b", headers={**own, "mine": 2})),
                    client=client, number=NUMBER)
        (headers, _, body), = messages(client)
        self.assertEqual((headers["task"], headers["mine"], headers["id"][-8:]), ("a", 1, "00000001"))
        self.assertEqual(body[2]["chain"][0]["options"]["headers"], {"mine": 2})
        self.assertEqual(run.ignored, ["headers of 2 signatures"])

    def test_a_date_that_a_later_task_expires_at(self):
        client, date = Server().client(), {"__type__": "datetime", "__value__": "2036-11-30T12:00:00"}
        flow = chain(task("a"), task("b", expires="2036-11-30T12:00:00"), task("c", expires=date),
                     task("d", expires=60))
        self.assertEqual(start(flow, client=client).ignored, ["expires of 1 signature"])
        found = frozen(messages(client)[0][2][2], {})
        self.assertEqual([found[it].get("expires") for it in "bcd"], [None, date, 60])

    def test_bodies_whose_priority_is_forgotten(self):
        def one(name):
            return task(name, priority=1)
        forgotten = (chain(one("a"), chord([one("b")], one("c"))),
                     chain(one("a"), group(one("b"), one("b")), one("c")),
                     chain(one("a"), group(chord([one("b")], one("c")), one("d"))),
                     chord([chain(one("a"), chord([one("b")], one("c"))), one("d")], one("e")))
        heeded = (chord([one("a")], one("b")), chain(group(one("a"), one("b")), one("c")),
                  chord([chord([one("a")], one("b")), one("c")], one("d")),
                  chord([one("a")], chord([one("b")], one("c"))),
                  chain(one("a"), chord([one("b")], group(one("c"), one("d")))))
        for flows, told in ((forgotten, ["priority of 1 signature"]), (heeded, [])):
            for flow in flows:
                self.assertEqual(start(flow, client=Server().client()).ignored, told, flow)


class Runs(Silent):
    """What a Run knows of options."""

    def test_a_task_that_waits_is_named_with_its_option(self):
        for options, shown in (({"countdown": 600}, " (countdown=600)"), ({"countdown": 0}, ""),
                               ({"eta": "2036-11-30T12:00:00Z"}, " (eta=2036-11-30 12:00:00+00:00)"),
                               ({"expires": 600}, "")):
            run = start(task("shop.a", **options), client=Server().client())
            self.assertEqual(run.report().due(), [f"#1 shop.a{shown}"])
            with self.assertRaisesRegex(NotEnded, "waits for #1 shop.a"):
                run.wait(0)

    def test_queues_are_named(self):
        run = start(group(task("a", queue="one"), task("b", queue="two"), task("c", queue="one")),
                    client=Server().client())
        with self.assertRaisesRegex(NotEnded, "from the queue one, two or that of their route"):
            run.wait(0)

    def test_a_result_that_is_ignored_is_not_waited_for(self):
        client = Server().client()
        run = start(chain(task("a", ignore_result=True), task("b")), client=client)
        self.assertEqual(run.report().silent, {1: "its results are ignored"})
        client.keys[run.keys[1]] = json.dumps(
            {"status": "SUCCESS", "task_id": run.keys[1][-36:], "result": 5})
        self.assertEqual(run.wait(1).ran, ["a", "b"])

    def test_an_expired_task_failed_and_was_not_called(self):
        for why, ran in (("expired", []), ("revoked", []), ("terminated", ["a"])):
            client = Server().client()
            run = start(chain(task("a", expires=5), task("b")), client=client)
            client.keys[run.keys[0]] = json.dumps(
                {"status": "REVOKED", "task_id": run.keys[0][-36:],
                 "result": {"exc_type": "TaskRevokedError", "exc_message": [why]}})
            report = run.wait(1)
            self.assertEqual((report.failed, report.ran, report[2].due_to), (["a", "b"], ran, 1))
            self.assertEqual(str(report[1]), "#1 a FAILURE TaskRevokedError" + " (not called)" * (not ran))


class Unchanged(Silent):
    def test_messages_without_options_are_those_of_the_program(self):
        client, sent = Server().client(), []
        client.execute_command = lambda *words: sent.append(words)
        start(group(task("a", "\u00e9"), task("b", 1, priority=3)), client=client, number=NUMBER)
        plain, other = (it for it in sent[0] if b"content-type" in it)
        self.assertNotIn(b": ", plain)  # as Python writes JSON
        self.assertIn(b'"priority": 3', other)
        self.assertEqual(json.loads(base64.b64decode(json.loads(plain)["body"]))[0], ["\u00e9"])


if __name__ == "__main__":
    unittest.main()
