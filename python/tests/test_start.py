"""Starts on Celery's workers, over a Redis in a dictionary: what is sent, and what is refused."""

import hashlib
import json
import sys
import unittest
import warnings
from pathlib import Path
from types import SimpleNamespace

HERE = Path(__file__).resolve().parent
sys.path[:0] = [str(HERE.parent / "src"), str(HERE)]

from fake_redis import AMQPBackend, App, RedisBackend, Server, messages
from bevtragi import (BadCall, CanvasError, NotHeeded, Refused, StartedBefore, collect, run_of,
                      start)


def task(name, *args, kwargs=None, **options):
    return {"task": name, "args": [*args], "kwargs": kwargs or {}, "options": options}


def chain(*tasks):
    return {"task": "celery.chain", "subtask_type": "chain", "kwargs": {"tasks": [*tasks]}}


def group(*tasks):
    return {"task": "celery.group", "subtask_type": "group", "kwargs": {"tasks": [*tasks]}}


def chord(header, body):
    return {"task": "celery.chord", "subtask_type": "chord",
            "kwargs": {"header": [*header], "body": body}}


THREE = chain(task("shop.a", 1), task("shop.b"), task("shop.c"))
NUMBER = "0123456789abcdef012345"
#: Values of each kind that JSON has, and texts that look like places.
VALUES = [None, True, False, 0, 1, -1, 2 ** 60, 1.5, -0.25, 1e-7, "", "~0", "~1", "two", "\u00e9\n\"\\",
          [], {}, [1, [2, {"a": None}]], {"sku": "A-17", "price": 9.5, "gift": None}, ["~2"],
          {"~3": "~4"}, "x" * 500]


class Silent(unittest.TestCase):
    """Tests that don't show what isn't heeded."""

    def setUp(self):
        shown = warnings.catch_warnings()
        shown.__enter__()
        self.addCleanup(shown.__exit__, None, None, None)
        warnings.simplefilter("ignore", NotHeeded)


class Values(Silent):
    """Arguments in the messages."""

    def first(self, flow):
        client = Server().client()
        start(flow, client=client)
        (_, _, body), = messages(client)
        return body

    def test_each_argument_is_its_own_value(self):
        keywords = {f"k{number}": it for number, it in enumerate(VALUES)}
        args, kwargs, _ = self.first(task("shop.a", *VALUES, kwargs=keywords))
        self.assertEqual(json.dumps(args), json.dumps(VALUES))
        self.assertEqual(kwargs, keywords)
        for key, it in keywords.items():
            self.assertIs(type(kwargs[key]), type(it))

    def test_so_are_those_of_all_tasks_and_callbacks(self):
        alarm = task("shop.alarm", {"alarm": 1})
        flow = chain(task("shop.a", 1, link=[task("shop.log", [1.5])], link_error=[alarm]),
                     chord([task("shop.b", {"b": 2}), task("shop.b", {"b": 3})],
                           task("shop.c", 0.5, kwargs={"deep": {"c": [None]}}, link_error=[alarm])))
        args, _, more = self.first(flow)
        self.assertEqual(args, [1])
        self.assertEqual([it["args"] for it in more["callbacks"]], [[[1.5]]])
        self.assertEqual([it["args"] for it in more["errbacks"]], [[{"alarm": 1}]])
        inner = more["chain"][0]["kwargs"]
        header = inner["header"]
        header = header["kwargs"]["tasks"] if isinstance(header, dict) else header
        self.assertEqual([it["args"] for it in header], [[{"b": 2}], [{"b": 3}]])
        self.assertEqual((inner["body"]["args"], inner["body"]["kwargs"]),
                         ([0.5], {"deep": {"c": [None]}}))
        self.assertEqual(inner["body"]["options"]["link_error"][0]["args"], [{"alarm": 1}])

    def test_an_alarm_that_is_written_twice_is_called_once(self):
        alarm = task("shop.alarm", {"when": 1.5})
        flow = chain(task("shop.a", 1, link_error=[alarm]), task("shop.b"))
        flow["options"] = {"link_error": [task("shop.alarm", {"when": 1.5})]}
        self.assertEqual(len(self.first(flow)[2]["errbacks"]), 1)

    def test_what_json_lacks_is_refused(self):
        for value in (float("nan"), float("inf"), object()):
            with self.assertRaisesRegex(CanvasError, "can't be sent as JSON"):
                start(task("shop.a", value), client=Server().client())

    def test_what_the_program_refuses_is_a_sentence(self):
        deep = json.loads("[" * 150 + "]" * 150)
        for value, why in (("x" * 1_100_000, "found more than 1,048,576 bytes"),
                           ("\ud800", "found no JSON text in UTF-8"), (deep, "of at most 128 levels")):
            with self.assertRaisesRegex(BadCall, f"^the arguments of this canvas can't be sent: .*{why}"):
                start(task("shop.a", value), client=Server().client())

    def test_large_numbers_and_long_texts_are_as_they_were(self):
        values = [2 ** 70, -10 ** 400, 0.1 + 0.2, -0.0, 1e300, 5e-324, "x" * 1_000_000]
        self.assertEqual(json.dumps(self.first(task("shop.a", *values))[0]), json.dumps(values))

    def test_a_canvas_may_be_its_json(self):
        server = Server()
        start(json.dumps(task("shop.a", {"a": 1.5})), client=server.client())
        self.assertEqual(messages(server.client())[0][2][0], [{"a": 1.5}])

    def test_what_celery_sends_is_what_its_serializer_writes(self):
        try:
            from kombu.serialization import dumps
        except ImportError:
            self.skipTest("Celery isn't installed")
        import datetime
        import decimal
        import uuid
        values = [datetime.datetime(2026, 11, 30, 12), datetime.date(2026, 11, 30),
                  decimal.Decimal("19.00"), uuid.UUID(int=7), (1, 2)]
        args = self.first(task("shop.a", *values))[0]
        self.assertEqual(args, json.loads(dumps(values, serializer="json")[2]))


class Numbers(Silent):
    """A number is used once."""

    def test_each_start_has_a_number_of_its_own(self):
        client = Server().client()
        numbers = [start(THREE, client=client).number for _ in range(10)]
        self.assertEqual(len({*numbers}), 10)
        self.assertEqual(len(messages(client)), 10)
        for number in numbers:
            self.assertRegex(number, "^[0-9a-f]{22}$")
        for place, digits in enumerate(zip(*numbers)):
            self.assertGreater(len({*digits}), 1, f"digit {place} is always {digits[0]}")

    def test_a_number_of_the_users_own(self):
        for kind in ("md5", "sha1", "sha224", "sha256", "sha384", "sha512"):
            digest = hashlib.new(kind, b"order 4711")
            for number in (digest.digest(), digest.hexdigest()):
                run = start(THREE, client=Server().client(), number=number)
                self.assertEqual(run.number, digest.hexdigest()[:22])
        self.assertEqual(start(THREE, client=Server().client(), number=NUMBER).number, NUMBER)
        self.assertEqual(start(THREE, client=Server().client(),
                               number=bytes.fromhex(NUMBER)).number, NUMBER)

    def test_other_numbers_are_refused(self):
        for number in ("", "7", NUMBER[1:], NUMBER + "0", NUMBER.upper(), "g" * 22, "order 4711",
                       b"order 4711", 4711, b"", [], True):
            with self.assertRaisesRegex(BadCall, "number is 22 lower-case hexadecimal digits"):
                start(THREE, client=Server().client(), number=number)

    def test_a_second_start_starts_nothing(self):
        server = Server()
        start(THREE, client=server.client(), number=NUMBER)
        before = json.dumps(server.databases)
        for flow in (THREE, task("shop.other")):
            with self.assertRaisesRegex(StartedBefore, f"run {NUMBER} was started before"):
                start(flow, client=server.client(), number=NUMBER)
        self.assertEqual(json.dumps(server.databases), before)

    def test_a_command_that_a_client_sends_again_is_one_start(self):
        client = Server().client()
        once = client.execute_command
        client.execute_command = lambda *words: (once(*words), once(*words))[1]
        start(THREE, client=client)
        self.assertEqual(len(messages(client)), 1)
        with self.assertRaises(StartedBefore):
            start(THREE, client=client, number=NUMBER)

    def test_a_start_that_fails_leaves_nothing(self):
        server = Server()
        server.databases[0] = {"celery": "a text"}
        with self.assertRaisesRegex(CanvasError, "the key of the queue is no list"):
            start(THREE, client=server.client(), number=NUMBER)
        self.assertEqual(server.databases, {0: {"celery": "a text"}})
        start(THREE, client=server.client(), number=NUMBER, queue="orders")

    def test_a_run_is_taken_up_by_its_number(self):
        server, digest = Server(), hashlib.sha256(b"order 4711")
        run = start(THREE, client=server.client(), number=digest.digest())
        again = run_of(digest.hexdigest(), THREE, client=server.client())
        self.assertEqual((again.number, again.keys), (run.number, run.keys))
        for number in (NUMBER, digest.hexdigest()[1:23]):
            with self.assertRaisesRegex(CanvasError, f"no run {number} was started"):
                run_of(number, THREE, client=server.client())
        with self.assertRaises(BadCall):
            run_of(None, THREE, client=server.client())


class Options(Silent):
    """Options that aren't heeded are warned of."""

    def warned(self, flow, app=None, **more):
        client = Server().client()
        with warnings.catch_warnings(record=True) as found:
            warnings.simplefilter("always")
            run = start(flow, app, client, **more)
        self.assertTrue(all(it.filename == __file__ for it in found))
        return run, [str(it.message) for it in found if it.category is NotHeeded]

    def test_options_are_told_by_name_and_count(self):
        flow = chain(task("shop.a", countdown=5, serializer="json"), task("shop.b", task_id="my-own"),
                     task("shop.c", expires=60, serializer="json", colour="red", task_id="other"))
        run, said = self.warned(flow)
        self.assertEqual(run.ignored, ["colour of 1 signature", "serializer of 1 signature",
                                       "task_id of 2 signatures"])
        self.assertEqual(said, [f"this start doesn't heed {it}" for it in run.ignored])
        self.assertEqual(self.warned(THREE)[1], [])

    def test_what_is_adapted_is_told(self):
        flow = chain(task("shop.a", 1), task("shop.b"))
        flow["options"] = {"link_error": [task("shop.alarm")]}
        self.assertEqual(self.warned(flow)[0].adapted, [
            "1 callback of a chain, group or chord, which its tasks have now"])
        self.assertEqual(self.warned(THREE)[0].adapted, [])

    def test_calls_that_tasks_do_not_take_are_told(self):
        def run():
            pass
        app = App(tasks={"shop.a": SimpleNamespace(run=run), "shop.b": SimpleNamespace(run=print)})
        said = self.warned(chain(task("shop.a", 1), task("shop.b"), task("shop.c")), app)[1]
        self.assertIn("too many positional arguments", said[0])
        self.assertIn("has no task of this name", said[1])
        self.assertEqual(len(said), 2)

    def test_links_that_are_never_called_are_told(self):
        def undo(request, exc, traceback):
            pass
        app = App(tasks={"undo": SimpleNamespace(__header__=undo, run=undo),
                         "a": SimpleNamespace(run=lambda: 0), "log": SimpleNamespace(run=abs)})
        flow = task("a", link_error=[task("undo", link=[task("log")])])
        self.assertEqual(self.warned(flow, app)[1],
                         ["Celery calls #2 undo in place, and not its link log"])

    def test_a_canvas_that_is_refused_starts_nothing(self):
        client = Server().client()
        with self.assertRaises(Refused):
            start(chain(), client=client)
        self.assertEqual(client.server.databases, {})

    def test_what_is_no_signature_is_a_sentence(self):
        for flow in ({"task": "celery.group", "subtask_type": "group", "kwargs": {"tasks": 5}},
                     {"task": "celery.group", "subtask_type": "group", "kwargs": 5},
                     {"task": "shop.a", "options": 5}):
            with self.assertRaisesRegex(BadCall, "this canvas isn't a signature of Celery"):
                start(flow, client=Server().client())

    def test_a_canvas_without_tasks(self):
        run = start(group(), client=Server().client())
        self.assertEqual((run.keys, run.wait(1).rows, run.settle()), ([], [], []))


class Places(Silent):
    """The application's queue, keys and connections."""

    def test_the_queue_and_the_keys_are_those_of_the_application(self):
        server = Server()
        app = App(server, RedisBackend(server.client(3), "results_", 77), server.client(5),
                  before="{shop}", task_default_queue="orders")
        flow = chain(task("shop.a"), task("shop.b"))
        run = start(chord([task("shop.a"), task("shop.b")], task("shop.c")), app, number=NUMBER)
        self.assertEqual({*server.databases}, {3, 5})
        self.assertEqual([*server.databases[5]], ["{shop}orders"])
        found = messages(server.client(5), "{shop}orders")
        self.assertEqual([it[0]["task"] for it in found], ["shop.a", "shop.b"])
        for _, properties, _ in found:  # kombu puts the prefix before it, if it delivers it again
            self.assertEqual(properties["delivery_info"]["routing_key"], "orders")
        sizes = [it for it in server.databases[3] if it.endswith(".s")]
        self.assertEqual({*server.databases[3]}, {f"results_canvas-run-{NUMBER}", *sizes})
        self.assertTrue(sizes[0].startswith("results_celery-taskset-meta-"))
        self.assertEqual([it[:25] for it in run.keys], ["results_celery-task-meta-"] * 3)
        self.assertEqual(run_of(NUMBER, chord([task("shop.a"), task("shop.b")], task("shop.c")),
                                app).keys, run.keys)
        self.assertEqual(start(flow, App(server), number=NUMBER).keys[0][:17], "celery-task-meta-")

    def test_sizes_are_kept_as_long_as_results(self):
        for kept, wanted in ((77, b"77"), (None, b"1000000000"), (0, b"1000000000")):
            client, commands = Server().client(), []
            client.execute_command = lambda *words: commands.append(words)
            start(chord([task("a")], task("b")), App(backend=RedisBackend(client, "", kept)))
            count = int(commands[0][2])
            self.assertEqual(commands[0][3 + count], wanted)

    def test_the_connections_of_the_application_are_used(self):
        one, other = Server().client(), Server().client()
        app = App(backend=RedisBackend(one))
        start(THREE, app)
        self.assertEqual((len(messages(one, "orders")), app.connections), (1, 1))
        start(THREE, app, other)
        self.assertEqual((len(messages(other, "orders")), app.connections), (1, 1))
        app.conf["broker_transport_options"] = {"global_keyprefix": "p_"}
        start(THREE, app, other)
        self.assertEqual(len(messages(other, "p_orders")), 1)

    def test_the_broker_and_the_results_are_on_one_server(self):
        backend = RedisBackend(Server("one").client())
        with self.assertRaisesRegex(CanvasError, "are two servers"):
            start(THREE, App(backend=backend, broker=Server("two").client(host="there")))
        start(THREE, App(backend=backend, broker=Server("one").client(host="there")))
        for other in ({"port": 1}, {"path": "/tmp/redis"}):
            with self.assertRaisesRegex(CanvasError, "are two servers"):
                start(THREE, App(backend=backend, broker=Server("two").client(**other)))
        hidden = {"host": None, "port": None}  # as of Sentinel
        one, two = (RedisBackend(Server(it).client(**hidden)) for it in ("one", "two"))
        start(THREE, App(backend=one, broker=Server("one").client(**hidden)))
        with self.assertRaisesRegex(CanvasError, "are two servers"):
            start(THREE, App(backend=two, broker=Server("one").client(**hidden)))

    def test_other_brokers_and_backends_are_refused(self):
        for app, said in ((App(kind="amqp"), "the broker is amqp: set broker_url"),
                          (App(backend=AMQPBackend()), "the result backend is a AMQPBackend: set"),
                          (App(task_serializer="pickle"), "task_serializer is 'pickle'"),
                          (App(result_serializer="yaml"), "result_serializer is 'yaml'"),
                          (App(accept_content=["pickle"]), "accept_content has no \"json\""),
                          (App(task_ignore_result=True), "task_ignore_result is set"),
                          (App(task_always_eager=True), "task_always_eager is set")):
            with self.assertRaisesRegex(CanvasError, said):
                start(THREE, app)
        start(THREE, App(accept_content=["application/json"]))
        with self.assertRaisesRegex(BadCall, "needs your Celery application as `app`"):
            start(THREE)
        backend = RedisBackend(Server().client())
        backend.task_keyprefix = b"other-"
        with self.assertRaisesRegex(CanvasError, "the keys of results begin with 'other-'"):
            start(THREE, App(backend=backend))

    def test_what_a_connection_raises_is_a_sentence(self):
        app, none = App(), App()
        app.backend.client.execute_command = lambda *_: 1 / 0
        del none._broker
        for it in (app, none):
            with self.assertRaises(CanvasError):
                start(THREE, it)

    def test_the_first_tasks_go_where_their_route_leads(self):
        server = Server()
        app = App(server, routes={"shop.a": "quick", "shop.b": "slow"},
                  tasks={"shop.d": SimpleNamespace(queue="own", run=print)})
        start(THREE, app)
        start(task("shop.d"), app)
        self.assertEqual(len(messages(server.client(), "quick")), 1)
        self.assertEqual(len(messages(server.client(), "own")), 1)
        both = group(task("shop.a"), task("shop.b"))
        start(both, app)
        self.assertEqual(len(messages(server.client(), "quick")), 2)
        self.assertEqual(len(messages(server.client(), "slow")), 1)
        start(both, app, queue="third")
        self.assertEqual(len(messages(server.client(), "third")), 2)
        for queue in (3, b"third", ""):
            with self.assertRaisesRegex(BadCall, "queue is the name of a queue"):
                start(both, app, queue=queue)

    def test_the_first_tasks_are_those_that_begin_the_canvas(self):
        a, b, c, d = (task(it, link=[task("link")], link_error=[task("alarm")]) for it in "abcd")
        for flow, firsts in ((a, "a"), (chain(a, b), "a"), (chain(chain(a, b), c), "a"),
                             (group(a, chain(b, c)), "ab"), (chord([a, b], c), "ab"),
                             (chain(group(a, b), c), "ab"), (chord([], c), "c"),
                             (chord([], chain(c, d)), "c"), (chain(a, chord([b], c)), "a"),
                             (chord([chord([a], b), chain(c, d)], d), "ac"), (group(), "")):
            client, routed = Server().client(), []
            app = App(backend=RedisBackend(client))
            app.amqp.router.route = lambda _options, name, *_: routed.append(name) or {
                "queue": "orders"}
            start(flow, app)
            sent = [it[0]["task"] for it in messages(client, "orders")]
            self.assertEqual((sorted(routed), sorted(sent)), ([*firsts], [*firsts]), flow)

    def test_the_application_of_a_signature(self):
        class Sig(dict):
            _app = App()
        start(Sig(THREE))
        self.assertEqual(len(messages(Sig._app.backend.client, "orders")), 1)
        other = App()
        start(Sig(THREE), other)
        self.assertEqual(len(messages(other.backend.client, "orders")), 1)


class Alike(Silent):
    def test_collect_reads_a_started_run(self):
        client = Server().client()
        run = start(THREE, client=client, number=NUMBER)
        client.keys[run.keys[0]] = json.dumps(
            {"status": "SUCCESS", "task_id": run.keys[0][-36:], "result": 5})
        self.assertEqual(collect(THREE, client, NUMBER)[1].result, 5)


if __name__ == "__main__":
    unittest.main()
