"""The clients of a group's processes: each call of both, over a group of real processes, where replies are lost, processes go, and what answers is no
process. Of `fochillund` it takes the one that FOCHILLUND names, or else that which cargo has built in daemon/target/debug; without one it is passed over."""

import asyncio
import contextlib
import json
import multiprocessing
import os
import pathlib
import pickle
import signal
import socket
import ssl
import subprocess
import tempfile
import threading
import time
import unittest

import fochillun
from fochillun import client as clients
from fochillun.client import AsyncClient, Client, Evaluation, Place, session, user

TOP = pathlib.Path(__file__).resolve().parent.parent.parent
BUILT = TOP / "daemon/target/debug/fochillund"
PROGRAM = os.environ.get("FOCHILLUND") or (str(BUILT) if BUILT.exists() else None)
FOUNDING = """version = 1
members = {members}
sent_limit = 16384
operations = ["read", "write"]
objects = ["chart", "diet", "rota"]
permissions = [["read", "chart"], ["read", "diet"], ["read", "rota"], ["write", "chart"]]
"""
POLICY = [
    {"name": "AddUser", "user": "ann"},
    {"name": "AddUser", "user": "bob"},
    {"name": "AddRole", "role": "nurse"},
    {"name": "AssignUser", "user": "ann", "role": "nurse"},
    *({"name": "GrantPermission", "operation": "read", "object": name, "role": "nurse"} for name in ("chart", "diet", "rota")),
    {"name": "CreateSession", "user": "ann", "session": "s1", "roles": ["nurse"]},
]
CAT = [{"name": "AddUser", "user": "cat"}]
PATIENCE = 30


class Group:
    """Processes in a folder, each of which ends with this."""

    def __init__(self, members=1, *words):
        self.folder = tempfile.TemporaryDirectory()
        self.path = pathlib.Path(self.folder.name)
        (self.path / "founding.toml").write_text(FOUNDING.format(members=members))
        self.members, self.processes = members, {}
        for member in range(1, members + 1):
            self.start(f"n{member}", *words)

    def start(self, node, *words):
        nodes = ",".join(f"n{member}" for member in range(1, self.members + 1))
        founded = ["--founding", self.path / "founding.toml", "--nodes", nodes, "--node", node]
        self.run(node, "member", "--folder", self.path, *founded, *words)

    def observe(self, *words):
        """A process that follows, at o1."""
        self.run("o1", "observe", "--folder", self.path, "--socket", self.path / "o1.sock", *words)

    def run(self, name, *words):
        said = open(self.path / "said", "a")
        with said:
            self.processes[name] = subprocess.Popen([PROGRAM, *map(str, words)], stdout=said, stderr=said)

    def kill(self, name):
        process = self.processes.pop(name)
        process.kill()
        process.wait()

    def at(self, name):
        return f"unix:{self.path / name}.sock"

    def end(self):
        for name in list(self.processes):
            self.kill(name)
        self.folder.cleanup()


def is_ready(client):
    """Waits until its process answers."""
    until = time.monotonic() + PATIENCE
    while True:
        try:
            return client.status()
        except clients.ClientError:
            if time.monotonic() > until:
                raise
            time.sleep(0.01)


class Awaited:
    """An AsyncClient whose calls are waited for, and whose iterators are plain ones."""

    def __init__(self, *addresses, **words):
        self.loop = asyncio.new_event_loop()
        self.client = AsyncClient(*addresses, **words)

    def __getattr__(self, name):
        def call(*words, **named):
            told = getattr(self.client, name)(*words, **named)
            return self.each(told) if hasattr(told, "__anext__") else self.loop.run_until_complete(told)

        return call

    def turn(self):
        """Lets the loop hear what came meanwhile."""
        self.loop.run_until_complete(asyncio.sleep(0.01))

    def each(self, told):
        try:
            while True:
                try:
                    yield self.loop.run_until_complete(told.__anext__())
                except StopAsyncIteration:
                    return
        finally:
            self.loop.run_until_complete(told.aclose())

    def __enter__(self):
        return self

    def __exit__(self, *_):
        self.loop.run_until_complete(self.client.close())
        self.loop.close()


BOTH = {"sync": Client, "async": Awaited}


def read_request(stream):
    """A request's whole text; nothing where there is none."""
    head = b""
    while not head.endswith(b"\r\n\r\n"):
        part = stream.readline()
        if not part:
            return b""
        head += part
    length = [line.split(b":")[1] for line in head.split(b"\r\n") if line.lower().startswith(b"content-length:")]
    return head + stream.read(int(length[0]) if length else 0)


class Between:
    """Stands at a socket of its own, and answers each request by `answer(text, connection)`, until that says that the connection ends."""

    def __init__(self, answer):
        self.folder = tempfile.TemporaryDirectory()
        self.requests = []
        self.answer = answer
        self.listener = socket.socket(socket.AF_UNIX, socket.SOCK_STREAM)
        self.listener.bind(f"{self.folder.name}/between")
        self.listener.listen()
        self.address = f"unix:{self.folder.name}/between"
        threading.Thread(target=self.take, daemon=True).start()

    def take(self):
        with contextlib.suppress(OSError):
            while True:
                connection, _ = self.listener.accept()
                threading.Thread(target=self.serve, args=(connection,), daemon=True).start()

    def serve(self, connection):
        with contextlib.suppress(OSError), connection, connection.makefile("rb") as stream:
            while text := read_request(stream):
                self.requests.append(text)
                if self.answer(text, connection):
                    return

    def end(self):
        self.listener.shutdown(socket.SHUT_RDWR)
        self.listener.close()
        self.folder.cleanup()


def told_by(address, text):
    """What a process answers, up to the end of the connection."""
    with socket.socket(socket.AF_UNIX, socket.SOCK_STREAM) as upstream:
        upstream.connect(address[len("unix:") :])
        upstream.sendall(text.replace(b"\r\n\r\n", b"\r\nConnection: close\r\n\r\n", 1))
        told = b""
        while part := upstream.recv(65536):
            told += part
        return told


def reply(status, body, *headers):
    """The text of a reply."""
    lines = [f"HTTP/1.1 {status} OK", f"Content-Length: {len(body)}", *headers, "", body]
    return "\r\n".join(lines).encode()


@contextlib.contextmanager
def within(folder):
    """With this folder as the one that paths begin at."""
    before = os.getcwd()
    os.chdir(folder)
    try:
        yield
    finally:
        os.chdir(before)


@unittest.skipUnless(PROGRAM, "there is no fochillund here: daemon/check builds it")
class Case(unittest.TestCase):
    def both(self):
        """Each of the clients, one after the other."""
        return BOTH.items()

    def between(self, answer):
        between = Between(answer)
        self.addCleanup(between.end)
        return between

    def group(self, members=1, *words):
        group = Group(members, *words)
        self.addCleanup(group.end)
        return group


class OfOneProcess(Case):
    """One group that is asked alike by both clients."""

    @classmethod
    def setUpClass(cls):
        super().setUpClass()
        cls.of = Group(1)
        with Client(cls.of.at("n1")) as client:
            is_ready(client)
            client.submit(POLICY)

    @classmethod
    def tearDownClass(cls):
        cls.of.end()

    def test_only_what_is_granted_is_true(self):
        cases = [
            (session("s1"), "read", "chart", None, None),
            (user("ann"), "read", "chart", "s1", None),
            (user("ann"), "read", "chart", None, None),
            (session("s1"), "write", "chart", None, ("Refused", None)),
            (user("bob"), "read", "chart", "s1", ("NotOwner", 11)),
            (session("s9"), "read", "chart", None, ("NoSession", 10)),
            (session("s 1"), "read", "chart", None, ("BadName", None)),
            (session("s1\r\nX: y"), "read", "chart&", None, ("BadName", None)),
            (clients.Subject("role", "nurse"), "read", "chart", None, ("UnknownType", None)),
        ]
        for _, made in self.both():
            with made(self.of.at("n1")) as client:
                for by in ("ordered", "local"):
                    for subject, action, resource, of, reason in cases:
                        told = client.evaluate(subject, action, resource, of, consistency=by)
                        self.assertEqual((bool(told), told.granted, told.reason), (reason is None, reason is None, reason))
                        self.assertEqual(told.at is None, reason in (("BadName", None), ("UnknownType", None)))
                with self.assertRaises(TypeError):
                    client.evaluate("s1", "read", "chart")

    def test_a_list_is_told_in_order_and_cut(self):
        asked = [Evaluation(session("s1"), action, "chart") for action in ("read", "write", "read")]
        for _, made in self.both():
            with made(self.of.at("n1")) as client:
                told = {semantic: client.evaluations(asked, semantic) for semantic in ("execute_all", "deny_on_first_deny", "permit_on_first_permit")}
                granted = {semantic: [bool(each) for each in decisions] for semantic, decisions in told.items()}
                wanted = {"execute_all": [True, False, True], "deny_on_first_deny": [True, False], "permit_on_first_permit": [True]}
                self.assertEqual(granted, wanted)
                for wrong in ([], asked * 22):
                    with self.assertRaises(ValueError):
                        client.evaluations(wrong)
                with self.assertRaises(clients.BadRequest) as raised:
                    client.evaluations(asked, "any", request_id="r-9")
                self.assertEqual((raised.exception.status, raised.exception.word, raised.exception.request_id), (400, "BadRequest", "r-9"))

    def test_searches_go_through_all_pages(self):
        for _, made in self.both():
            with made(self.of.at("n1")) as client:
                for limit in (None, 1, 2):
                    self.assertEqual(list(client.search_resources(user("ann"), "read", limit=limit)), ["chart", "diet", "rota"])
                self.assertEqual(list(client.search_actions(session("s1"), "chart", consistency="local")), ["read"])
                self.assertEqual(list(client.search_actions(user("ann"), "chart", "s1")), ["read"])
                self.assertEqual(list(client.search_resources(session("s9"), "read")), [])
                for limit in (None, 1):
                    self.assertEqual(list(client.search_subjects("session", "read", "chart", limit=limit)), ["s1"])
                self.assertEqual(list(client.search_subjects("user", "read", "chart", consistency="local")), ["ann"])
                self.assertEqual(list(client.search_subjects("user", "read", "moon")), [])

    def test_a_call_that_is_asked_again_is_told_the_same_record(self):
        for kind, made in self.both():
            add = [{"name": "AddUser", "user": kind}]
            with made(self.of.at("n1")) as client:
                first = client.submit(add, key=f"{kind}-1")
                self.assertEqual(client.submit(add, key=f"{kind}-1"), first)
                self.assertEqual((first[0].answer, first[0].command), ("Done", add[0]))
                second = client.submit(add)[0]
                self.assertEqual(second.answer, fochillun.Denial("UserExists", 1))
                self.assertFalse(second.answer)
                with self.assertRaises(clients.OtherCommands) as raised:
                    client.submit(CAT, key=f"{kind}-1")
                self.assertEqual((raised.exception.status, raised.exception.key, raised.exception.place), (422, f"{kind}-1", None))
                self.assertIn(add[0], client.dump(at_least=second.at).commands)
                for wrong in ("", "a b", "a\r\nb: c", "k" * 129):
                    with self.assertRaises(ValueError):
                        client.submit(CAT, key=wrong)
                with self.assertRaises(clients.BadRequest):
                    client.submit([{"name": "AddUsr"}])
                with self.assertRaises(clients.Behind):
                    client.evaluate(session("s1"), "read", "chart", consistency="ordered", at_least="1.99999999.1")

    def test_a_lost_reply_is_an_error_or_is_asked_again_by_its_id(self):
        for kind, made in self.both():
            for is_carried_out in (True, False):
                lost = []

                def answer(text, connection):
                    is_first = not lost
                    told = told_by(self.of.at("n1"), text) if is_carried_out or not is_first else b""
                    if is_first:
                        lost.append(text)
                        connection.sendall(told[: len(told) // 2])
                        return True
                    connection.sendall(told)
                    return True

                between = self.between(answer)
                with made(between.address) as client, Client(self.of.at("n1")) as owner:
                    with self.assertRaises(clients.ReplyLost) as raised:
                        client.evaluate(session("s1"), "read", "chart", request_id="r-1")
                    self.assertEqual((len(between.requests), raised.exception.request_id), (1, "r-1"))
                    lost.clear()
                    before = owner.status()["records"]
                    records = client.submit([{"name": "AddUser", "user": f"{kind}-{is_carried_out}"}])
                    self.assertEqual((records[0].answer, len(between.requests)), ("Done", 3))
                    self.assertEqual(owner.status()["records"], before + 1)
                    lost.clear()
                    with self.assertRaises(clients.ReplyLost) as raised:
                        client.submit(CAT, key=f"{kind}-{is_carried_out}", deadline=0)
                    self.assertEqual(raised.exception.place, Place(1, 1))
                    again = pickle.loads(pickle.dumps((raised.exception.key, raised.exception.place)))
                    told = owner.submit(CAT, again[0], place=again[1])
                    self.assertEqual(owner.submit(CAT, again[0], place=again[1]), told)

    def test_a_history_that_breaks_off_is_told_whole_and_once(self):
        for _, made in self.both():

            def answer(text, connection):
                if b"/v1/history" not in text:
                    connection.sendall(told_by(self.of.at("n1"), text))
                    return True
                with socket.socket(socket.AF_UNIX, socket.SOCK_STREAM) as upstream:
                    upstream.connect(self.of.at("n1")[len("unix:") :])
                    upstream.sendall(text)
                    # Some of it, each time more: also within an event, and within a chunk's length.
                    left = 150 + 37 * len(between.requests)
                    while left > 0:
                        left -= connection.send(upstream.recv(min(left, 64)))
                return True

            between = self.between(answer)
            with made(between.address) as client, Client(self.of.at("n1")) as owner:
                count = owner.status()["records"]
                told = []
                for record in client.history():
                    told.append(record)
                    if len(told) == count:
                        break
                self.assertEqual([record.number for record in told], list(range(1, count + 1)))
                self.assertEqual([record.command for record in told[:8]], POLICY)
                self.assertGreater(len(between.requests), 10)
                last = next(iter(client.history(told[-1].number, told[-1].generation)))
                self.assertEqual(last, told[-1])
                with self.assertRaises(clients.Gone):
                    next(iter(client.history(1, 7)))

    def test_what_is_no_answer_is_an_error(self):
        granted = '{"decision":true}'
        wrong = [
            reply(200, "{}"),
            reply(200, '{"decision":"true"}'),
            reply(200, '{"decision":1}'),
            reply(200, '{"decision":null}'),
            reply(200, "[true]"),
            reply(200, granted[:-1]),
            reply(200, granted, "Transfer-Encoding: chunked"),
            reply(200, granted, "Content-Length: 16"),
            reply(200, granted, "X-Request-ID: another"),
            reply(204, ""),
            reply(302, granted, "Location: /"),
            reply(403, granted),
            reply(500, granted),
            b"HTTP/1.1 200 OK\r\n\r\n" + granted.encode(),
            b"HTTP/1.0 200 OK\r\nContent-Length: 17\r\n\r\n" + granted.encode(),
            b"HTTP/1.1 200 OK\r\nTransfer-Encoding: chunked\r\n\r\n11\r\n" + granted.encode() + b"\r\n",
            b"HTTP/1.1 200 OK\r\nTransfer-Encoding: chunked\r\n\r\n10\r\n" + granted.encode() + b"\r\n0\r\n\r\n",
            b"HTTP/1.1 200 OK\r\nTransfer-Encoding: chunked\r\nContent-Length: 17\r\n\r\n11\r\n" + granted.encode() + b"\r\n0\r\n\r\n",
            b"HTTP/1.1 200 OK\r\nTransfer-Encoding: chunked\r\n\r\n11\r\n" + granted.encode() + b"XX0\r\n\r\n",
            b"SSH-2.0\r\n\r\n",
            b"",
        ]
        for _, made in self.both():
            for text in wrong:
                between = self.between(lambda _, connection, text=text: connection.sendall(text) or True)
                with made(between.address, deadline=0) as client:
                    with self.assertRaises(clients.ClientError, msg=text):
                        client.evaluate(session("s1"), "read", "chart")
                    with self.assertRaises(clients.ClientError, msg=text):
                        client.evaluations([Evaluation(session("s1"), "read", "chart")])
                    with self.assertRaises(clients.ClientError, msg=text):
                        list(client.search_actions(session("s1"), "chart"))
                    with self.assertRaises(clients.ClientError, msg=text):
                        client.submit(CAT)
                    self.assertLessEqual(len(between.requests), 4)

    def test_fewer_decisions_than_were_asked_are_an_error(self):
        for _, made in self.both():
            short = reply(200, '{"evaluations":[{"decision":true}]}', "Connection: close")
            between = self.between(lambda _, connection, text=short: connection.sendall(text) or True)
            with made(between.address) as client:
                for semantic in ("execute_all", "deny_on_first_deny"):
                    with self.assertRaises(clients.BadReply):
                        client.evaluations([Evaluation(session("s1"), "read", "chart")] * 2, semantic)

    def test_a_reply_that_nobody_asked_for_is_no_answer_to_the_next(self):
        two = reply(200, '{"decision":false}') + reply(200, '{"decision":true}')
        for _, made in self.both():
            between = self.between(lambda _, connection: connection.sendall(two))
            with made(between.address) as client:
                for _ in range(3):
                    self.assertFalse(client.evaluate(session("s1"), "read", "chart"))

    def test_a_connection_that_was_ended_meanwhile_is_not_asked(self):
        for _, made in self.both():
            between = self.between(lambda _, connection: connection.sendall(reply(200, '{"decision":true}')) or True)
            with made(between.address) as client:
                for _ in range(3):
                    self.assertTrue(client.evaluate(session("s1"), "read", "chart"))
                    time.sleep(0.05)
                    if isinstance(client, Awaited):
                        client.turn()
                self.assertEqual(len(between.requests), 3)

    def test_a_history_that_is_told_otherwise_is_an_error(self):
        for _, made in self.both():
            changes = iter([(b"from=3", b"from=2"), (b"from=3", b"from=4")])

            def streams(text, connection):
                old, new = next(changes)
                with socket.socket(socket.AF_UNIX, socket.SOCK_STREAM) as upstream:
                    upstream.connect(self.of.at("n1")[len("unix:") :])
                    upstream.sendall(text.replace(old, new))
                    connection.sendall(upstream.recv(65536))
                    connection.sendall(upstream.recv(65536))
                return True

            between = self.between(streams)
            with made(between.address, deadline=0) as client:
                for _ in range(2):
                    with self.assertRaises(clients.BadReply):
                        next(client.history(3, 1))

    def test_a_forked_child_has_connections_of_its_own(self):
        with Client(self.of.at("n1")) as client:
            self.assertTrue(client.evaluate(session("s1"), "read", "chart"))
            forks = multiprocessing.get_context("fork")
            told = forks.Queue()

            def child(action):
                told.put({(action, bool(client.evaluate(session("s1"), action, "chart", consistency="local"))) for _ in range(50)})

            processes = [forks.Process(target=child, args=(action,)) for action in ("read", "write")]
            for process in processes:
                process.start()
            for _ in range(50):
                self.assertTrue(client.evaluate(session("s1"), "read", "chart", consistency="local"))
            self.assertEqual(told.get(timeout=PATIENCE) | told.get(timeout=PATIENCE), {("read", True), ("write", False)})
            for process in processes:
                process.join(PATIENCE)

    def test_threads_share_a_client(self):
        with Client(self.of.at("n1")) as client:
            wrong = []

            def ask(action):
                for _ in range(30):
                    if bool(client.evaluate(session("s1"), action, "chart", consistency="local")) != (action == "read"):
                        wrong.append(action)

            threads = [threading.Thread(target=ask, args=(action,)) for action in ("read", "write") * 4]
            for thread in threads:
                thread.start()
            for thread in threads:
                thread.join()
            self.assertEqual(wrong, [])


class OfSeveralProcesses(Case):
    def test_another_process_is_asked_where_one_is_not_there(self):
        group = self.group(2)
        gone = f"unix:{group.path}/gone"
        with Client(group.at("n1")) as owner, Client(group.at("n2")) as second:
            is_ready(owner)
            is_ready(second)
            told = owner.submit(POLICY)
        for kind, made in self.both():
            with made(gone, group.at("n2")) as client:
                self.assertTrue(client.evaluate(session("s1"), "read", "chart", at_least=told[-1].at))
                self.assertEqual(client.status()["node"], "n2")
                # Nobody has told it that the second address is member 2.
                self.assertEqual(client.submit([{"name": "AddUser", "user": kind}])[0].stamp[1], 2)
                self.assertEqual(len(client.dump().commands), len(POLICY) + (1 if kind == "sync" else 2))
            with made(gone) as client:
                for call in (client.status, client.dump, lambda: client.evaluate(session("s1"), "read", "chart")):
                    with self.assertRaises(clients.Unreachable):
                        call()
                with self.assertRaises(clients.Unreachable) as raised:
                    client.submit(CAT, deadline=0.1)
                self.assertEqual(raised.exception.place, None)

    def test_a_call_waits_for_a_member_that_is_down_and_is_carried_out_once(self):
        group = self.group(2, "--patience", "0.2")
        with Client(group.at("n1")) as owner:
            is_ready(owner)
            owner.submit(POLICY)
            for kind, made in self.both():
                group.kill("n2")
                with made(group.at("n2"), group.at("n1")) as client:
                    with self.assertRaises(clients.NotReady) as raised:
                        client.submit([{"name": "AddUser", "user": kind}], key=kind, deadline=0.5)
                    waits = raised.exception
                    self.assertEqual((waits.status, waits.word, waits.told["waits_for"], waits.place), (503, "Waits", ["n2"], Place(1, 1)))
                    with self.assertRaises(clients.NotReady):
                        client.evaluate(session("s1"), "read", "chart", consistency="ordered")
                    later = threading.Timer(0.3, group.start, ("n2", "--patience", "0.2"))
                    later.start()
                    record = client.submit([{"name": "AddUser", "user": kind}], key=waits.key, place=waits.place)[0]
                    later.join()
                    # At the other member it would be another call, and denied.
                    self.assertEqual((record.answer, record.stamp[1]), ("Done", 1))

    def test_a_process_that_is_not_ready_is_passed_over(self):
        busy = reply(503, '{"error":"Stale","text":"the rows were not read lately"}')
        group = self.group()
        with Client(group.at("n1")) as owner:
            is_ready(owner)
            owner.submit(POLICY)
        for kind, made in self.both():
            between = self.between(lambda _, connection: connection.sendall(busy))
            with made(between.address, group.at("n1")) as client:
                self.assertEqual(client.status()["node"], "n1")
                with made(between.address, group.at("n1")) as other:
                    # It is asked once; the next one is asked where it is answered.
                    with self.assertRaises(clients.NotReady):
                        other.evaluate(session("s1"), "read", "chart")
                    self.assertTrue(other.evaluate(session("s1"), "read", "chart"))
                self.assertEqual(client.submit([{"name": "AddUser", "user": kind}])[0].answer, "Done")
            waits = []

            def once(text, connection):
                waits.append(time.monotonic())
                connection.sendall(told_by(group.at("n1"), text) if len(waits) > 1 else reply(429, '{"error":"Busy"}', "Retry-After: 1"))
                return True

            with made(self.between(once).address) as client:
                self.assertEqual(client.submit([{"name": "AddUser", "user": f"{kind}-2"}])[0].answer, "Done")
                self.assertGreaterEqual(waits[1] - waits[0], 1)

    def test_calls_and_the_history_go_on_in_the_next_generation(self):
        group = self.group()
        with Client(group.at("n1")) as owner:
            is_ready(owner)
            stale = Client(group.at("n1"))
            stale.submit(POLICY)
            (group.path / "next.toml").write_text((group.path / "founding.toml").read_text() + "# the same\n")
            propose = [PROGRAM, "propose", "--folder", group.path, "--founding", group.path / "next.toml"]
            subprocess.run(propose, check=True, stdout=subprocess.DEVNULL)
            with stale:
                self.assertEqual(stale.submit([{"name": "AddUser", "user": "dan"}])[0].generation, 2)
            for kind, made in self.both():
                with made(group.at("n1")) as client:
                    record = client.submit([{"name": "AddUser", "user": kind}])[0]
                    self.assertEqual((record.answer, record.generation), ("Done", 2))
                    told, history = [], client.history(7, 1)
                    for record in history:
                        told.append((record.generation, record.number))
                        if record.command.get("user") == kind and record.generation == 2:
                            break
                    history.close()
                    self.assertEqual(told, [(1, 7), (1, 8), *((2, number) for number in range(1, len(told) - 1))])
                    # One that its generation has ended without is asked in the next; one whose id may be forgotten is not.
                    self.assertEqual(client.submit([{"name": "AddRole", "role": kind}], key=kind, place=Place(1, 1))[0].generation, 2)
                    with self.assertRaises(clients.Gone) as raised:
                        client.submit(CAT, key=kind, place=Place(0, 1))
                    self.assertEqual((raised.exception.word, raised.exception.place), ("OldGeneration", Place(0, 1)))


class OfThePage(Case):
    def test_what_the_page_shows_is_so(self):
        page = TOP / "docs/API.md"
        if not page.exists():
            self.skipTest("the page is not beside it")
        group = self.group(0)
        (group.path / "hospital.group").mkdir()
        founding = (TOP / "examples/hospital.toml").read_text().replace("members = 3", "members = 1")
        (group.path / "founding.toml").write_text(founding)
        words = ["--folder", group.path / "hospital.group", "--founding", group.path / "founding.toml", "--nodes", "n1", "--node", "n1"]
        group.run("n1", "member", *words)
        text = page.read_text(encoding="utf-8")
        policy = json.loads(text.split("POST /v1/commands\n")[1].split("\n\n")[0])
        with within(group.path):
            with Client("unix:hospital.group/n1.sock") as owner:
                is_ready(owner)
                owner.submit(policy["commands"])
            exec(compile(text.split("```python\n")[1].split("```")[0], str(page), "exec"), {})


class OverTls(Case):
    def test_who_calls_is_known_by_a_token_over_tls(self):
        group = self.group(0)
        certificate, key = group.path / "n1.pem", group.path / "n1.key"
        words = "req -x509 -newkey ec -pkeyopt ec_paramgen_curve:prime256v1 -nodes -days 2 -subj /CN=n1 -addext subjectAltName=DNS:localhost"
        subprocess.run(["openssl", *words.split(), "-keyout", key, "-out", certificate], check=True, capture_output=True)
        callers = group.path / "callers.toml"
        token = subprocess.run([PROGRAM, "token", callers, "clinic", "--scopes", "check"], check=True, capture_output=True, text=True).stdout.strip()
        group.members = 1
        (group.path / "founding.toml").write_text(FOUNDING.format(members=1))
        with socket.create_server(("127.0.0.1", 0)) as taken:
            port = taken.getsockname()[1]
        group.start("n1", "--listen", f"127.0.0.1:{port}", "--certificate", certificate, "--key", key, "--callers", callers)
        with Client(group.at("n1")) as owner:
            is_ready(owner)
            owner.submit(POLICY)
        trusts = ssl.create_default_context(cafile=certificate)
        address = f"https://localhost:{port}"

        async def later():
            return token

        for kind, made in self.both():
            for shown in (token, lambda: token, later if kind == "async" else token):
                with made(address, token=shown, tls=trusts) as client:
                    self.assertEqual([bool(client.evaluate(session("s1"), action, "chart")) for action in ("read", "write", "read")], [True, False, True])
            with made(address, token=token, tls=trusts, deadline=5) as client:
                with self.assertRaises(clients.NotPermitted) as raised:
                    client.submit(CAT)
                self.assertEqual((raised.exception.word, raised.exception.told["scope"]), ("OutOfScope", "administer"))
            for shown, error in ((None, clients.UnknownCaller), ("0" * 64, clients.UnknownCaller), ("a\r\nb", ValueError)):
                with made(address, token=shown, tls=trusts) as client, self.assertRaises(error):
                    client.evaluate(session("s1"), "read", "chart")
            for strange in (made(address, token=token), made(f"https://127.0.0.1:{port}", token=token, tls=trusts)):
                with strange as client, self.assertRaises(clients.Unreachable):
                    client.evaluate(session("s1"), "read", "chart")
            for text in ("http://decisions.example", "ftp://a", "https://a/b", "https://u@a", "unix:", "n1.sock", ""):
                with self.assertRaises(ValueError):
                    Client(text)
        self.assertNotIn(token, (group.path / "said").read_text())


if __name__ == "__main__":
    signal.alarm(300)
    unittest.main()
