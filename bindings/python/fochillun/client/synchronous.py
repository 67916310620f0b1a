"""The client that waits."""

from __future__ import annotations

import os
import select
import socket
import ssl
import threading
import time
from types import TracebackType
from typing import TYPE_CHECKING, Any, Callable, Iterator, Optional, Sequence, TypeVar, Union

from . import asked, options
from .asked import Evaluation, Rests, Subject
from .http import Address, Body, Head, Incoming, NoReply, Reading, Reply, Request, read_head, read_reply
from .steps import Ask, Asking, Call, Follower, Lost, Open, Opened, Outcome, Patience, Search, Steps, Unsent, Wait
from .told import Decision, Dump, Place, Record

if TYPE_CHECKING:
    from typing_extensions import Self

T = TypeVar("T")
_MOST_IDLE = 16
Token = Union[str, Callable[[], str], None]


def _connected(address: Address, timeout: float) -> socket.socket:
    """A socket that is connected, within so many seconds."""
    if address.path is None:
        opened = socket.create_connection((address.host, address.port), timeout)
        opened.setsockopt(socket.IPPROTO_TCP, socket.TCP_NODELAY, 1)
        return opened
    opened = socket.socket(socket.AF_UNIX, socket.SOCK_STREAM)
    try:
        opened.settimeout(timeout)
        opened.connect(address.path)
    except BaseException:
        opened.close()
        raise
    return opened


class _Connection:
    """An open connection, for one request at a time."""

    def __init__(self, address: Address, tls: Optional[ssl.SSLContext], timeout: float) -> None:
        self.incoming = Incoming()
        self._socket = _connected(address, timeout)
        try:
            if address.is_tls:
                self._socket = (tls or ssl.create_default_context()).wrap_socket(self._socket, server_hostname=address.host)
        except BaseException:
            self.close()
            raise

    def is_fresh(self) -> bool:
        """Whether nothing came since the last reply, which would be its end, or bytes that nobody asked for."""
        return self.incoming.is_empty() and not select.select([self._socket], [], [], 0)[0]

    def send(self, text: bytes, timeout: float) -> None:
        self._socket.settimeout(timeout)
        self._socket.sendall(text)

    def silent_for(self, timeout: float) -> None:
        self._socket.settimeout(timeout)

    def read(self, reading: Reading[T]) -> T:
        """What is read of the bytes that come."""
        try:
            next(reading)
            while True:
                reading.send(self._socket.recv(65536))
        except StopIteration as end:
            value: T = end.value
            return value

    def close(self) -> None:
        self._socket.close()


class _Stream:
    """A reply that comes piece by piece."""

    def __init__(self, connection: _Connection, head: Head) -> None:
        self._connection, self._body = connection, Body(connection.incoming, head)

    def piece(self) -> bytes:
        """The next bytes; none at its end."""
        return self._connection.read(self._body.piece())

    def close(self) -> None:
        self._connection.close()


class Client(Asking):
    """Asks the processes of a group, at addresses `unix:PATH`, `http://HOST:PORT` or `https://HOST:PORT`. Any thread may use it.

    `token` is shown to each, or is what gives it; `tls` is the `ssl.SSLContext` of https. An address of a network without TLS is refused, unless
    `insecure_network` says that whoever is on it may read and change what goes by. A process may be silent for `timeout` seconds, and a call with an id
    is asked again for `deadline` seconds.

    Each call takes `request_id`, its name in logs; without one it is given one. Evaluations, searches and the dump take `consistency`, "ordered" or
    "local", and `at_least`: a `Decision.at` or `Record.at` that was told before, which the answer then knows."""

    def __init__(
        self, *addresses: str, token: Token = None, tls: Optional[ssl.SSLContext] = None, insecure_network: bool = False,
        timeout: float = options.TIMEOUT, deadline: float = options.DEADLINE,
    ) -> None:  # fmt: skip
        super().__init__(addresses, timeout, deadline)
        options.refuse_open_network(self.addresses, insecure_network)
        self._token, self._tls = token, options.context_of(self.addresses, tls)
        self._lock = threading.Lock()
        self._idle: list[tuple[int, _Connection]] = []
        self._process = os.getpid()

    def evaluate(
        self, subject: Subject, action: str, resource: str, session: Optional[str] = None, *,
        consistency: Optional[str] = None, at_least: Optional[str] = None, request_id: Optional[str] = None,
    ) -> Decision:  # fmt: skip
        """Whether a subject may perform an action on a resource. Of a user with a session, that one is asked. It is sent once."""
        return self._do(self._evaluate(Evaluation(subject, action, resource, session), Rests(consistency, at_least, request_id)))

    def evaluations(
        self, evaluations: Sequence[Evaluation], semantic: str = "execute_all", *,
        consistency: Optional[str] = None, at_least: Optional[str] = None, request_id: Optional[str] = None,
    ) -> list[Decision]:  # fmt: skip
        """The decisions of 1 to 64 evaluations, in their order; with `deny_on_first_deny` or `permit_on_first_permit` up to that one."""
        return self._do(self._evaluations(evaluations, semantic, Rests(consistency, at_least, request_id)))

    def search_actions(
        self, subject: Subject, resource: str, session: Optional[str] = None, *, limit: Optional[int] = None,
        consistency: Optional[str] = None, at_least: Optional[str] = None, request_id: Optional[str] = None,
    ) -> Iterator[str]:  # fmt: skip
        """The names of the actions that a subject may perform on a resource, page after page of `limit` names. Of a subject that is not there: none."""
        return self._names(Search.of_actions(subject, resource, session, limit, Rests(consistency, at_least, request_id)))

    def search_resources(
        self, subject: Subject, action: str, session: Optional[str] = None, *, limit: Optional[int] = None,
        consistency: Optional[str] = None, at_least: Optional[str] = None, request_id: Optional[str] = None,
    ) -> Iterator[str]:  # fmt: skip
        """The names of the resources on which a subject may perform an action, page after page."""
        return self._names(Search.of_resources(subject, action, session, limit, Rests(consistency, at_least, request_id)))

    def search_subjects(
        self, kind: str, action: str, resource: str, *, limit: Optional[int] = None,
        consistency: Optional[str] = None, at_least: Optional[str] = None, request_id: Optional[str] = None,
    ) -> Iterator[str]:  # fmt: skip
        """The names of the sessions (`kind` "session") or users ("user") that may perform an action on a resource, page after page."""
        return self._names(Search.of_subjects(kind, action, resource, limit, Rests(consistency, at_least, request_id)))

    def _names(self, search: Search) -> Iterator[str]:
        token = None
        while True:
            page = self._do(self._page(search, token))
            yield from page.names
            token = page.next_token
            if token is None:
                return

    def submit(
        self, commands: Sequence[dict[str, Any]], key: Optional[str] = None, *,
        place: Optional[Place] = None, deadline: Optional[float] = None, request_id: Optional[str] = None,
    ) -> list[Record]:  # fmt: skip
        """Has 1 to 64 commands carried out, together and once, and gives their records. `key` is the call's id, and a new one where none is given: by
        it the call is asked again at its place, where a reply was lost or a process is not ready, for `deadline` seconds. What is raised then has
        `key` and `place`; with both given it is that call again, at any later time, and by any client of the same caller. A key alone is asked
        wherever a process takes it first: at another member than before it is another call."""
        return self._do(self._submit(Call(commands, asked.id_of(key, "key"), place, request_id), deadline))

    def dump(self, *, consistency: Optional[str] = None, at_least: Optional[str] = None, request_id: Optional[str] = None) -> Dump:
        """The commands that make the policy."""
        return self._do(self._dump(Rests(consistency, at_least, request_id)))

    def status(self, *, request_id: Optional[str] = None) -> dict[str, Any]:
        """What the first process that answers tells of itself."""
        return self._do(self._status(Rests(request_id=request_id)))

    def history(self, from_: int = 1, generation: Optional[int] = None, *, request_id: Optional[str] = None) -> Iterator[Record]:
        """The records from a number of a generation on, of the one that goes on where none is named, and what comes later as it comes, in later
        generations too. A connection that breaks is opened again, there or at another process, and goes on behind the last record; who comes back
        later begins with `record.number + 1` of `record.generation`."""
        follower = Follower(from_, generation, request_id, Patience(self._deadline))
        while True:
            stream = self._do(self._open(follower))
            try:
                while piece := stream.piece():
                    yield from follower.take(piece)
            except (OSError, NoReply):
                pass
            finally:
                stream.close()

    def close(self) -> None:
        """Ends the connections that are kept."""
        with self._lock:
            idle, self._idle = self._idle, []
        for _, connection in idle:
            connection.close()

    def __enter__(self) -> Self:
        return self

    def __exit__(self, _kind: Optional[type[BaseException]], _error: Optional[BaseException], _where: Optional[TracebackType]) -> None:
        self.close()

    def _do(self, steps: Steps[T]) -> T:
        """Does each step of a call."""
        done: Union[Outcome, Opened, None] = None
        while True:
            try:
                step = steps.send(done)
            except StopIteration as end:
                value: T = end.value
                return value
            if isinstance(step, Wait):
                time.sleep(step.seconds)
                done = None
            else:
                done = self._asked(step)

    def _asked(self, step: Union[Ask, Open]) -> Union[Outcome, Opened]:
        """What came of a request."""
        address = self.addresses[step.at]
        text = step.request.bytes_for(address, self._token() if callable(self._token) else self._token)
        try:
            connection = self._connection(step.at, step.timeout)
        except OSError as error:
            return Unsent(f"{address.text}: {error}")
        try:
            connection.send(text, step.timeout)
            if isinstance(step, Open):
                return _opened(connection)
            reply, is_kept = connection.read(read_reply(connection.incoming))
        except (OSError, NoReply) as error:
            connection.close()
            return Lost(f"{address.text}: {error}")
        except BaseException:
            connection.close()
            raise
        self._put_back(step.at, connection, is_kept)
        return reply

    def _connection(self, at: int, timeout: float) -> _Connection:
        """One that is kept and takes a request, or else a new one."""
        if self._process != os.getpid():
            # After a fork they are the parent's, and another thread of it may have had the lock.
            of_parent = self._idle
            self._process, self._lock, self._idle = os.getpid(), threading.Lock(), []
            for _, connection in of_parent:
                connection.close()
        while True:
            with self._lock:
                place = next((place for place, (of, _) in enumerate(self._idle) if of == at), None)
                kept = None if place is None else self._idle.pop(place)[1]
            if kept is None:
                return _Connection(self.addresses[at], self._tls, timeout)
            if kept.is_fresh():
                return kept
            kept.close()

    def _put_back(self, at: int, connection: _Connection, is_kept: bool) -> None:
        with self._lock:
            is_kept = is_kept and len(self._idle) < _MOST_IDLE
            if is_kept:
                self._idle.append((at, connection))
        if not is_kept:
            connection.close()


def _opened(connection: _Connection) -> Union[Opened, Reply]:
    """The stream of a reply that has begun, or a whole reply that is none."""
    head = connection.read(read_head(connection.incoming))
    connection.silent_for(options.SILENCE)
    stream = _Stream(connection, head)
    if head.status == 200:
        return Opened(stream)
    pieces = iter(stream.piece, b"")
    reply = Reply(head.status, head.headers, b"".join(pieces))
    connection.close()
    return reply
