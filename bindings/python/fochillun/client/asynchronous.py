"""The client for asyncio."""

from __future__ import annotations

import asyncio
import ssl
from types import TracebackType
from typing import TYPE_CHECKING, Any, AsyncIterator, Awaitable, Callable, Optional, Sequence, TypeVar, Union

from . import asked, options
from .asked import Evaluation, Rests, Subject
from .http import Address, Body, Head, Incoming, NoReply, Reading, Reply, read_head, read_reply
from .steps import Ask, Asking, Call, Follower, Lost, Open, Opened, Outcome, Patience, Search, Steps, Unsent, Wait
from .told import Decision, Dump, Place, Record

if TYPE_CHECKING:
    from typing_extensions import Self

T = TypeVar("T")
_MOST_IDLE = 16
Token = Union[str, Callable[[], Union[str, Awaitable[str]]], None]
# A wait that is over is asyncio's own error before Python 3.11.
_BROKEN = (OSError, NoReply, asyncio.TimeoutError)


class _Connection:
    """An open connection, for one request at a time."""

    def __init__(self, reader: asyncio.StreamReader, writer: asyncio.StreamWriter) -> None:
        self.incoming = Incoming()
        self._reader, self._writer = reader, writer
        self._loop = asyncio.get_running_loop()

    @classmethod
    async def to(cls, address: Address, tls: Optional[ssl.SSLContext], timeout: float) -> _Connection:
        """A new one."""
        if address.path is not None:
            opened = asyncio.open_unix_connection(address.path)
        else:
            opened = asyncio.open_connection(address.host, address.port, ssl=(tls or True) if address.is_tls else None)
        return cls(*await asyncio.wait_for(opened, timeout))

    def is_fresh(self) -> bool:
        """Whether it takes a request, in this loop, and nothing came since the last reply."""
        is_open = self._loop is asyncio.get_running_loop() and not self._writer.is_closing() and not self._reader.at_eof()
        # What came and was not read yet, asyncio keeps there.
        return is_open and self.incoming.is_empty() and not getattr(self._reader, "_buffer", b"")

    async def send(self, text: bytes, timeout: float) -> None:
        self._writer.write(text)
        await asyncio.wait_for(self._writer.drain(), timeout)

    async def read(self, reading: Reading[T], timeout: float) -> T:
        """What is read of the bytes that come."""
        try:
            next(reading)
            while True:
                reading.send(await asyncio.wait_for(self._reader.read(65536), timeout))
        except StopIteration as end:
            value: T = end.value
            return value

    def close(self) -> None:
        # Nobody else may end what another loop has, or a parent's before a fork.
        if self._loop is asyncio.get_running_loop():
            self._writer.transport.abort()


class _Stream:
    """A reply that comes piece by piece."""

    def __init__(self, connection: _Connection, head: Head) -> None:
        self._connection, self._body = connection, Body(connection.incoming, head)

    async def piece(self) -> bytes:
        """The next bytes; none at its end."""
        return await self._connection.read(self._body.piece(), options.SILENCE)

    def close(self) -> None:
        self._connection.close()


class AsyncClient(Asking):
    """As `Client`, with the same words, for tasks of one event loop. `token` may be what gives an awaitable."""

    def __init__(
        self, *addresses: str, token: Token = None, tls: Optional[ssl.SSLContext] = None, insecure_network: bool = False,
        timeout: float = options.TIMEOUT, deadline: float = options.DEADLINE,
    ) -> None:  # fmt: skip
        super().__init__(addresses, timeout, deadline)
        options.refuse_open_network(self.addresses, insecure_network)
        self._token, self._tls = token, options.context_of(self.addresses, tls)
        self._idle: list[tuple[int, _Connection]] = []

    async def evaluate(
        self, subject: Subject, action: str, resource: str, session: Optional[str] = None, *,
        consistency: Optional[str] = None, at_least: Optional[str] = None, request_id: Optional[str] = None,
    ) -> Decision:  # fmt: skip
        """As `Client.evaluate`."""
        return await self._do(self._evaluate(Evaluation(subject, action, resource, session), Rests(consistency, at_least, request_id)))

    async def evaluations(
        self, evaluations: Sequence[Evaluation], semantic: str = "execute_all", *,
        consistency: Optional[str] = None, at_least: Optional[str] = None, request_id: Optional[str] = None,
    ) -> list[Decision]:  # fmt: skip
        """As `Client.evaluations`."""
        return await self._do(self._evaluations(evaluations, semantic, Rests(consistency, at_least, request_id)))

    def search_actions(
        self, subject: Subject, resource: str, session: Optional[str] = None, *, limit: Optional[int] = None,
        consistency: Optional[str] = None, at_least: Optional[str] = None, request_id: Optional[str] = None,
    ) -> AsyncIterator[str]:  # fmt: skip
        """As `Client.search_actions`."""
        return self._names(Search.of_actions(subject, resource, session, limit, Rests(consistency, at_least, request_id)))

    def search_resources(
        self, subject: Subject, action: str, session: Optional[str] = None, *, limit: Optional[int] = None,
        consistency: Optional[str] = None, at_least: Optional[str] = None, request_id: Optional[str] = None,
    ) -> AsyncIterator[str]:  # fmt: skip
        """As `Client.search_resources`."""
        return self._names(Search.of_resources(subject, action, session, limit, Rests(consistency, at_least, request_id)))

    def search_subjects(
        self, kind: str, action: str, resource: str, *, limit: Optional[int] = None,
        consistency: Optional[str] = None, at_least: Optional[str] = None, request_id: Optional[str] = None,
    ) -> AsyncIterator[str]:  # fmt: skip
        """As `Client.search_subjects`."""
        return self._names(Search.of_subjects(kind, action, resource, limit, Rests(consistency, at_least, request_id)))

    async def _names(self, search: Search) -> AsyncIterator[str]:
        token = None
        while True:
            page = await self._do(self._page(search, token))
            for name in page.names:
                yield name
            token = page.next_token
            if token is None:
                return

    async def submit(
        self, commands: Sequence[dict[str, Any]], key: Optional[str] = None, *,
        place: Optional[Place] = None, deadline: Optional[float] = None, request_id: Optional[str] = None,
    ) -> list[Record]:  # fmt: skip
        """As `Client.submit`. Who cancels it does not know whether the commands are carried out, unless it has given `key` and `place`."""
        return await self._do(self._submit(Call(commands, asked.id_of(key, "key"), place, request_id), deadline))

    async def dump(self, *, consistency: Optional[str] = None, at_least: Optional[str] = None, request_id: Optional[str] = None) -> Dump:
        """As `Client.dump`."""
        return await self._do(self._dump(Rests(consistency, at_least, request_id)))

    async def status(self, *, request_id: Optional[str] = None) -> dict[str, Any]:
        """As `Client.status`."""
        return await self._do(self._status(Rests(request_id=request_id)))

    async def history(self, from_: int = 1, generation: Optional[int] = None, *, request_id: Optional[str] = None) -> AsyncIterator[Record]:
        """As `Client.history`."""
        follower = Follower(from_, generation, request_id, Patience(self._deadline))
        while True:
            stream = await self._do(self._open(follower))
            try:
                while piece := await stream.piece():
                    for record in follower.take(piece):
                        yield record
            except _BROKEN:
                pass
            finally:
                stream.close()

    async def close(self) -> None:
        """Ends the connections that are kept."""
        idle, self._idle = self._idle, []
        for _, connection in idle:
            connection.close()
        # So that the loop has done it, which may end now.
        await asyncio.sleep(0)

    async def __aenter__(self) -> Self:
        return self

    async def __aexit__(self, _kind: Optional[type[BaseException]], _error: Optional[BaseException], _where: Optional[TracebackType]) -> None:
        await self.close()

    async def _do(self, steps: Steps[T]) -> T:
        """Does each step of a call."""
        done: Union[Outcome, Opened, None] = None
        while True:
            try:
                step = steps.send(done)
            except StopIteration as end:
                value: T = end.value
                return value
            if isinstance(step, Wait):
                await asyncio.sleep(step.seconds)
                done = None
            else:
                done = await self._asked(step)

    async def _asked(self, step: Union[Ask, Open]) -> Union[Outcome, Opened]:
        """What came of a request."""
        address = self.addresses[step.at]
        text = step.request.bytes_for(address, await self._shown_token())
        try:
            connection = self._kept(step.at) or await _Connection.to(address, self._tls, step.timeout)
        except (OSError, asyncio.TimeoutError) as error:
            return Unsent(f"{address.text}: {error or type(error).__name__}")
        try:
            await connection.send(text, step.timeout)
            if isinstance(step, Open):
                return await _opened(connection)
            reply, is_kept = await connection.read(read_reply(connection.incoming), step.timeout)
        except _BROKEN as error:
            connection.close()
            return Lost(f"{address.text}: {error or type(error).__name__}")
        except BaseException:
            connection.close()
            raise
        if is_kept and len(self._idle) < _MOST_IDLE:
            self._idle.append((step.at, connection))
        else:
            connection.close()
        return reply

    def _kept(self, at: int) -> Optional[_Connection]:
        """A connection that takes a request; none where there is none."""
        for kept in [kept for kept in self._idle if kept[0] == at]:
            self._idle.remove(kept)
            if kept[1].is_fresh():
                return kept[1]
            kept[1].close()
        return None

    async def _shown_token(self) -> Optional[str]:
        token = self._token() if callable(self._token) else self._token
        return token if token is None or isinstance(token, str) else await token


async def _opened(connection: _Connection) -> Union[Opened, Reply]:
    """The stream of a reply that has begun, or a whole reply that is none."""
    head = await connection.read(read_head(connection.incoming), options.TIMEOUT)
    stream = _Stream(connection, head)
    if head.status == 200:
        return Opened(stream)
    pieces = []
    while piece := await stream.piece():
        pieces.append(piece)
    connection.close()
    return Reply(head.status, head.headers, b"".join(pieces))
