"""HTTP/1.1 as a client speaks it, without a connection: the text of a request, and what is read of a reply's bytes as they come. What is framed in
two ways, or in none, is no reply."""

from __future__ import annotations

import re
import urllib.parse
from typing import Any, Generator, NamedTuple, Optional, TypeVar

T = TypeVar("T")

# What reads: each `yield` asks for bytes that came, and is sent b"" where no more come.
Reading = Generator[None, bytes, T]

_LONGEST_HEAD = 65536
_VISIBLE = re.compile(r"[\x21-\x7e]+(?: [\x21-\x7e]+)*")
_FRAMES = ("content-length", "transfer-encoding")


class NoReply(Exception):
    """The bytes that came are no reply, or end within one."""


class Address(NamedTuple):
    """Where a process is found: `unix:PATH`, `http://HOST:PORT` or `https://HOST:PORT`."""

    text: str
    # Of a unix socket its path, else none.
    path: Optional[str]
    host: str
    port: int
    is_tls: bool

    @classmethod
    def of(cls, text: str) -> Address:
        """Reads it. ValueError: it is none."""
        if text.startswith("unix:") and len(text) > len("unix:"):
            return cls(text, text[len("unix:") :], "localhost", 0, False)
        parts = urllib.parse.urlsplit(text)
        if parts.scheme not in ("http", "https") or not parts.hostname or parts.path not in ("", "/") or parts.query or parts.fragment or "@" in parts.netloc:
            raise ValueError(f"{text!r} is none of unix:PATH, http://HOST:PORT, https://HOST:PORT")
        is_tls = parts.scheme == "https"
        return cls(text, None, parts.hostname, parts.port or (443 if is_tls else 80), is_tls)

    def is_private(self) -> bool:
        """Whether what is sent there can be read by this machine alone, or by nobody else."""
        return self.is_tls or self.path is not None or self.host in ("localhost", "127.0.0.1", "::1")

    def named(self) -> str:
        """What the header `Host` says."""
        host = f"[{self.host}]" if ":" in self.host else self.host
        return host if self.path is not None else f"{host}:{self.port}"


class Request(NamedTuple):
    """What is asked, wherever."""

    method: str
    target: str
    body: Optional[bytes] = None
    headers: tuple[tuple[str, str], ...] = ()

    def bytes_for(self, address: Address, token: Optional[str]) -> bytes:
        """Its text. ValueError: a header would be no header."""
        headers = [("Host", address.named()), *self.headers]
        if token is not None:
            headers.append(("Authorization", f"Bearer {token}"))
        if self.body is not None:
            headers += [("Content-Type", "application/json"), ("Content-Length", str(len(self.body)))]
        for name, value in headers:
            if not _VISIBLE.fullmatch(value):
                raise ValueError(f"the header {name} is visible ASCII")
        lines = [f"{self.method} {self.target} HTTP/1.1", *(f"{name}: {value}" for name, value in headers), "", ""]
        return "\r\n".join(lines).encode("ascii") + (self.body or b"")


class Head(NamedTuple):
    """The status of a reply, and its headers by their names in small letters."""

    status: int
    headers: dict[str, str]

    def keeps(self) -> bool:
        """Whether the connection takes another request then."""
        return "close" not in self.headers.get("connection", "").lower()


class Reply(NamedTuple):
    """A whole reply."""

    status: int
    headers: dict[str, str]
    body: bytes


class Incoming:
    """What came over a connection, and was not read yet."""

    def __init__(self) -> None:
        self._left = bytearray()

    def is_empty(self) -> bool:
        """Whether there is nothing: else what is read next would be of a reply to nobody."""
        return not self._left

    def line(self) -> Reading[bytes]:
        """The next line, without its end."""
        while (end := self._left.find(b"\r\n")) < 0:
            if len(self._left) > _LONGEST_HEAD:
                raise NoReply("a line is too long")
            yield from self._more()
        return self._take(end + 2)[:-2]

    def exactly(self, length: int) -> Reading[bytes]:
        """The next so many bytes."""
        while len(self._left) < length:
            yield from self._more()
        return self._take(length)

    def some(self, most: int) -> Reading[bytes]:
        """Some of the next bytes, as soon as there are any."""
        if not self._left:
            yield from self._more()
        return self._take(min(most, len(self._left)))

    def _more(self) -> Reading[None]:
        part = yield
        if not part:
            raise NoReply("the connection ended within a reply" if self._left else "the connection ended without a reply")
        self._left += part

    def _take(self, length: int) -> bytes:
        taken = bytes(self._left[:length])
        del self._left[:length]
        return taken


def read_head(incoming: Incoming) -> Reading[Head]:
    """Reads a reply up to its body."""
    line = yield from incoming.line()
    status = re.fullmatch(rb"HTTP/1\.1 ([2-5]\d\d)(?: .*)?", line)
    if not status:
        raise NoReply("it begins with no status of HTTP/1.1")
    headers: dict[str, str] = {}
    length = 0
    while line := (yield from incoming.line()):
        length += len(line)
        name, colon, value = line.decode("latin-1").partition(":")
        name = name.lower()
        if not colon or name != name.strip() or not name or length > _LONGEST_HEAD or name in _FRAMES and name in headers:
            raise NoReply("a header is none")
        headers[name] = value.strip()
    return Head(int(status[1]), headers)


class Body:
    """The body of a reply, as its head frames it."""

    def __init__(self, incoming: Incoming, head: Head) -> None:
        coding, length = (head.headers.get(name) for name in ("transfer-encoding", "content-length"))
        self._incoming, self._is_chunked = incoming, coding is not None
        if coding is not None and (length is not None or coding.lower() != "chunked"):
            raise NoReply("its length is told in two ways")
        if coding is None and head.status != 204 and not re.fullmatch(r"\d{1,15}", length or ""):
            raise NoReply("its length is not told")
        # Of the body, or of a chunk of it.
        self._left = int(length or 0)
        self._is_in_chunk = self._is_over = False

    def piece(self) -> Reading[bytes]:
        """The next bytes that came of it; none at its end."""
        if self._left == 0 and self._is_chunked and not self._is_over:
            yield from self._next_chunk()
        if self._left == 0:
            return b""
        part = yield from self._incoming.some(self._left)
        self._left -= len(part)
        return part

    def _next_chunk(self) -> Reading[None]:
        if self._is_in_chunk and (yield from self._incoming.exactly(2)) != b"\r\n":
            raise NoReply("a chunk is longer than its length")
        found = re.fullmatch(rb"([0-9A-Fa-f]{1,8})(?:;.*)?", (yield from self._incoming.line()))
        if not found:
            raise NoReply("a chunk has no length")
        self._left, self._is_in_chunk = int(found[1], 16), True
        self._is_over = self._left == 0
        while self._is_over and (yield from self._incoming.line()):
            pass

    def rest(self) -> Reading[bytes]:
        """All that was not read of it."""
        pieces = []
        while piece := (yield from self.piece()):
            pieces.append(piece)
        return b"".join(pieces)


def read_reply(incoming: Incoming) -> Reading[tuple[Reply, bool]]:
    """Reads a whole reply, and whether the connection takes another request then."""
    head = yield from read_head(incoming)
    body = yield from Body(incoming, head).rest()
    return Reply(head.status, head.headers, body), head.keeps() and incoming.is_empty()


def query(**words: Any) -> str:
    """The query of those words that are there, with what begins it."""
    there = {name.rstrip("_"): value for name, value in words.items() if value is not None}
    return "?" + urllib.parse.urlencode(there) if there else ""
