"""A client of the processes of a group, `fochillund`, over HTTP: decisions, searches, commands and the history, as docs/API.md has them.

    from fochillun.client import Client, session

    with Client("unix:hospital.group/n1.sock") as client:
        if client.evaluate(session("shift"), "read", "record"): ...

`AsyncClient` has the same calls for asyncio. It needs the standard library alone: of a call without an id a client has to know whether any of it was
sent, which a library that keeps connections and tries again by itself does not tell. What is sent, how a reply is read and what is asked next stand
in one place for both clients (`http`, `steps`); these bring the bytes.

What is granted is what the process told. What is neither granted nor refused is a `ClientError`, and never false: a reply that was lost, a process
that is not ready, a reply that says something else.
"""

from .asked import Evaluation, Subject, session, user
from .asynchronous import AsyncClient
from .errors import (
    BadReply,
    BadRequest,
    Behind,
    ClientError,
    Gone,
    NotPermitted,
    NotReady,
    NotTaken,
    OtherCommands,
    OtherMember,
    RefusedByProcess,
    ReplyLost,
    TooMuch,
    UnknownCaller,
    Unreachable,
)
from .synchronous import Client
from .told import Decision, Dump, Place, Reason, Record

__all__ = [
    "AsyncClient",
    "BadReply",
    "BadRequest",
    "Behind",
    "Client",
    "ClientError",
    "Decision",
    "Dump",
    "Evaluation",
    "Gone",
    "NotPermitted",
    "NotReady",
    "NotTaken",
    "OtherCommands",
    "OtherMember",
    "Place",
    "Reason",
    "Record",
    "RefusedByProcess",
    "ReplyLost",
    "Subject",
    "TooMuch",
    "UnknownCaller",
    "Unreachable",
    "session",
    "user",
]
