"""What is told. Each reader takes what the API gives, and raises `BadReply` of anything else."""

from __future__ import annotations

import json
from dataclasses import dataclass
from typing import Any, NamedTuple, Optional

from .. import Denial
from .errors import BadReply, ClientError, refused
from .http import Reply, Request


class Reason(NamedTuple):
    """Why a decision was not granted: a word, and of a denial its number."""

    word: str
    number: Optional[int]


class Place(NamedTuple):
    """Where a call with an id is asked. Asked elsewhere, it is another call."""

    generation: int
    member: int


@dataclass(frozen=True)
class Decision:
    """What an evaluation was told. It is true only where it was granted. `at` is up to where that is right, as `at_least` takes it."""

    granted: bool
    reason: Optional[Reason]
    generation: Optional[int]
    stamp: Optional[tuple[int, ...]]
    at: Optional[str]

    def __bool__(self) -> bool:
        return self.granted is True


@dataclass(frozen=True)
class Record:
    """A command that was delivered, with its answer: a `Denial`, which is false, or what JSON has. `at` is its place, as `at_least` takes it, and
    `number` its number in the history of its generation, where it was told with that."""

    answer: Any
    command: dict[str, Any]
    generation: int
    stamp: tuple[int, ...]
    caller: int
    serial: int
    number: Optional[int] = None

    @property
    def at(self) -> str:
        """The generation and the stamp as a text."""
        return ".".join(map(str, (self.generation, *self.stamp)))


class Dump(NamedTuple):
    """The commands that make the policy, and its generation."""

    generation: int
    commands: list[dict[str, Any]]


class Page(NamedTuple):
    """A part of what a search found, and what asks for the next one; none of the last."""

    names: list[str]
    next_token: Optional[str]


def name_of(request: Request) -> str:
    """How a request is called in logs."""
    return dict(request.headers)["X-Request-ID"]


def bad(why: str, request: Request) -> BadReply:
    """The error of a reply that no process gives."""
    return BadReply(why, name_of(request))


def object_of(text: bytes) -> Optional[dict[str, Any]]:
    """The JSON object that a text is; none where it is none."""
    try:
        told = json.loads(text)
    except ValueError:
        return None
    return told if isinstance(told, dict) else None


def retry_after(reply: Reply) -> Optional[float]:
    """After how many seconds it may be asked again, where that is told."""
    text = reply.headers.get("retry-after", "")
    return float(text) if text.isascii() and text.isdigit() and len(text) < 10 else None


def error_of(reply: Reply, request: Request) -> ClientError:
    """The error of a reply that is no answer."""
    return refused(reply.status, object_of(reply.body) or {}, name_of(request), retry_after(reply))


def answer_of(reply: Reply, request: Request) -> dict[str, Any]:
    """What was told with status 200."""
    if reply.headers.get("x-request-id", name_of(request)) != name_of(request):
        raise bad("the reply is that to another request", request)
    if reply.status != 200:
        raise error_of(reply, request)
    told = object_of(reply.body)
    if told is None:
        raise bad("the body is no JSON object", request)
    return told


def _whole(value: Any) -> Optional[int]:
    """A whole number; none where it is none, as true is."""
    return value if isinstance(value, int) and not isinstance(value, bool) else None


def _stamp_of(value: Any) -> Optional[tuple[int, ...]]:
    is_stamp = isinstance(value, list) and 2 <= len(value) <= 3 and all(_whole(part) is not None for part in value)
    return tuple(value) if is_stamp else None


def decision_of(told: Any, request: Request) -> Decision:
    """Reads a decision."""
    granted = told.get("decision") if isinstance(told, dict) else None
    context = told.get("context", {}) if isinstance(told, dict) else None
    if not isinstance(granted, bool) or not isinstance(context, dict):
        raise bad("the body tells no decision", request)
    told_reason, generation, at = context.get("reason"), context.get("generation"), context.get("at")
    reason = None
    if isinstance(told_reason, dict) and isinstance(told_reason.get("word"), str):
        reason = Reason(told_reason["word"], _whole(told_reason.get("number")))
    return Decision(granted, reason, _whole(generation), _stamp_of(context.get("stamp")), at if isinstance(at, str) else None)


def decisions_of(told: dict[str, Any], asked: int, semantic: str, request: Request) -> list[Decision]:
    """Reads a list of decisions: as many as were asked, or, where the semantic cuts it, up to the first one that does."""
    listed = told.get("evaluations")
    if not isinstance(listed, list):
        raise bad("the body tells no decisions", request)
    decisions = [decision_of(each, request) for each in listed]
    cuts = {"deny_on_first_deny": False, "permit_on_first_permit": True}.get(semantic)
    is_cut = cuts is not None and bool(decisions) and len(decisions) < asked and decisions[-1].granted is cuts
    if len(decisions) != asked and not is_cut:
        raise bad(f"{asked} evaluations were asked, and {len(decisions)} are told", request)
    return decisions


def record_of(told: Any, generation: int, number: Optional[int], request: Request) -> Record:
    """Reads a record."""
    stamp = _stamp_of(told.get("stamp")) if isinstance(told, dict) else None
    if stamp is None or "answer" not in told or not isinstance(told.get("command"), dict):
        raise bad("a record is none", request)
    caller, serial = _whole(told.get("caller")), _whole(told.get("serial"))
    if caller is None or serial is None:
        raise bad("a record is none", request)
    answer = told["answer"]
    if isinstance(answer, dict) and "denied" in answer:
        answer = Denial(answer["denied"], answer.get("number", 0))
    return Record(answer, told["command"], generation, stamp, caller, serial, number)


def records_of(told: dict[str, Any], asked: int, request: Request) -> list[Record]:
    """Reads the records of a call of so many commands."""
    generation, listed = _whole(told.get("generation")), told.get("records")
    if generation is None or not isinstance(listed, list) or len(listed) != asked:
        raise bad("the body does not tell a record of each command", request)
    return [record_of(each, generation, None, request) for each in listed]


def dump_of(told: dict[str, Any], request: Request) -> Dump:
    """Reads a dump."""
    generation, commands = _whole(told.get("generation")), told.get("commands")
    if generation is None or not isinstance(commands, list) or not all(isinstance(each, dict) for each in commands):
        raise bad("the body is no dump", request)
    return Dump(generation, commands)


def page_of(told: dict[str, Any], key: str, last: Optional[str], request: Request) -> Page:
    """Reads a page of results, whose names are at a key, and which goes on behind the last name of the page before."""
    results, page = told.get("results"), told.get("page")
    if not isinstance(results, list) or not isinstance(page, dict) or not isinstance(page.get("next_token"), str):
        raise bad("the body is no page of results", request)
    names = [each.get(key) if isinstance(each, dict) else None for each in results]
    if not all(isinstance(name, str) for name in names):
        raise bad("a result has no name", request)
    token = page["next_token"] or None
    if token is not None and (not names or token == last):
        raise bad("the pages do not end", request)
    return Page([name for name in names if name is not None], token)
