"""What a client does, step by step, whoever brings the bytes: which process is asked, what is read of its reply, and what is asked next.

A call without an id is sent once: another process is asked only where nothing was sent. What changes nothing and has no place in the members' order
(GET) may be asked anywhere, and again. A call with an id is asked again at its place, its generation and its member, until it is answered there, since
elsewhere it would be another call; it is given another place only where it is told that it stands nowhere."""

from __future__ import annotations

import time
from typing import Any, Callable, Generator, Iterator, NamedTuple, Optional, Sequence, TypeVar, Union

from . import asked, told
from .asked import Evaluation, Rests, Subject
from .errors import ClientError, Gone, NotReady, ReplyLost, TooMuch, Unreachable
from .http import Address, Reply, Request
from .told import Decision, Dump, Page, Place, Record

T = TypeVar("T")

FIRST_PAUSE, LONGEST_PAUSE = 0.05, 1.0
_UNREADY = (429, 502, 503, 504)
# How often a call that stands nowhere is given another place at one process, before another one is asked.
_MOST_PLACES = 4


class Ask(NamedTuple):
    """To be done: a process is asked, by its place among the addresses, for so many seconds."""

    at: int
    request: Request
    timeout: float


class Open(NamedTuple):
    """To be done: a process is asked for what comes piece by piece."""

    at: int
    request: Request
    timeout: float


class Wait(NamedTuple):
    """To be done: nothing, for so many seconds."""

    seconds: float


class Unsent(NamedTuple):
    """What was done: the process was not reached, and nothing was sent."""

    why: str


class Lost(NamedTuple):
    """What was done: it was sent, and no whole reply came."""

    why: str


class Opened(NamedTuple):
    """What was done: the reply has begun, with status 200."""

    stream: Any


Outcome = Union[Reply, Unsent, Lost]
Step = Union[Ask, Open, Wait]
Steps = Generator[Step, Union[Outcome, Opened, None], T]


def fault_of(outcome: Outcome, request: Request) -> ClientError:
    """The error of what is no answer."""
    if isinstance(outcome, Unsent):
        return Unreachable(outcome.why, told.name_of(request))
    if isinstance(outcome, Lost):
        return ReplyLost(outcome.why, told.name_of(request))
    return told.error_of(outcome, request)


def is_unready(outcome: Outcome) -> bool:
    """Whether another process is better asked."""
    return not isinstance(outcome, Reply) or outcome.status in _UNREADY


class Patience:
    """For how many seconds something is tried again, from when it first failed on, and how long is waited between."""

    def __init__(self, seconds: float) -> None:
        self._seconds = seconds
        self.begin()

    def begin(self) -> None:
        """Something was answered."""
        self._until: Optional[float] = None
        self._pause = FIRST_PAUSE

    def pause(self, fault: Optional[ClientError]) -> Optional[Wait]:
        """The next wait; none where there is no time for it."""
        now = time.monotonic()
        if self._until is None:
            self._until = now + self._seconds
        pause, self._pause = self._pause, min(self._pause * 2, LONGEST_PAUSE)
        seconds = getattr(fault, "retry_after", None) or pause
        return Wait(seconds) if now + seconds < self._until else None


class Call:
    """A call with an id. `place` is where it may stand: none where it stands nowhere."""

    def __init__(self, commands: Sequence[dict[str, Any]], key: str, place: Optional[Place], request_id: Optional[str]) -> None:
        self.commands, self.key, self.place = list(commands), key, place
        self.request_id = asked.id_of(request_id, "request_id")
        self.fault: Optional[ClientError] = None

    def request(self, place: Place) -> Request:
        """It, asked at a place."""
        body = {"generation": place.generation, "member": place.member, "commands": self.commands}
        return asked.request("POST", "/v1/commands", body, self.request_id, ("Idempotency-Key", self.key))

    def next_place(self, place: Place, reply: Reply) -> Optional[Place]:
        """Where it is asked next at that process; none where that is nowhere. Raises what ends it."""
        fault = told.error_of(reply, self.request(place))
        said = told.object_of(reply.body) or {}
        word, generation, member = said.get("error"), said.get("generation"), said.get("member")
        if word == "NotTaken":
            # Which is final: it stands nowhere.
            self.place = None
        if word not in ("NotTaken", "NoGeneration", "OldGeneration", "OtherMember") or word == "OldGeneration" and self.place:
            raise fault
        if self.place or word == "OtherMember" and member is None:
            # Another process may be that member, or know of that generation; and one that follows is none.
            self.fault = self.fault or fault
            return None
        if word == "OtherMember" and isinstance(member, int):
            return Place(place.generation, member)
        if word != "OtherMember" and isinstance(generation, int):
            return Place(generation, place.member)
        raise fault


class Follower:
    """One who reads the history: where it is, and what it was told and not given yet."""

    def __init__(self, from_: int, generation: Optional[int], request_id: Optional[str], patience: Patience) -> None:
        self.generation, self.next, self.patience = generation, from_, patience
        self.was_open = False
        self._request_id = asked.id_of(request_id, "request_id")
        self._text = b""

    def which(self) -> Request:
        """Asks which generation goes on."""
        return asked.request("GET", "/v1/records?from=4503599627370496", None, self._request_id)

    def request(self) -> Request:
        """Asks for what follows."""
        return asked.request("GET", f"/v1/history?generation={self.generation}&from={self.next}", None, self._request_id, ("Accept", "text/event-stream"))

    def opened(self) -> None:
        """It is told from here. What broke off before is told again."""
        self.was_open, self._text = True, b""

    def take(self, piece: bytes) -> Iterator[Record]:
        """The records of the events that are whole with these bytes."""
        self.patience.begin()
        *events, self._text = (self._text + piece).split(b"\n\n")
        for event in events:
            fields = {name: value for name, _, value in (line.partition(b": ") for line in event.split(b"\n"))}
            if b"data" in fields:
                yield from self._event(fields)

    def _event(self, fields: dict[bytes, bytes]) -> Iterator[Record]:
        request, said = self.request(), told.object_of(fields[b"data"])
        if fields.get(b"event") == b"generation":
            generation = (said or {}).get("generation")
            if generation != (self.generation or 0) + 1:
                raise told.bad("the history goes on in another generation than the next", request)
            self.generation, self.next = generation, 1
            return
        if fields.get(b"id") != f"{self.generation}.{self.next}".encode():
            raise told.bad("the history tells another record than the next", request)
        record = told.record_of(said, self.generation or 0, self.next, request)
        self.next += 1
        yield record


class Asking:
    """What both clients do alike, but for bringing bytes."""

    def __init__(self, addresses: Sequence[str], timeout: float, deadline: float) -> None:
        if not addresses:
            raise ValueError("a client has an address")
        self.addresses = [Address.of(text) for text in addresses]
        self._timeout, self._deadline = timeout, deadline
        self._first = 0
        self._places: dict[int, Place] = {}

    def _order(self) -> Iterator[int]:
        first, count = self._first, len(self.addresses)
        return ((first + at) % count for at in range(count))

    def _pass_over(self, at: int) -> None:
        """The next call begins with another process."""
        self._first = (at + 1) % len(self.addresses)

    def _once(self, request: Request) -> Steps[dict[str, Any]]:
        """Asks one process. Another one is asked only where nothing was sent."""
        return (yield from self._in_turn(request, lambda outcome: not isinstance(outcome, Unsent)))

    def _anywhere(self, request: Request) -> Steps[dict[str, Any]]:
        """Asks each process in turn, until one is ready."""
        return (yield from self._in_turn(request, lambda outcome: not is_unready(outcome)))

    def _in_turn(self, request: Request, ends: Callable[[Outcome], bool]) -> Steps[dict[str, Any]]:
        outcome: Outcome = Unsent("no process is asked")
        for at in self._order():
            outcome = _outcome((yield Ask(at, request, self._timeout)))
            if is_unready(outcome):
                self._pass_over(at)
            if ends(outcome):
                break
        if not isinstance(outcome, Reply):
            raise fault_of(outcome, request)
        return told.answer_of(outcome, request)

    def _evaluate(self, evaluation: Evaluation, rests: Rests) -> Steps[Decision]:
        request = rests.request("POST", "/access/v1/evaluation", evaluation.body())
        return told.decision_of((yield from self._once(request)), request)

    def _evaluations(self, evaluations: Sequence[Evaluation], semantic: str, rests: Rests) -> Steps[list[Decision]]:
        request = rests.request("POST", "/access/v1/evaluations", asked.evaluations_of(evaluations, semantic))
        return told.decisions_of((yield from self._once(request)), len(evaluations), semantic, request)

    def _page(self, search: Search, token: Optional[str]) -> Steps[Page]:
        request = search.request(token)
        return told.page_of((yield from self._once(request)), search.key, token, request)

    def _dump(self, rests: Rests) -> Steps[Dump]:
        request = rests.request("GET", "/v1/dump")
        return told.dump_of((yield from self._anywhere(request)), request)

    def _status(self, rests: Rests) -> Steps[dict[str, Any]]:
        return (yield from self._anywhere(rests.request("GET", "/v1/status")))

    def _submit(self, call: Call, deadline: Optional[float]) -> Steps[list[Record]]:
        """Asks a call until it is answered, or its time is over. Its errors have what asks it again."""
        try:
            return (yield from self._submit_until(call, Patience(self._deadline if deadline is None else deadline)))
        except ClientError as fault:
            fault.key, fault.place = call.key, call.place
            raise

    def _submit_until(self, call: Call, patience: Patience) -> Steps[list[Record]]:
        while True:
            for at in self._order():
                records = yield from self._submit_at(call, at)
                if records is not None:
                    self._first = at
                    return records
            wait = patience.pause(call.fault)
            if wait is None:
                raise call.fault or Unreachable("no process is asked", call.request_id)
            yield wait

    def _submit_at(self, call: Call, at: int) -> Steps[Optional[list[Record]]]:
        """Asks a call at one process: none where that does not answer it now."""
        for _ in range(_MOST_PLACES):
            # Of a process that was asked nothing yet: it refuses another place than its own, and tells which that is.
            place = call.place or self._places.get(at) or Place(1, 1)
            request = call.request(place)
            outcome = _outcome((yield Ask(at, request, self._timeout)))
            if isinstance(outcome, Reply) and outcome.status == 200:
                call.place = self._places[at] = place
                return told.records_of(told.answer_of(outcome, request), len(call.commands), request)
            if is_unready(outcome):
                fault = fault_of(outcome, request)
                if not isinstance(fault, (Unreachable, TooMuch)):
                    call.place = place
                call.fault = _later(call.fault, fault)
                return None
            next_place = call.next_place(place, outcome) if isinstance(outcome, Reply) else None
            if next_place is None:
                return None
            self._places[at] = next_place
        return None

    def _find_generation(self, follower: Follower) -> Steps[None]:
        """Where no generation is named, finds the one that goes on: one that began before a reader's first record came would be told in part else."""
        if follower.generation is None:
            request = follower.which()
            generation = (yield from self._anywhere(request)).get("generation")
            if not isinstance(generation, int):
                raise told.bad("the body tells no generation", request)
            follower.generation = generation

    def _open(self, follower: Follower) -> Steps[Any]:
        """Has a process tell the history from where a reader is."""
        if follower.was_open:
            wait = follower.patience.pause(None)
            if wait is None:
                raise ReplyLost("the history breaks off again and again", told.name_of(follower.request()))
            yield wait
        yield from self._find_generation(follower)
        while True:
            faults = []
            for at in self._order():
                request = follower.request()
                outcome = yield Open(at, request, self._timeout)
                if isinstance(outcome, Opened):
                    self._first = at
                    follower.opened()
                    return outcome.stream
                faults.append(fault_of(_outcome(outcome), request))
                if not isinstance(faults[-1], (Unreachable, ReplyLost, TooMuch, NotReady, Gone)):
                    raise faults[-1]
            wait = follower.patience.pause(faults[-1])
            # One that has not begun the generation yet may tell of it later, and one that keeps it may be silent now.
            if wait is None or all(isinstance(fault, Gone) for fault in faults):
                raise faults[-1]
            yield wait


class Search(NamedTuple):
    """A search: its path, its body, at which key its results have their names, and how many a page has."""

    path: str
    body: dict[str, Any]
    key: str
    limit: Optional[int]
    rests: Rests

    def request(self, token: Optional[str]) -> Request:
        """Asks for a page."""
        page = {name: value for name, value in (("token", token), ("limit", self.limit)) if value is not None}
        return self.rests.request("POST", self.path, {**self.body, "page": page})

    @classmethod
    def of_actions(cls, subject: Subject, resource: str, session: Optional[str], limit: Optional[int], rests: Rests) -> Search:
        """The actions that a subject may perform on a resource."""
        body = {**asked.subject_of(subject, session), "resource": {"type": "object", "id": resource}}
        return cls("/access/v1/search/action", body, "name", limit, rests)

    @classmethod
    def of_resources(cls, subject: Subject, action: str, session: Optional[str], limit: Optional[int], rests: Rests) -> Search:
        """The resources on which a subject may perform an action."""
        body = {**asked.subject_of(subject, session), "action": {"name": action}, "resource": {"type": "object"}}
        return cls("/access/v1/search/resource", body, "id", limit, rests)

    @classmethod
    def of_subjects(cls, kind: str, action: str, resource: str, limit: Optional[int], rests: Rests) -> Search:
        """The subjects of a kind that may perform an action on a resource."""
        body = {"subject": {"type": kind}, "action": {"name": action}, "resource": {"type": "object", "id": resource}}
        return cls("/access/v1/search/subject", body, "id", limit, rests)


def _outcome(outcome: Union[Outcome, Opened, None]) -> Outcome:
    assert isinstance(outcome, (Reply, Unsent, Lost)), "who asks is told what came of it"
    return outcome


def _later(before: Optional[ClientError], fault: ClientError) -> ClientError:
    """Of two errors the one that says more: where nobody was reached at last, what was said before."""
    return before if before is not None and isinstance(fault, Unreachable) else fault
