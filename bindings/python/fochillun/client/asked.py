"""What is asked."""

from __future__ import annotations

import json
import re
import uuid
from typing import Any, NamedTuple, Optional, Sequence

from .http import Request, query

_MOST_EVALUATIONS = 64
_ID = re.compile(r"[\x21-\x7e]{1,128}")


class Subject(NamedTuple):
    """Of whom it is asked: `session` or `user`, and its name."""

    type: str
    id: str


def session(name: str) -> Subject:
    """A session: by its active roles, and those that they inherit."""
    return Subject("session", name)


def user(name: str) -> Subject:
    """A user: with a session, that one, which has to be the user's; alone, by all roles that the user is authorized for."""
    return Subject("user", name)


class Evaluation(NamedTuple):
    """Whether a subject may perform an action, an operation, on a resource, an object."""

    subject: Subject
    action: str
    resource: str
    session: Optional[str] = None

    def body(self) -> dict[str, Any]:
        """As the API has it."""
        return {**subject_of(self.subject, self.session), "action": {"name": self.action}, "resource": {"type": "object", "id": self.resource}}


class Rests(NamedTuple):
    """What an answer is to rest on, and how its request is called."""

    consistency: Optional[str] = None
    at_least: Optional[str] = None
    request_id: Optional[str] = None

    def request(self, method: str, path: str, body: Optional[dict[str, Any]] = None) -> Request:
        """A request that asks for it so."""
        return request(method, path + query(consistency=self.consistency, at_least=self.at_least), body, self.request_id)


def subject_of(subject: Subject, session: Optional[str]) -> dict[str, Any]:
    """The subject's part of a body."""
    if not isinstance(subject, Subject):
        raise TypeError("a subject is session(NAME) or user(NAME)")
    context = {} if session is None else {"context": {"session": session}}
    return {"subject": {"type": subject.type, "id": subject.id}, **context}


def evaluations_of(evaluations: Sequence[Evaluation], semantic: str) -> dict[str, Any]:
    """The body of a list of evaluations. ValueError: there are none, which `all` would take for granted, or too many."""
    if not 1 <= len(evaluations) <= _MOST_EVALUATIONS:
        raise ValueError(f"1 to {_MOST_EVALUATIONS} evaluations are asked at once")
    return {"evaluations": [each.body() for each in evaluations], "options": {"evaluations_semantic": semantic}}


def new_id() -> str:
    """An id that nothing else has."""
    return uuid.uuid4().hex


def id_of(text: Optional[str], name: str) -> str:
    """An id that is given, or a new one. ValueError: it is none that can be sent."""
    if text is not None and not _ID.fullmatch(text):
        raise ValueError(f"{name} has 1 to 128 visible ASCII characters")
    return text if text is not None else new_id()


def request(method: str, target: str, body: Optional[dict[str, Any]], request_id: Optional[str], *headers: tuple[str, str]) -> Request:
    """A request with its name in logs."""
    text = None if body is None else json.dumps(body, separators=(",", ":"), allow_nan=False).encode()
    return Request(method, target, text, (("X-Request-ID", id_of(request_id, "request_id")), *headers))
