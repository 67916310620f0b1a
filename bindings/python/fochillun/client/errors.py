"""What is raised where a call has no answer."""

from __future__ import annotations

from typing import TYPE_CHECKING, Any, Optional

if TYPE_CHECKING:
    from .told import Place


class ClientError(Exception):
    """A call has no answer. `request_id` is how it was called in logs. Of a call with an id, `key` is that, and `place` where it may stand: asked
    again by both, it is carried out once. Where `place` is None, it stands nowhere."""

    key: Optional[str] = None
    place: Optional[Place] = None

    def __init__(self, text: str, request_id: Optional[str] = None) -> None:
        super().__init__(text, request_id)
        self.text, self.request_id = text, request_id

    def __str__(self) -> str:
        return f"{self.text} (request {self.request_id})" if self.request_id else self.text


class Unreachable(ClientError):
    """No process could be reached. Nothing was sent."""


class ReplyLost(ClientError):
    """The request was sent, and no whole reply came. What it asked may be carried out."""


class BadReply(ClientError):
    """The reply is none that a process gives."""


class RefusedByProcess(ClientError):
    """The process answered with another status than 200. `word` is its word, where it told one, `told` all that it told, and `retry_after` after how
    many seconds it may be asked again."""

    def __init__(self, status: int, told: dict[str, Any], request_id: Optional[str] = None, retry_after: Optional[float] = None) -> None:
        word = told.get("error")
        self.status, self.told, self.retry_after = status, told, retry_after
        self.word: Optional[str] = word if isinstance(word, str) else None
        super().__init__(f"{status} {self.word or ''}: {told.get('text', 'it told nothing more')}", request_id)

    def __reduce__(self) -> tuple[Any, ...]:
        return type(self), (self.status, self.told, self.request_id, self.retry_after), {"key": self.key, "place": self.place}


class BadRequest(RefusedByProcess):
    """400, 413: what was asked is no request, or too long. Nothing was carried out."""


class UnknownCaller(RefusedByProcess):
    """401: no token and no certificate says who asks."""


class NotPermitted(RefusedByProcess):
    """403: the caller's scope does not reach, or its session has no permission to administer so. Nothing was carried out."""


class Behind(RefusedByProcess):
    """409: what is delivered there does not go as far as `at_least`."""


class NotTaken(RefusedByProcess):
    """409: the generation has ended without the call, or there is none such yet."""


class Gone(RefusedByProcess):
    """410: the generation is over and its ids are forgotten, or its history is not kept."""


class OtherMember(RefusedByProcess):
    """421: the process is another member, or none. It carried nothing out."""


class OtherCommands(RefusedByProcess):
    """422: the id was given to other commands. Nothing was carried out."""


class TooMuch(RefusedByProcess):
    """429: too many calls wait, or the caller asks too much. Nothing was carried out."""


class NotReady(RefusedByProcess):
    """502, 503, 504: the process waits for others, ends, or does not tell. A command that it was sent may be carried out."""


_BY_STATUS = {
    400: BadRequest,
    413: BadRequest,
    401: UnknownCaller,
    403: NotPermitted,
    409: NotTaken,
    410: Gone,
    421: OtherMember,
    422: OtherCommands,
    429: TooMuch,
    502: NotReady,
    503: NotReady,
    504: NotReady,
}


def refused(status: int, told: dict[str, Any], request_id: Optional[str], retry_after: Optional[float]) -> RefusedByProcess:
    """The error of a status and of what was told with it."""
    kind = Behind if status == 409 and told.get("error") == "Behind" else _BY_STATUS.get(status, RefusedByProcess)
    return kind(status, told, request_id, retry_after)
