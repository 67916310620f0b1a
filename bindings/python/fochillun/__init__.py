"""A policy of role-based access control in this process, and one member of a group that keeps such a policy alike in several processes,
by the proved library.

    with fochillun.Monitor(open("founding.toml", "rb").read()) as monitor:
        monitor.apply({"name": "AddUser", "user": "ann"})
        if monitor.check("round", "prescribe", "drug"): ...

The library is libfochillun.so.0 beside this file, as a wheel has it, or in a clone what `bindings/build` made, or else that of the release;
FOCHILLUN_LIBRARY names another. A monitor, and a member, may be used by any thread: a lock lets one call in at a time.
"""

import collections
import ctypes
import functools
import json
import os
import pathlib
import threading

_HERE = pathlib.Path(__file__).resolve().parent
# A wheel has it beside this file, and a clone at its top.
_VERSION = next((path for path in (_HERE / "VERSION", _HERE / "../../../VERSION") if path.exists()), None)
__version__ = _VERSION.read_text(encoding="utf-8").strip() if _VERSION else "unknown"

_DONE, _NO_SESSION, _NO_OPERATION, _NO_OBJECT = 0, 10, 27, 28
_EMPTY_PLACE, _SHORT_BUFFER, _NO_MEMORY = 40, 42, 43
_GRANTED, _REFUSED, _BAD_NAME = 50, 51, 52
_REPEAT, _GAP, _BAD_SERIAL = 305, 306, 310
_WORDS = {
    **dict(enumerate("TooLong NotToml BadVersion UnknownKey MissingKey WrongKind OutOfRange BadName Repeated UnknownName".split(), 101)),
    **dict(enumerate("TooLong NotJson NotObject UnknownWord MissingField WrongKind BadName ExtraField".split(), 201)),
    **dict(enumerate("UnknownMember BadBatch FromSelf NotSent Repeat Gap StampNotRising ClockFull SentFull BadSerial MessageTooLong NotYet Observes NotAReview".split(), 301)),
    _NO_SESSION: "NoSession",
    _NO_OPERATION: "NoOperation",
    _NO_OBJECT: "NoObject",
    _BAD_NAME: "BadName",
}
_SENTENCES = {
    "TooLong": "the text is too long",
    "NotToml": "the file is no TOML text",
    "BadVersion": "`version` is not there, or is not the whole number 1 or 2",
    "UnknownKey": "there is a key that is not known",
    "MissingKey": "a key that has to be there is not there",
    "WrongKind": "a value is not of its kind",
    "OutOfRange": "a number is outside its range, a list has too many entries, or `hierarchy` is neither `general` nor `limited`",
    "BadName": "a text is no name",
    "Repeated": "an operation, an object or a permission stands twice",
    "UnknownName": "a permission speaks of an operation or an object that is not listed",
    "NotJson": "the text is no JSON",
    "NotObject": "the value is no object",
    "UnknownWord": "the command's name is not known",
    "MissingField": "a field is not there",
    "ExtraField": "there is a field that does not belong there",
    "UnknownMember": "the founding's group has no such member",
    "BadBatch": "a message sends 1 to 64 commands, each with a serial",
    "FromSelf": "a member receives nothing of its own",
    "NotSent": "no message, or no record, has this number",
    "Repeat": "that message was received",
    "Gap": "a message before it is missing",
    "StampNotRising": "the message could not follow those before it",
    "ClockFull": "the clock is at its end",
    "SentFull": "the member has sent as many messages as it may",
    "BadSerial": "the serial is not the caller's next one",
    "MessageTooLong": "the message's text would be too long",
    "NotYet": "an observer receives it once the member's own row has a later message",
    "Observes": "an observer sends nothing",
    "NotAReview": "the command is neither a review nor a check of access",
    "NoSession": "there is no such session",
    "NoOperation": "there is no such operation",
    "NoObject": "there is no such object",
}


class Refused(Exception):
    """What was asked was not done. `number` is the status, `word` its name, and the text says what is wrong."""

    def __init__(self, number):
        super().__init__(number)
        self.number, self.word = number, _WORDS.get(number, str(number))

    def __str__(self):
        return _SENTENCES.get(self.word, f"status {self.number}")


class FoundingRefused(Refused):
    """The founding file is refused, or its group has no such member."""


class CommandRefused(Refused):
    """The text is no command. Nothing has changed."""


class CheckDenied(Refused):
    """There is no such session, operation or object, or a text is no name. Access is not granted. `records` is of a member: how many its
    history has that left the policy."""

    def __init__(self, number, records=None):
        super().__init__(number)
        self.records = records


class SubjectsDenied(Refused):
    """There is no such operation or object, or a text is no name: it is not told who may."""


class MemberRefused(Refused):
    """The member did not do what was asked, and is as it was. `next` is the number or the serial that would be next: of Repeat, Gap and
    BadSerial of a step, and else None."""

    def __init__(self, number, told=None):
        super().__init__(number)
        self.next = told if number in (_REPEAT, _GAP, _BAD_SERIAL) else None


class MessageRefused(MemberRefused):
    """A message of `Member.restore` was refused. `message` is its number, from 1 on."""

    def __init__(self, message, number, told=None):
        super().__init__(number, told)
        self.args = (message, number, told)
        self.message = message

    def __str__(self):
        return f"message {self.message} is refused: {super().__str__()}"


class LineRefused(Exception):
    """A line of `Monitor.load` was refused or denied. `line` is its number, from 1 on, and `answer` the `CommandRefused` or the `Denial`."""

    def __init__(self, line, answer):
        super().__init__(line, answer)
        self.line, self.answer = line, answer

    def __str__(self):
        if isinstance(self.answer, Denial):
            return f"line {self.line} is denied: {self.answer.name}"
        return f"line {self.line} is refused: {self.answer}"


class Closed(Exception):
    """The monitor, or the member, was closed."""


class Forked(Exception):
    """The monitor, or the member, was made before this process was forked, and is that of its parent. It is made after the fork."""


# How many forks lie between the process that loaded this module and this one.
_forks = 0


def _count_fork():
    global _forks
    _forks += 1


os.register_at_fork(after_in_child=_count_fork)


class _Place(ctypes.Structure):
    _fields_ = [("at", ctypes.c_void_p), ("is_full", ctypes.c_bool)]


class _Waiting(ctypes.Structure):
    _fields_ = [("clock", ctypes.c_uint64), ("member", ctypes.c_uint32), ("place", ctypes.c_uint32), ("awaited", ctypes.c_uint32)]


def _whole(kind, bits):
    """A whole number of so many bits, as `kind` has it. ctypes itself would cut a greater one."""

    class Whole:
        @staticmethod
        def from_param(number):
            if not 0 <= number < 1 << bits:
                raise OverflowError(f"{number} is no number of {bits} bits")
            return kind(number)

    return Whole


def _path():
    """Where the library is."""
    if named := os.environ.get("FOCHILLUN_LIBRARY"):
        return named
    for folder in (_HERE, _HERE / "../../out", _HERE / "../../../dist"):
        if (path := folder / "libfochillun.so.0").exists():
            return str(path)
    raise FileNotFoundError("no libfochillun.so.0: bindings/build makes it, tools/release a wheel that has it, and FOCHILLUN_LIBRARY names one elsewhere")


@functools.cache
def _library():
    # The calls are short, and keep the interpreter's lock: PyDLL.
    library = ctypes.PyDLL(_path())
    place, text, size = ctypes.POINTER(_Place), [ctypes.c_char_p, ctypes.c_size_t], ctypes.c_size_t
    out = [*text, ctypes.POINTER(size)]
    number, index, told = _whole(ctypes.c_uint32, 32), _whole(size, 64), ctypes.POINTER(ctypes.c_uint64)
    for call, words in {
        "policy_open": text,
        "policy_apply": [*text, *out],
        "policy_answer": out,
        "policy_check": [*text, *text, *text],
        "policy_subjects": [*text, *text, *out],
        "policy_explain": [*text, *out],
        "policy_dump": out,
        "policy_close": [],
        "member_open": [*text, number],
        "member_observe": [*text, number],
        "member_submit": [number, number, *text, told],
        "member_submit_batch": [number, number, *text, told],
        "member_receive": [number, number, *text, told],
        "member_take_own": [number, *text, told],
        "member_deliver": [told],
        "member_message": [index, *out],
        "member_record": [index, *out],
        "member_next_submit": [number, number, *text, *out],
        "member_next_submit_batch": [number, number, *text, *out],
        "member_next_answer": [number, number, *text, *out],
        "member_dump": out,
        "member_review": [*text, *out],
        "member_subjects": [*text, *text, *out],
        "member_read": [number, told],
        "member_next_serial": [number, told],
        "member_waits": [ctypes.POINTER(_Waiting)],
        "member_check": [*text, *text, *text, told],
        "member_close": [],
    }.items():
        getattr(library, call).argtypes = [place, *words]
        getattr(library, call).restype = ctypes.c_uint32
    return library


class _Held:
    """A place that a call has filled, and a buffer for texts. It is used under a lock, and never copied."""

    def __init__(self, open_call, close_call, founding, *words):
        self._calls = _library()
        self._forks = _forks
        self._lock = threading.Lock()
        self._is_closed = False
        self._place = _Place()
        self._at = ctypes.byref(self._place)
        self._length = ctypes.c_size_t()
        self._buffer = ctypes.create_string_buffer(4096)
        self._close = getattr(self._calls, close_call)
        status = getattr(self._calls, open_call)(self._at, bytes(founding), len(founding), *words)
        if status != _DONE:
            self._fail(status, FoundingRefused)

    def _turn(self):
        """The lock that lets one call in at a time. In a forked child another thread of the parent may hold it for good."""
        if self._forks != _forks:
            raise Forked(f"the {self._kind()} was made before the fork, and is that of the parent")
        return self._lock

    def _kind(self):
        return type(self).__name__.lower()

    def _text(self, error, call, *words, again=None):
        """The text that a call writes. Where the buffer is too short, it is written again by the call that does that."""
        with self._turn():
            length = ctypes.byref(self._length)
            status = call(self._at, *words, self._buffer, len(self._buffer), length)
            if status == _SHORT_BUFFER:
                self._buffer = ctypes.create_string_buffer(self._length.value)
                call, words = (again, ()) if again else (call, words)
                status = call(self._at, *words, self._buffer, len(self._buffer), length)
            if status != _DONE:
                self._fail(status, error)
            return self._buffer[: self._length.value]

    def _subjects(self, call, operation, target):
        operation, target = operation.encode(), target.encode()
        told = json.loads(self._text(SubjectsDenied, call, operation, len(operation), target, len(target)))
        return Subjects(told["sessions"], told["users"])

    def _verdict(self, status, *records):
        if status == _GRANTED:
            return True
        if status == _REFUSED:
            return False
        return self._fail(status, CheckDenied, *records)

    def _fail(self, status, error, *told):
        if status == _NO_MEMORY:
            raise MemoryError("memory ran out, and nothing has changed")
        if status == _EMPTY_PLACE:
            raise Closed(f"the {self._kind()} was closed")
        raise error(status, *told)

    def close(self):
        """Ends it, and gives its memory back. A second time does nothing."""
        with self._turn():
            self._is_closed = True
            self._close(self._at)

    def __enter__(self):
        with self._turn():
            if self._is_closed:
                self._fail(_EMPTY_PLACE, Closed)
        return self

    def __exit__(self, *_):
        # A forked child that leaves the block has nothing to end, and what it leaves it by goes on.
        if self._forks == _forks:
            self.close()

    def __del__(self):
        if hasattr(self, "_close") and self._forks == _forks:
            self._close(self._at)

    def __copy__(self):
        raise TypeError(f"a {self._kind()} is not copied")

    def __deepcopy__(self, _):
        self.__copy__()

    def __reduce__(self):
        self.__copy__()


class Denial(collections.namedtuple("Denial", "name number")):
    """What a command that is denied is answered: the name and the number of the first precondition that failed. It is false."""

    __slots__ = ()

    def __bool__(self):
        return False


class Subjects(collections.namedtuple("Subjects", "sessions users")):
    """Who may perform an operation on an object, two sorted lists of names: the sessions to which a check grants it, and the users that are
    authorized for a role that has the permission, whether or not it is active in a session of theirs."""

    __slots__ = ()


class Monitor(_Held):
    """One policy, founded with what a founding file's bytes say."""

    def __init__(self, founding):
        super().__init__("policy_open", "policy_close", founding)

    @classmethod
    def load(cls, founding, lines):
        """The monitor that has applied each of these lines in order, client lines or commands, as `apply` takes them. Where a line is refused
        or denied, `LineRefused` says which, and the monitor is closed."""
        monitor = cls(founding)
        try:
            for number, line in enumerate(lines, 1):
                monitor._load_line(number, line)
        except BaseException:
            monitor.close()
            raise
        return monitor

    def _load_line(self, number, line):
        try:
            answer = self.apply(_bytes(line).removesuffix(b"\n"))
        except CommandRefused as refused:
            raise LineRefused(number, refused) from refused
        if isinstance(answer, Denial):
            raise LineRefused(number, answer)

    def apply(self, command):
        """Applies a command, a dict or the text of a JSON object, by itself or in a client line, whose member is of no concern, and gives its
        answer: a `Denial`, which is false, or else what JSON has,
        which is true. An empty review is {"names": []} and no denial, and CheckAccess is answered "Refused", a text: `check` is to be asked
        whether."""
        return _answer(self.apply_text(_bytes(command)))

    def apply_text(self, text):
        """Applies the command of these bytes, a client line or a command by itself, and gives the bytes of its answer."""
        # Where the buffer is too short, the command was applied. Only its answer is asked for again.
        return self._text(CommandRefused, self._calls.policy_apply, text, len(text), again=self._calls.policy_answer)

    def subjects(self, operation, target):
        """Who may perform the operation on the target, an object: a `Subjects`. It takes time and memory in proportion to the policy; `check`
        asks of one session."""
        return self._subjects(self._calls.policy_subjects, operation, target)

    def explain(self, command):
        """Why a command, as `apply` takes it, would be denied, or a check is granted or refused: a dict with the keys that `policy_explain` of
        include/fochillun.h lists. Nothing changes. It takes time and memory in proportion to the policy."""
        text = _bytes(command)
        return json.loads(self._text(CommandRefused, self._calls.policy_explain, text, len(text)))

    def dump(self):
        """The client lines that make this policy, as `rbac_monitor dump` writes them. A monitor that was just founded with the same file
        answers each of them Done in this order, and has the same policy then."""
        return self._text(CommandRefused, self._calls.policy_dump).splitlines()

    def check(self, session, operation, target):
        """Whether the session may perform the operation on the target, an object."""
        session, operation, target = session.encode(), operation.encode(), target.encode()
        with self._turn():
            status = self._calls.policy_check(self._at, session, len(session), operation, len(operation), target, len(target))
        return self._verdict(status)


class Checked(collections.namedtuple("Checked", "granted records")):
    """Whether a check is granted, and how many records the history has that left the policy. It is true where it is granted."""

    __slots__ = ()

    def __bool__(self):
        return self.granted


class Waiting(collections.namedtuple("Waiting", "clock member place awaited")):
    """The least command that is held back: its message's stamp, its place in the message, and a bit for each member of whom it waits for a
    message with a greater stamp: 1 for member 1, 2 for member 2, 4 for member 3, and so on."""

    __slots__ = ()


class Member(_Held):
    """The member of this number, from 1 on, founded with what a founding file's bytes say. A command and a message are a dict, or the
    bytes or the text of a JSON object, commands a list of them or the text of an array. What a group is owed stands in
    docs/EMBEDDING.md."""

    def __init__(self, founding, number, *, observes=False):
        super().__init__("member_observe" if observes else "member_open", "member_close", founding, number)
        self._told = ctypes.c_uint64()

    @classmethod
    def observe(cls, founding, number):
        """The member of this number as one that only observes, beside the process that acts as that member: it sends nothing. It takes what
        stands in the member's row by `take_own`, receives what the others sent, delivers, and shows what the member would. What it would
        have to acknowledge it refuses as NotYet, until the member's own row has a later message; submits, and what they would send, as
        Observes."""
        return cls(founding, number, observes=True)

    @classmethod
    def restore(cls, founding, number, messages):
        """The member that has taken these messages of its row, in order: all that it ever sent. Where one is refused, `MessageRefused` says
        which, and the member is closed."""
        member = cls(founding, number)
        try:
            for place, message in enumerate(messages, 1):
                member._take_of_row(place, message)
        except BaseException:
            member.close()
            raise
        return member

    def _take_of_row(self, place, message):
        try:
            self.take_own(place, message)
        except MemberRefused as refused:
            raise MessageRefused(place, refused.number, refused.next) from refused

    def submit(self, caller, serial, command):
        """Submits a command as that of a caller, whose commands at this member have the serials 0, 1 and so on. Gives the number of the
        message that sends it."""
        return self._step(self._calls.member_submit, caller, serial, *_lent(command))

    def submit_batch(self, caller, serial, commands):
        """Submits 1 to 64 commands together, in one message, of which the first has this serial."""
        return self._step(self._calls.member_submit_batch, caller, serial, *_lent(commands))

    def receive(self, sender, number, message):
        """Receives message `number` of member `sender`. Gives the number of the acknowledgement that was sent, or None where none is due."""
        return self._step(self._calls.member_receive, sender, number, *_lent(message)) or None

    def take_own(self, number, message):
        """Takes message `number` of the member's own row: one that it sent before it was lost, or that was set there to be taken. Gives its
        number."""
        return self._step(self._calls.member_take_own, number, *_lent(message))

    def deliver(self):
        """Delivers the command that is due. Gives the number of its record, or None where none is due."""
        return self._step(self._calls.member_deliver) or None

    def message(self, number):
        """The bytes of the message of this number, from 1 on, that the member sent."""
        return self._text(MemberRefused, self._calls.member_message, number)

    def record(self, number):
        """The bytes of the record of this number, from 1 on, of the member's history: a command that was delivered, and its answer."""
        return self._text(MemberRefused, self._calls.member_record, number)

    def next_submit(self, caller, serial, command):
        """The message by which `submit` would send this command. Taken by `take_own` it leaves what the submit leaves."""
        return self._text(MemberRefused, self._calls.member_next_submit, caller, serial, *_lent(command))

    def next_submit_batch(self, caller, serial, commands):
        """As `next_submit`, of commands that are sent together."""
        return self._text(MemberRefused, self._calls.member_next_submit_batch, caller, serial, *_lent(commands))

    def next_answer(self, sender, number, message):
        """The acknowledgement that this message wants, or None where it wants none, to be taken by `take_own` before the message is
        received, which then sends nothing."""
        return self._text(MemberRefused, self._calls.member_next_answer, sender, number, *_lent(message)) or None

    def dump(self):
        """The client lines that make the member's policy, as `Monitor.dump` gives them."""
        return self._text(MemberRefused, self._calls.member_dump).splitlines()

    def review(self, command):
        """The answer that a review, or CheckAccess, has by the policy that the member's history left, as `Monitor.apply` gives it: a `Denial`
        too. A review takes time and memory in proportion to the policy; `check` is the quicker question."""
        return _answer(self._text(MemberRefused, self._calls.member_review, *_lent(command)))

    def subjects(self, operation, target):
        """Who may perform the operation on the target, an object, by the policy that the member's history left, which may be behind that of
        other members, as `Monitor.subjects` gives it."""
        return self._subjects(self._calls.member_subjects, operation, target)

    def read(self, sender):
        """How many messages of member `sender` were received."""
        return self._step(self._calls.member_read, sender)

    def next_serial(self, caller):
        """The serial of a caller's next command at this member."""
        return self._step(self._calls.member_next_serial, caller)

    def waits(self):
        """The least command that is held back, a `Waiting`, or None where nothing is held."""
        waiting = _Waiting()
        with self._turn():
            status = self._calls.member_waits(self._at, ctypes.byref(waiting))
        if status != _DONE:
            self._fail(status, MemberRefused)
        return Waiting(waiting.clock, waiting.member, waiting.place, waiting.awaited) if waiting.member else None

    def check(self, session, operation, target):
        """Whether the session may perform the operation on the target, an object, by the policy that the member's history left, which may be
        behind that of other members: a `Checked`, which is true where it is granted."""
        session, operation, target = session.encode(), operation.encode(), target.encode()
        with self._turn():
            status = self._calls.member_check(
                self._at, session, len(session), operation, len(operation), target, len(target), ctypes.byref(self._told)
            )
            records = self._told.value
        return Checked(self._verdict(status, records), records)

    def _step(self, call, *words):
        """The number that a call tells."""
        with self._turn():
            status = call(self._at, *words, ctypes.byref(self._told))
            told = self._told.value
        if status != _DONE:
            self._fail(status, MemberRefused, told)
        return told


def _answer(text):
    """An answer of its text: what JSON has, and a `Denial`."""
    answer = json.loads(text)
    return Denial(answer["denied"], answer["number"]) if isinstance(answer, dict) and "denied" in answer else answer


def _bytes(value):
    """The text of a value, unless it is one. It has no spaces, since a text may only be so long."""
    return value if isinstance(value, bytes) else (value if isinstance(value, str) else json.dumps(value, separators=(",", ":"))).encode()


def _lent(value):
    text = _bytes(value)
    return text, len(text)
