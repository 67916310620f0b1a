"""A member by lines, each of which is a call on the library, so that it is answered as the line is by who reads lines.
    by_calls.py FOUNDING NUMBER
A line that is no call is answered null: none is given."""
import pathlib
import re
import sys

sys.path.insert(0, str(pathlib.Path(__file__).resolve().parents[3] / "bindings/python"))
import fochillun
from calls import call_of


class ByCalls:
    """A member, and what a line of each word is answered: the keys of the answer but for its line, with their texts."""

    def __init__(self, member):
        self.member = member

    def line(self, line, number):
        call = call_of(line)
        if not call:
            return b"null\n"
        word, values = call
        try:
            told = getattr(self, word)(**{("sender" if key == "from" else key): value for key, value in values.items()})
        except fochillun.MemberRefused as refused:
            told = refusal(refused, values.get("command", values.get("message", b"{")))
        told["line"] = b"%d" % number
        return b"{" + b",".join(b'"%s":%s' % (key.encode(), told[key]) for key in sorted(told)) + b"}\n"

    def submit(self, caller, serial, command):
        return {"number": b"%d" % self.member.submit(caller, serial, command)}

    def batch(self, caller, serial, commands):
        return {"number": b"%d" % self.member.submit_batch(caller, serial, commands)}

    def next(self, caller, serial, commands):
        """A command alone is asked for as one, of every second serial."""
        alone = re.fullmatch(rb'\[(\{"name":"\w+"(?:,"\w+":"[\w.-]*")*\})\]', commands) if serial % 2 else None
        if alone:
            ask, send, text = self.member.next_submit, self.member.submit, alone[1]
        else:
            ask, send, text = self.member.next_submit_batch, self.member.submit_batch, commands
        return {"message": self.told(ask, send, caller, serial, text)}

    def receive(self, sender, number, message):
        acknowledged = self.member.receive(sender, number, message)
        return {"acknowledged": b"%d" % acknowledged if acknowledged else b"null"}

    def answer(self, sender, number, message):
        return {"message": self.told(self.member.next_answer, self.member.receive, sender, number, message) or b"null"}

    def told(self, ask, step, *words):
        """What is asked for. Where it is refused, the step is refused by the same, and tells what would be next."""
        try:
            return ask(*words)
        except fochillun.MemberRefused as refused:
            try:
                step(*words)
            except fochillun.MemberRefused as other:
                if other.number == refused.number:
                    raise other from None
            raise AssertionError(f"{refused} of {ask.__name__}, and not of {step.__name__}: {words}") from None

    def own(self, number, message):
        return {"number": b"%d" % self.member.take_own(number, message)}

    def deliver(self):
        number = self.member.deliver()
        return {"number": b"%d" % number, "record": self.member.record(number)} if number else {"record": b"null"}

    def message(self, number):
        return {"message": self.member.message(number)}

    def record(self, number):
        return {"record": self.member.record(number)}

    def waits(self):
        waiting = self.member.waits()
        if not waiting:
            return {"stamp": b"null", "waits": b"0"}
        place = b",%d" % waiting.place if waiting.place else b""
        return {"stamp": b"[%d,%d%s]" % (waiting.clock, waiting.member, place), "waits": b"%d" % waiting.awaited}

    def dump(self):
        commands = [line.removeprefix(b'{"at":1,"command":').removesuffix(b"}") for line in self.member.dump()]
        return {"commands": b"[" + b",".join(commands) + b"]"}

    def read(self, sender):
        return {"number": b"%d" % self.member.read(sender)}

    def serial(self, caller):
        return {"number": b"%d" % self.member.next_serial(caller)}

    def check(self, session, operation, object):
        try:
            checked = self.member.check(session, operation, object)
        except fochillun.CheckDenied as denied:
            if denied.word == "BadName":
                return {"refused": b'"BadName"'}
            return {"answer": b'{"denied":"%s","number":%d}' % (denied.word.encode(), denied.number), "records": b"%d" % denied.records}
        return {"answer": b'"Granted"' if checked else b'"Refused"', "records": b"%d" % checked.records}


def refusal(refused, text):
    """As a line words it, in which a text that is no object is a value of the wrong kind, which it is in no call."""
    is_object = text.lstrip(b" \t\r\n").startswith(b"{")
    words = {} if is_object else {"NotObject": "WrongKind", "WrongKind": "NotObject"}
    told = {"refused": b'"%s"' % words.get(refused.word, refused.word).encode()}
    if refused.next is not None:
        told["next" if refused.word == "BadSerial" else "expected"] = b"%d" % refused.next
    return told


def main():
    path, number = sys.argv[1:]
    try:
        member = fochillun.Member(pathlib.Path(path).read_bytes(), int(number))
    except fochillun.FoundingRefused as refused:
        sys.exit("rbac_monitor: " + (f"member: {number}" if refused.word == "UnknownMember" else f"founding: {refused.word}"))
    by_calls = ByCalls(member)
    for place, line in enumerate(sys.stdin.buffer, 1):
        sys.stdout.buffer.write(by_calls.line(line.removesuffix(b"\n"), place))
        sys.stdout.buffer.flush()
    member.close()


if __name__ == "__main__":
    main()
