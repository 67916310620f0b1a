"""Members in processes: of each member one process of the monitor and one of the reference, which are given the same lines."""
import collections
import os
import pathlib
import select
import subprocess
import time

from calls import call_of
from commands import BY_CALLS

REFERENCE = pathlib.Path(__file__).resolve().parent.parent.parent / "reference/target/release/reference"
# An answer that takes longer does not come.
SECONDS = 120


class Differs(Exception):
    """What is wrong, and where."""


class Process:
    """A program that is given lines, and whose streams never block."""

    def __init__(self, words):
        self.process = subprocess.Popen(words, stdin=subprocess.PIPE, stdout=subprocess.PIPE, stderr=subprocess.DEVNULL, bufsize=0)
        self.give, self.take = self.process.stdin.fileno(), self.process.stdout.fileno()
        os.set_blocking(self.give, False)
        os.set_blocking(self.take, False)
        self.pending, self.got, self.ended = b"", bytearray(), False

    def write(self):
        try:
            self.pending = self.pending[os.write(self.give, self.pending):]
        except BlockingIOError:
            pass
        except BrokenPipeError:
            self.pending, self.ended = b"", True

    def read(self):
        try:
            piece = os.read(self.take, 1 << 20)
        except BlockingIOError:
            return
        self.got += piece
        self.ended = self.ended or not piece

    def close(self):
        """Ends its input, reads what it tells to its end, and gives its status."""
        self.process.stdin.close()
        os.set_blocking(self.take, True)
        while not self.ended:
            self.read()
        self.process.stdout.close()
        return self.process.wait()

    def kill(self):
        self.process.kill()
        self.close()


def exchange(processes, counts):
    """Writes what is pending, and reads until each process has answered so many lines."""
    waiting, poll, begun = {}, select.poll(), time.monotonic()
    asked = [(process, count) for process, count in zip(processes, counts) if count]
    for process, count in asked:
        if process.pending:
            process.write()
        waiting[process.take] = (process, count)
        poll.register(process.take, select.POLLIN)
        if process.pending:
            waiting[process.give] = (process, count)
            poll.register(process.give, select.POLLOUT)
    open_count = len(asked)
    while open_count:
        for fd, _ in poll.poll(1000):
            process, count = waiting[fd]
            if fd == process.give:
                process.write()
                if not process.pending:
                    poll.unregister(fd)
                continue
            process.read()
            if process.ended or process.got.count(b"\n") >= count:
                poll.unregister(fd)
                open_count -= 1
        if time.monotonic() - begun > SECONDS:
            raise Differs("no answer for two minutes")


class Life:
    """Two processes, one of each implementation, that are given the same lines: a member from its start to its end."""

    def __init__(self, group, number):
        self.group, self.number = group, number
        self.pair = [Process([*words, group.path, str(number)]) for words in group.play.pair]
        self.given, self.next, self.tags = [], [], []
        # what it has sent, taken of the others, and told
        self.sent, self.read, self.told = 0, {k: 0 for k in range(1, group.members + 1)}, []
        self.serials = collections.Counter()
        self.candidate = None
        # of messages that nobody sent: how many were taken of each sender, up to which clock, and of which caller how many commands
        self.forged = {"numbers": collections.Counter(), "clocks": collections.Counter(), "counts": collections.Counter()}
        # what it will have taken, where no line that is given next is refused
        self.expect()

    def expect(self):
        self.will_read, self.will_serials = dict(self.read), collections.Counter(self.serials)
        self.will_forged = {key: collections.Counter(counter) for key, counter in self.forged.items()}

    def take_forged(self, tag, refused):
        if not refused and tag[1] in ("receive", "own"):
            self.note_forged(self.forged, tag)
            if tag[1] == "own":
                self.sent, self.serials[tag[3]] = self.sent + 1, self.serials[tag[3]] + tag[4]

    def note_forged(self, noted, tag):
        _, _, sender, caller, count, clock = tag
        noted["numbers"][sender] += 1
        noted["clocks"][sender] = max(noted["clocks"][sender], clock)
        noted["counts"][sender, caller] += count

    def add(self, text, *tag):
        """A line that is given next, with its word and what its answer has to fit to. By calls none is given that is no call."""
        if b"\n" in text:
            raise ValueError(text)
        if self.group.by is BY_CALLS and not call_of(text):
            self.group.play.met["a line that is no call"] += 1
            return
        self.next.append(text)
        self.tags.append(tag)

    def load(self):
        """Hands the lines over to both processes, to be written."""
        text = b"".join(line + b"\n" for line in self.next)
        for process in self.pair:
            process.pending, process.got = text, bytearray()
        return len(self.next)

    def compare(self, crashed=False):
        """Compares what both told, and gives the answers to all lines, or to the first ones where both were killed."""
        one, two = (bytes(process.got) for process in self.pair)
        if one != two and not (crashed and (one.startswith(two) or two.startswith(one))):
            lines = [*self.given, *self.next]
            raise Differs(f"member {self.number} of {self.group.name}: the answers differ\n" + self.group.play.shrink(self.group, self.number, lines))
        answers = max(one, two).split(b"\n")[:-1]
        if not crashed and len(answers) != len(self.next):
            raise Differs(f"member {self.number} of {self.group.name}: {len(answers)} answers to {len(self.next)} lines, and both ended alike")
        return answers

    def settle(self, crashed=False):
        """Takes the answers to what was given, and gives how many there were."""
        answers = self.compare(crashed)
        lines, tags = self.next, self.tags
        self.given += lines
        self.next, self.tags = [], []
        self.candidate = None
        for line, tag, answer in zip(lines, tags, answers):
            self.group.take(self, line, tag, answer)
        self.expect()
        return len(answers)

    def kill(self):
        for process in self.pair:
            process.kill()

    def close(self):
        """Ends the input, where a last line has no line feed."""
        last = self.group.chance.choice([b"", b'{"do":"waits"}', b'{"do":"waits"' if self.group.by is not BY_CALLS else b'{"do":"dump"}'])
        told = []
        for process, whose in zip(self.pair, ("the monitor", "the reference")):
            process.pending, process.got = last, bytearray()
            process.write()
            if status := process.close():
                raise Differs(f"member {self.number} of {self.group.name}: {whose} ended with status {status}")
            told.append(bytes(process.got))
        if told[0] != told[1] or told[0].count(b"\n") != bool(last):
            raise Differs(f"member {self.number} of {self.group.name}: {last} at the end is answered {told[0]} by the monitor, and {told[1]} by the reference")
