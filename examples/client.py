#!/usr/bin/env python3
"""A client of the monitor: it sends commands and prints what each was answered.

    examples/client.py [--journal FILE [--most LINES]] PROGRAM serve FOUNDING < COMMANDS
    examples/client.py [--journal FILE [--most LINES]] PROGRAM play FOUNDING - < COMMANDS

COMMANDS has one command a line, as {"name":"AddUser","user":"ann"}; with "at":2 in it, it is asked of member 2. A client line, as a dump has it,
{"at":2,"command":{"name":"AddUser","user":"ann"}}, is the same. PROGRAM is the monitor. By serve
each command is one line and gets one answer. By play it is submitted and delivered at member 1, and the client keeps the serials. A line that is
refused is told, and the next one is sent.

The monitor keeps nothing on disk: a journal gets each command that was answered Done, which are the changes that were made, and no check, no review
and nothing that was denied. So it is a file of COMMANDS too. At the start its commands are asked again, and the next day goes on from there; where one
of them is not answered Done once more, as on another founding, the client ends and sends nothing else. One client at a time has a journal.

A journal only grows. With --most, one of more than LINES lines is replaced by a dump, for which PROGRAM is asked, of what its commands have made: a
command for each user, role, assignment, grant, pair, set and session that is there. That is done only once each of its commands was answered Done by
the monitor that runs, and the old journal stands until the disk has the new one."""
import argparse
import contextlib
import fcntl
import json
import os
import subprocess
import sys


class Refused(Exception):
    """The monitor's answer to a line that it refused. Such a line has changed nothing."""


class JournalFault(Exception):
    """A command of the journal that is not answered as it was, a line of it that is no command, or a journal that another client has."""


def compact(value):
    return json.dumps(value, separators=(",", ":"))


def command_of(line):
    """The command of a line, which is that command or a client line."""
    told = dict(json.loads(line))
    return {**told["command"], "at": told["at"]} if set(told) == {"at", "command"} else told


class Monitor:
    """The program, which answers each line by one line."""

    def __init__(self, words):
        self.process = subprocess.Popen(words, stdin=subprocess.PIPE, stdout=subprocess.PIPE, text=True, bufsize=1)

    def send(self, value):
        """Sends one line, and gives its answer."""
        with contextlib.suppress(BrokenPipeError):
            self.process.stdin.write(compact(value) + "\n")
            self.process.stdin.flush()
        text = self.process.stdout.readline()
        if not text:
            raise EOFError("the monitor has ended")
        answer = json.loads(text)
        if "refused" in answer:
            raise Refused(answer["refused"])
        return answer

    def stop(self):
        with contextlib.suppress(BrokenPipeError):
            self.process.stdin.close()
        return self.process.wait()


class Caller(Monitor):
    """Asks members that run in threads, by serve."""

    def ask(self, name, at=1, **fields):
        """Gives a member's answer to a command: a text, or an object of a list, a number or a denial."""
        return self.send({"at": at, "command": {"name": name, **fields}})["answer"]


class Client(Monitor):
    """Caller 0 at member 1 of a schedule, whose serials are 0, 1, 2 and so on. Each command is delivered right after it was submitted."""

    serial = 0

    def ask(self, name, at=1, **fields):
        """Submits a command and delivers it, and gives its answer."""
        if at != 1:
            raise Refused("member 1 alone is asked by play")
        command = {"name": name, **fields}
        stamp = self.send({"do": "submit", "at": 1, "caller": 0, "serial": self.serial, "command": command})["stamp"]
        self.serial += 1
        while True:
            delivered = self.send({"do": "deliver", "at": 1})
            if delivered["answer"] is None or delivered["stamp"] == stamp:
                return delivered["answer"]


class Journal:
    """The commands that were answered Done, a line each."""

    def __init__(self, path):
        self.path = path
        self.lines = open(path, "a+b")
        self.count = 0
        try:
            fcntl.flock(self.lines, fcntl.LOCK_EX | fcntl.LOCK_NB)
        except BlockingIOError:
            raise JournalFault(f"{path}: another client has it") from None

    def commands(self):
        """The commands with the numbers of their lines. A last line without its end was never told to anybody as done: it is cut off."""
        self.lines.seek(0)
        begun = 0
        for number, line in enumerate(self.lines, 1):
            if not line.endswith(b"\n"):
                print(f"{self.path}:{number}: a line without an end is cut off", file=sys.stderr)
                self.lines.truncate(begun)
                return
            begun += len(line)
            try:
                yield number, command_of(line)
            except (ValueError, TypeError):
                raise JournalFault(f"{self.path}:{number}: no command") from None

    def add(self, command):
        """Returns once the disk has it."""
        self.lines.write(compact(command).encode() + b"\n")
        self.lines.flush()
        os.fsync(self.lines.fileno())
        self.count += 1

    def replace(self, commands):
        """Has these commands in the place of all that it had, once the disk has them."""
        new = Journal(self.path + ".new")
        new.lines.truncate(0)
        for command in commands:
            new.lines.write(compact(command).encode() + b"\n")
        new.lines.flush()
        os.fsync(new.lines.fileno())
        os.replace(new.path, self.path)
        self.lines, self.count = new.lines, len(commands)


class Shortener:
    """Replaces a journal that has grown past a bound by a dump of what its commands have made."""

    def __init__(self, program, most, founding):
        self.program, self.most, self.founding = program, most, founding

    def shorten(self, journal):
        """To be called where each command of the journal was answered Done, in its order. A dump that is as long is made only once it has doubled."""
        if journal.count <= self.most:
            return
        lines = [compact({"at": command.pop("at", 1), "command": command}) + "\n" for _, command in journal.commands()]
        told = subprocess.run([self.program, "dump", "--serve", self.founding, "-"], input="".join(lines), capture_output=True, text=True)
        if told.returncode != 0 or told.stderr:
            raise JournalFault(f"{journal.path}: no dump: {told.stderr.strip()}")
        journal.replace([json.loads(line)["command"] for line in told.stdout.splitlines()])
        self.most = max(self.most, 2 * journal.count)


def go_on(monitor, journal):
    """Asks the commands of the journal again."""
    for number, command in journal.commands():
        journal.count += 1
        try:
            answer = monitor.ask(**command)
        except Refused as refused:
            answer = f"refused: {refused}"
        if answer != "Done":
            raise JournalFault(f"{journal.path}:{number}: {compact(command)} -> {compact(answer)}, and it was done before: is this its founding?")


def answered(monitor, journal, shortener, line):
    """What a line of COMMANDS is answered, which the journal gets where it is a change that was made."""
    try:
        command = command_of(line)
        answer = monitor.ask(**command)
    except Refused as refused:
        return f"refused: {refused}"
    except (ValueError, TypeError):
        return "no command"
    if journal and answer == "Done":
        journal.add(command)
        if shortener:
            shortener.shorten(journal)
    return compact(answer)


def converse(monitor, journal, shortener):
    """Asks what the journal has, and then what the input has."""
    if journal:
        go_on(monitor, journal)
    if shortener:
        shortener.shorten(journal)
    for line in sys.stdin:
        print(line.strip(), "->", answered(monitor, journal, shortener, line), flush=True)


def main(words):
    parser = argparse.ArgumentParser(usage=__doc__)
    parser.add_argument("--journal")
    parser.add_argument("--most", type=int)
    parser.add_argument("words", nargs=argparse.REMAINDER)
    told = parser.parse_args(words)
    if len(told.words) < 3:
        return __doc__
    try:
        journal = Journal(told.journal) if told.journal else None
        monitor = (Client if "play" in told.words else Caller)(told.words)
    except (JournalFault, OSError) as fault:
        return f"client: {fault}"
    shortener = Shortener(told.words[0], told.most, told.words[2]) if journal and told.most is not None else None
    try:
        converse(monitor, journal, shortener)
    except (JournalFault, EOFError) as fault:
        monitor.stop()
        return f"client: {fault}"
    return monitor.stop()


if __name__ == "__main__":
    sys.exit(main(sys.argv[1:]))
