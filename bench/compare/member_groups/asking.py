"""The lines that a member of a group is given."""
import collections

from commands import BY_CALLS, LAST_CLOCK, LAST_NUMBER, LONGEST_LINE, command, commands, dumped, field, long_commands
from texts import spoilt_call, spoilt_line, varied


class Asking:
    """What a group asks its members. A line is added to a life with a word and what the answer to it has to fit to."""

    def line(self, **what):
        text = dumped({("from" if key == "sender" else key): value for key, value in what.items()})
        return varied(self.chance, text) if self.chance.random() < 0.05 else text

    def brought(self, do, sender, number, message):
        text = b'{"do":"%s","from":%d,"number":%d,"message":%s}' % (do.encode(), sender, number, message)
        return varied(self.chance, text) if self.chance.random() < 0.04 else text

    def own_line(self, number, message):
        text = b'{"do":"own","number":%d,"message":%s}' % (number, message)
        return varied(self.chance, text) if self.chance.random() < 0.04 else text

    def caller(self):
        return self.chance.choices([0, 1, 7, LAST_NUMBER], [80, 12, 5, 3])[0]

    def spoilt(self, chance):
        """A line that is refused for its form, as it has one by lines or by calls."""
        return (spoilt_call if self.by is BY_CALLS else spoilt_line)(chance)

    def add_called_question(self, life):
        """What calls alone ask."""
        chance = self.chance
        word = chance.choice(["read", "serial", "check", "check"])
        if word == "read":
            life.add(self.line(do="read", sender=chance.choice([*self.rows, 0, self.members + 1, LAST_NUMBER])), "read")
        elif word == "serial":
            life.add(self.line(do="serial", caller=self.caller()), "serial")
        else:
            words = {key: field(chance, key) if chance.random() < 0.95 else "a b" for key in ("session", "operation", "object")}
            life.add(self.line(do="check", **words), "check")

    def add_question(self, life):
        chance = self.chance
        if self.by is BY_CALLS and chance.random() < 0.3:
            self.add_called_question(life)
            return
        kind = chance.randrange(4)
        if chance.random() < 0.05:
            life.add(self.line(do="dump"), "dump")
        elif kind == 0:
            text = self.line(do="waits")
            life.add(text + b" " * (LONGEST_LINE - len(text)) if chance.random() < 0.01 else text, "waits")
        elif kind == 1:
            # In memory what was sent is asked in order, at the start of a turn.
            known = len(self.rows[life.number]) if self.kind == "memory" else life.sent
            number = chance.choice([known, max(known, 1), 1, chance.randrange(known + 1), LAST_NUMBER])
            if self.kind == "memory" and number > known:
                number = 0
            life.add(self.line(do="message", number=number), "message", number)
        elif kind == 2 and life.told:
            number = chance.choice([chance.randrange(1, len(life.told) + 1), 1, len(life.told)])
            life.add(self.line(do="record", number=number), "record", number)
        elif kind == 2:
            life.add(self.line(do="record", number=0), "record", 0)
        else:
            caller = self.caller()
            life.add(self.line(do="next", caller=caller, serial=life.will_serials[caller], commands=commands(chance)), "next", False)

    def forged_message(self, life, sender, next_number):
        """A number and a message that no member takes, whoever the sender is."""
        chance = self.chance
        last = self.stamps[sender][next_number - 2] if sender in self.rows and 2 <= next_number <= len(self.stamps[sender]) + 1 else None
        clock = (last[0] if last else self.clock) + chance.choice([1, 1, 2, 40])
        serial = self.serials[sender][0] + 1 if sender in self.rows else 0
        kind = chance.randrange(7)
        batch = {"caller": 5, "commands": commands(chance), "serial": serial + 1, "stamp": [clock, sender]}
        if kind == 0:
            return next_number, {"stamp": [clock, sender % self.members + 1]}
        if kind == 1 and last:
            return next_number, {"stamp": [chance.choice([last[0], max(last[0] - 1, 0), 0]), sender]}
        if kind == 2:
            return next_number, {**batch, "commands": chance.choice([[], [command(chance)] * 65])}
        if kind == 3:
            return next_number, {**batch, "serial": LAST_NUMBER, "commands": [command(chance)] * 2}
        if kind == 4:
            return next_number, {"stamp": [chance.choice([LAST_CLOCK + 1, 2 ** 64 - 1, 2 ** 64 - 2]), sender]}
        if kind == 5:
            return next_number + chance.choice([1, 2, 1000]), {"stamp": [clock, sender]}
        return next_number, batch

    def forged_own(self, life):
        """A number and a message that a member does not take as its own."""
        chance, row = self.chance, self.rows[life.number]
        if max(life.sent, len(row) if self.kind == "rows" else 0) >= self.limit:
            return self.limit + 1, {"stamp": [LAST_CLOCK, life.number]}
        if chance.random() < 0.02:
            message = {"caller": 5, "commands": [], "serial": 0, "stamp": [chance.randrange(100), life.number]}
            length = self.by.message + 1 + chance.randrange(9)
            return chance.choice([0, 1, 9]), {**message, "commands": long_commands(length - len(dumped(message)) + 2)}
        number, message = self.forged_message(life, life.number, len(row) + 1)
        return chance.choice([0, len(row), life.sent + len(life.next) + 2]) if self.kind == "memory" else number, message

    def add_refused(self, life):
        """A line that is refused whatever the member holds."""
        chance = self.chance
        kind = chance.randrange(6)
        others = [k for k in self.rows if k != life.number]
        sender = chance.choice(others)
        if kind == 0:
            caller = self.caller()
            wrong = chance.choice([life.will_serials[caller] + 2 + len(life.next) * 64, LAST_NUMBER])
            do = chance.choice(["submit", "batch", "next"])
            asked = {"command": command(chance)} if do == "submit" else {"commands": chance.choice([commands(chance), [], [command(chance)] * 65])}
            life.add(self.line(do=do, caller=caller, serial=wrong, **asked), "refused", do)
        elif kind == 1:
            do = chance.choice(["receive", "answer"])
            stranger = chance.choice([0, life.number, self.members + 1, 9, LAST_NUMBER])
            message = {"stamp": [chance.randrange(100), stranger]}
            life.add(self.line(do=do, sender=stranger, number=chance.choice([0, 1, 2]), message=message), "refused", do)
        elif kind == 2:
            do = chance.choice(["receive", "receive", "answer"])
            number, message = self.forged_message(life, sender, life.will_read[sender] + 1)
            life.add(self.line(do=do, sender=sender, number=number, message=message), "refused", do)
        elif kind == 3:
            number, message = self.forged_own(life)
            life.add(self.line(do="own", number=number, message=message), "refused", "own")
        elif kind == 4 and self.rows[sender] and life.will_read[sender]:
            # one that was taken, again
            number = chance.randrange(1, life.will_read[sender] + 1)
            do = chance.choice(["receive", "answer"])
            life.add(self.brought(do, sender, number, self.rows[sender][number - 1]), "refused", do)
        elif kind == 5 and len(self.rows[sender]) > life.will_read[sender] + 1:
            # one before which another one was lost
            number = chance.randrange(life.will_read[sender] + 2, len(self.rows[sender]) + 1)
            do = chance.choice(["receive", "answer"])
            life.add(self.brought(do, sender, number, self.rows[sender][number - 1]), "refused", do)
        else:
            life.add(self.spoilt(chance), "refused", "malformed")

    def add_receipts(self, life, most):
        """Messages of one other member, in turn."""
        self.add_receipts_of(life, self.chance.choice([k for k in self.rows if k != life.number]), most)

    def add_receipts_of(self, life, sender, most):
        """Messages of this member, in turn. One that has to be acknowledged by its row first is asked about, and stays."""
        for _ in range(most):
            number = life.will_read[sender] + 1
            if number > len(self.rows[sender]):
                return
            message = self.rows[sender][number - 1]
            waits = self.kind == "rows" and not self.is_covered(life, sender, number)
            if waits or self.chance.random() < 0.05:
                life.add(self.brought("answer", sender, number, message), "answer", sender, number, waits)
            if waits:
                return
            life.add(self.brought("receive", sender, number, message), "receive", sender, number)
            life.will_read[sender] = number

    def is_covered(self, life, sender, number):
        """Whether this message needs no acknowledgement, by what the member has taken of its row."""
        if b'"commands":' not in self.rows[sender][number - 1]:
            return True
        taken = self.taken_of_row(life)
        return taken > 0 and self.stamps[life.number][taken - 1] > self.stamps[sender][number - 1]

    def taken_of_row(self, life):
        return max([tag[1] for tag in life.tags if tag[0] == "own"], default=life.sent)

    def add_row(self, life):
        """What stands in its row and was not taken yet."""
        row = self.rows[life.number]
        for number in range(life.sent + 1, len(row) + 1):
            life.add(self.own_line(number, row[number - 1]), "own", number)
        life.will_serials = collections.Counter(self.serials[life.number])

    def add_new_messages(self, life):
        """What it sent in memory, and was not asked for yet."""
        for number in range(len(self.rows[life.number]) + 1, life.sent + 1):
            life.add(self.line(do="message", number=number), "message", number)

    def add_deliveries(self, life, count):
        for _ in range(count):
            life.add(self.line(do="deliver"), "deliver")

    def submission(self, life):
        chance, caller = self.chance, self.caller()
        asked = commands(chance)
        if self.beginning and chance.random() < 0.8:
            asked, self.beginning = self.beginning[:len(asked) + 1], self.beginning[len(asked) + 1:]
        if self.is_long and chance.random() < 0.1:
            asked = long_commands(self.by.message - 50 + chance.randrange(-40, 30))
        return caller, life.will_serials[caller], asked

    def add_submit(self, life):
        caller, serial, asked = self.submission(life)
        if len(asked) == 1 and self.chance.random() < 0.8 and len(dumped(asked[0])) <= LONGEST_LINE:
            life.add(self.line(do="submit", caller=caller, serial=serial, command=asked[0]), "submit", caller, 1)
        else:
            life.add(self.line(do="batch", caller=caller, serial=serial, commands=asked), "submit", caller, len(asked))
        life.will_serials[caller] += len(asked)

    def fill(self, life):
        """The lines of a turn of one member."""
        chance = self.chance
        if self.kind == "rows":
            self.add_row(life)
        if self.kind == "memory":
            self.add_new_messages(life)
        asks = self.kind == "rows" and chance.random() < 0.3
        for _ in range(chance.randrange(1, 14)):
            kind = chance.random()
            if kind < 0.2 and self.kind == "memory":
                self.add_submit(life)
            elif kind < 0.6:
                self.add_receipts(life, chance.randrange(1, 8))
            elif kind < 0.8:
                self.add_deliveries(life, chance.randrange(1, 5))
            elif kind < 0.9:
                self.add_question(life)
            else:
                self.add_refused(life)
        if asks:
            caller, serial, asked = self.submission(life)
            life.add(self.line(do="next", caller=caller, serial=serial, commands=asked), "next", True)
        if self.kind == "rows" and chance.random() < 0.1:
            self.add_receipts(life, 4)
