"""A group of members in processes, the rows of what they sent, and the records that they told."""
import collections
import json
import pathlib
import select

from answering import Answering
from asking import Asking
from commands import LAST_CLOCK, OBJECTS, OPERATIONS, PERMISSIONS, beginning, commands, dumped
from forging import add_forged
from lives import Differs, Life, exchange


class Group(Asking, Answering):
    """A group of one kind, its rows, and the records that were told."""

    def __init__(self, play, name, chance):
        self.play, self.name, self.chance, self.by = play, name, chance, play.by
        self.members = chance.randrange(2, 9)
        self.kind = chance.choices(["rows", "memory", "forged"], [5, 3, 3])[0]
        self.clock, self.limit = 0, 65_536
        if chance.random() < 0.15:
            self.clock = LAST_CLOCK - chance.randrange(60)
        if chance.random() < 0.2:
            self.limit = chance.randrange(1, 30)
        self.is_bounded = bool(self.clock) or self.limit < 65_536
        self.is_long = chance.random() < self.by.long_share
        self.path = str(play.room / f"{name}.toml")
        version = chance.choice(["version = 1", 'version = 2\nhierarchy = "general"', 'version = 2\nhierarchy = "limited"'])
        pathlib.Path(self.path).write_text(f"{version}\nmembers = {self.members}\nclock = {self.clock}\nsent_limit = {self.limit}\noperations = {json.dumps(OPERATIONS)}\n"
                                           f"objects = {json.dumps(OBJECTS)}\npermissions = {json.dumps(PERMISSIONS)}\n")
        # Of each member the texts of what it sent, as others are brought them, their stamps, and its callers' next serials.
        self.rows = {k: [] for k in range(1, self.members + 1)}
        self.stamps = {k: [] for k in self.rows}
        self.serials = {k: collections.Counter() for k in self.rows}
        self.beginning = beginning(chance)
        self.order = []
        self.total = 0
        self.lives = []
        for number in self.rows:
            self.start(number)
            if self.kind == "rows" and chance.random() < 0.1:
                self.start(number)
                play.met["two processes are one member"] += 1

    def start(self, number):
        self.lives.append(Life(self, number))

    def set(self, number, message):
        """Sets a message in a row, at its end."""
        value = json.loads(message)
        self.rows[number].append(message)
        self.stamps[number].append(tuple(value["stamp"]))
        self.serials[number][value.get("caller")] += len(value.get("commands", []))
        self.total += len(value.get("commands", []))

    def set_by_a_stranger(self, number):
        """Sets something in a row that no process of the member was asked for: a seal, or commands."""
        chance, row = self.chance, self.rows[number]
        if len(row) >= self.limit:
            return
        clock = max([stamps[-1][0] for stamps in self.stamps.values() if stamps], default=self.clock) + chance.choice([1, 1, 2, 5])
        if clock > LAST_CLOCK:
            return
        caller = self.caller()
        message = {"stamp": [clock, number]}
        if chance.random() < 0.3:
            asked = [{**one, **({"roles": sorted(set(one["roles"]))} if "roles" in one else {})} for one in commands(chance)]
            message = {"caller": caller, "commands": asked, "serial": self.serials[number][caller], "stamp": [clock, number]}
        self.set(number, dumped(message))
        self.play.met["a stranger sets a message in a row"] += 1

    # ---- Turns

    def turn(self, lives):
        counts = [life.load() for life in lives]
        self.play.moves += sum(counts)
        processes = [process for life in lives for process in life.pair]
        exchange(processes, [count for count in counts for _ in range(2)])
        for life in lives:
            life.settle()
        if self.kind == "rows":
            for life in lives:
                self.set_candidate(life)

    def set_candidate(self, life):
        """What a member told that it would send is set in its row, where the place is still free."""
        row = self.rows[life.number]
        if not life.candidate:
            return
        if len(row) == life.sent:
            self.set(life.number, life.candidate)
            self.play.met["a row gets a message"] += 1
        else:
            self.play.met["a row's place is taken already"] += 1
        life.candidate = None

    def crash(self, life):
        """The member's processes are killed, between two turns or amid the lines of one, and it is made anew of its row."""
        where = "between turns"
        if self.chance.random() < 0.7:
            where = self.crash_amid(life)
            # What it told last may be set in its row still.
            if self.chance.random() < 0.7:
                self.set_candidate(life)
        else:
            life.kill()
        self.play.met[f"crash: {where}"] += 1
        self.lives.remove(life)
        self.start(life.number)
        self.play.met["restore"] += 1

    def crash_amid(self, life):
        chance = self.chance
        self.fill(life)
        count = life.load()
        self.play.moves += count
        whole = life.pair[0].pending
        given = len(whole) if chance.random() < 0.3 else chance.randrange(len(whole) + 1)
        for process in life.pair:
            process.pending = whole[:given]
            process.write()
        if chance.random() < 0.7:
            select.select([chance.choice(life.pair).take], [], [], chance.choice([0, 0.001, 0.01]))
        for process in life.pair:
            process.read()
        life.kill()
        answered = life.settle(crashed=True)
        return "behind a turn" if answered == count > 0 else f"amid a turn, {'some answers' if answered else 'no answer'} told"

    def play_out(self, turns):
        chance = self.chance
        silent = {life for life in self.lives if chance.random() < 0.1}
        for _ in range(turns):
            lives = [life for life in self.lives if life not in silent and chance.random() < 0.8]
            for life in lives:
                self.fill(life)
            self.turn(lives)
            if self.kind == "rows":
                if chance.random() < 0.08:
                    self.set_by_a_stranger(chance.choice(list(self.rows)))
                if chance.random() < 0.12:
                    self.crash(chance.choice(self.lives))

    # ---- The end

    def finish(self):
        """All is brought to everybody and delivered."""
        before = None
        while before != (before := self.bring_all()):
            if self.kind == "rows" and not self.is_bounded and self.chance.random() < 0.3:
                self.set_by_a_stranger(self.chance.choice(list(self.rows)))
        for life in self.lives:
            if not self.is_bounded and len(life.told) != self.total:
                self.fault(life, f"all was brought, and it delivered {len(life.told)} commands of {self.total}")
            for number in range(1, len(life.told) + 2):
                life.add(self.line(do="record", number=number), "record", number)
            life.add(b'{"do":"waits"}', "waits")
            life.add(b'{"do":"dump"}', "dump")
        self.turn(self.lives)
        dumps = {}
        for life in self.lives:
            if dumps.setdefault(len(life.told), life.dump) != life.dump:
                self.fault(life, f"its dump is another one than that of a member that delivered the same: {life.dump.decode()[:2000]}")
        self.play.met["a group is delivered to its end"] += all(len(life.told) == self.total for life in self.lives)

    def bring_all(self):
        """Each member is brought all that there is and delivers; gives what everybody has then."""
        for life in self.lives:
            self.add_row(life) if self.kind == "rows" else self.add_new_messages(life)
            for sender in self.rows:
                if sender != life.number:
                    self.add_receipts_of(life, sender, len(self.rows[sender]))
            self.add_deliveries(life, min(self.total - len(life.told), 40) + 1)
        self.turn(self.lives)
        return [(life.sent, dict(life.read), len(life.told)) for life in self.lives], {k: len(row) for k, row in self.rows.items()}

    # ---- Forged groups

    def play_forged(self, turns):
        """Each member is brought what nobody has sent, and the answers alone are compared."""
        chance = self.chance
        for _ in range(turns):
            for life in self.lives:
                for _ in range(chance.randrange(1, 30)):
                    add_forged(chance, self, life)
            self.turn(self.lives)

    def end(self):
        for life in self.lives:
            life.close()

    def kill_all(self):
        for life in self.lives:
            for process in life.pair:
                process.process.kill()
