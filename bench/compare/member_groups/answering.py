"""What the members of a group answer."""
from lives import Differs


class Answering:
    """What a group makes of an answer, by the word of its line. An answer was compared with that of the other implementation before."""

    def fault(self, life, text):
        last = "\n".join(line.decode(errors="replace")[:300] for line in life.given[-12:])
        raise Differs(f"member {life.number} of {self.name} ({self.kind}, {self.members} members, founded with clock {self.clock}, sent_limit {self.limit}): {text}\n"
                      f"its last lines:\n{last}")

    def fault_of(self, life, what, line, answer):
        self.fault(life, f"{what}: {line.decode(errors='replace')[:500]} {answer.decode()[:500]}")

    def take(self, life, line, tag, answer):
        word = tag[0]
        refused = answer.rpartition(b'"refused":"')[2][:-2].decode() if b'"refused":"' in answer else None
        if word != "deliver":
            self.play.met[f"{tag[1] if word in ('refused', 'forged') else word}: {refused or 'done'}"] += 1
        getattr(self, f"take_{word}")(life, line, tag, answer, refused)

    def take_any(self, life, line, tag, answer, refused):
        pass

    take_waits = take_read = take_serial = take_check = take_any

    def take_refused(self, life, line, tag, answer, refused):
        if not refused and self.kind != "forged":
            self.fault_of(life, "this was not refused", line, answer)

    def take_submit(self, life, line, tag, answer, refused):
        _, caller, count = tag
        if not refused:
            life.sent += 1
            life.serials[caller] += count
        elif not (self.is_bounded or self.is_long or self.kind == "forged"):
            self.fault_of(life, "a submit was refused", line, answer)

    def take_receive(self, life, line, tag, answer, refused):
        if refused:
            if not self.is_bounded:
                self.fault_of(life, "the next message was refused", line, answer)
            return
        life.read[tag[1]] += 1
        if b'"acknowledged":null' not in answer:
            life.sent += 1
            self.play.met["receive: acknowledged"] += 1
            if self.kind == "rows":
                self.fault_of(life, "acknowledged in memory, and not by its row first", line, answer)

    def take_own(self, life, line, tag, answer, refused):
        if refused:
            self.fault_of(life, "what stands in its row is not taken", line, answer)
        life.sent += 1

    def take_forged(self, life, line, tag, answer, refused):
        life.take_forged(tag, refused)

    def take_next(self, life, line, tag, answer, refused):
        if not refused and tag[-1] and b'"message":null' not in answer:
            life.candidate = answer[answer.index(b'"message":') + 10:-1]

    take_answer = take_next

    def take_dump(self, life, line, tag, answer, refused):
        life.dump = answer[:answer.rindex(b',"line":')]

    def take_message(self, life, line, tag, answer, refused):
        if self.kind == "forged" or refused:
            return
        told, row, number = answer[answer.index(b'"message":') + 10:-1], self.rows[life.number], tag[1]
        if self.kind == "memory" and number == len(row) + 1:
            self.set(life.number, told)
        if told != row[number - 1]:
            self.fault(life, f"message {number} is told as {told.decode()}")

    def take_record(self, life, line, tag, answer, refused):
        told = None if refused else answer[answer.index(b'"record":') + 9:-1]
        if told != (life.told[tag[1] - 1] if 1 <= tag[1] <= len(life.told) else None):
            self.fault(life, f"record {tag[1]} is told as {answer.decode()}")

    def take_deliver(self, life, line, tag, answer, refused):
        if answer.endswith(b'"record":null}'):
            self.play.met["deliver: nothing is due"] += 1
            return
        self.play.met["deliver: done"] += 1
        record = answer[answer.index(b'"record":') + 9:-1]
        self.play.answers[kind_of(record)] += 1
        place = len(life.told)
        life.told.append(record)
        if self.kind == "forged":
            return
        if place == len(self.order):
            self.order.append(record)
        if self.order[place] != record:
            self.fault(life, f"record {place + 1} is {record.decode()}, and was told as {self.order[place].decode()}")


def kind_of(record):
    """Done, Granted or Refused, the key of what is listed, or the word of a denial."""
    answer = record[len(b'{"answer":'):record.index(b',"caller"')].decode()
    words = answer.split('"')
    return words[3] if words[1] == "denied" else words[1]
