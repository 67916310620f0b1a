"""Lines with messages that nobody sent, of which a member takes what it may."""
from commands import LAST_NUMBER, command, commands, long_commands
from texts import any_object


def add_forged(chance, group, life):
    """Any line at all."""
    kind = chance.random()
    if kind < 0.1:
        group.add_question(life)
    elif kind < 0.25:
        group.add_deliveries(life, chance.randrange(1, 4))
    elif kind < 0.4:
        life.add(chance.choice([any_object, any_object, group.spoilt])(chance), "any")
    elif kind < 0.5:
        group.add_submit(life)
        if chance.random() < 0.3:
            life.will_serials.clear()
    else:
        add_forged_message(chance, group, life)


def add_forged_message(chance, group, life):
    """A message of any sender, whose number, stamp and serial are right as a rule."""
    do = chance.choices(["receive", "own", "answer"], [60, 25, 15])[0]
    strangers = [0, group.members + 1] if chance.random() < 0.1 else []
    sender = life.number if do == "own" else chance.choice([*group.rows, *strangers])
    will, caller = life.will_forged, group.caller()
    clock = max(0, group.clock + will["clocks"][sender] + chance.choices([-1, 0, 1, 2, 7, 2 ** 53, 2 ** 63], [2, 3, 60, 20, 10, 0.3, 0.2])[0])
    taken = life.sent + sum(tag[:2] == ("forged", "own") for tag in life.tags) if do == "own" else will["numbers"][sender]
    known = life.will_serials[caller] if do == "own" else will["counts"][sender, caller]
    message = {"stamp": [clock, sender if chance.random() < 0.95 else chance.randrange(0, group.members + 2)]}
    if chance.random() < 0.6:
        asked = chance.choices([commands(chance), [], [command(chance)] * 65], [96, 2, 2])[0]
        if group.is_long and chance.random() < 0.05:
            asked = long_commands(group.by.message - 50 + chance.randrange(-40, 30))
        serial = max(0, known + chance.choices([0, 1, -1, LAST_NUMBER - known], [90, 4, 4, 2])[0])
        message = {"caller": caller, "commands": asked, "serial": serial, **message}
    number = max(0, taken + chance.choices([1, 0, 2, -1], [90, 4, 4, 2])[0])
    tag = ("forged", do, sender, caller, len(message.get("commands", [])), clock - group.clock)
    life.add(group.line(do=do, **({} if do == "own" else {"sender": sender}), number=number, message=message), *tag)
    if do == "receive":
        life.note_forged(will, tag)
