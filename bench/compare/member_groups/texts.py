"""Lines told in another way, and lines that are refused for their form."""
import json

from commands import KEYS, LAST_NUMBER, LONGEST_LINE, command, commands, dumped


def shuffled(chance, value):
    """The same value with the keys of its objects in another order."""
    if isinstance(value, dict):
        keys = list(value)
        chance.shuffle(keys)
        return {key: shuffled(chance, value[key]) for key in keys}
    return [shuffled(chance, one) for one in value] if isinstance(value, list) else value


def varied(chance, text):
    """The same line as another text: keys in another order or there twice, blanks, escapes."""
    if len(text) > LONGEST_LINE // 4:
        return text
    told = json.dumps(shuffled(chance, json.loads(text)), separators=chance.choice([(",", ":"), (", ", ": "), (" ,\t", " :\r")]))
    if chance.random() < 0.2:
        # the last one of two values counts
        told = '{"do":"fly","number":null,'[:chance.choice([12, 26]) if '"number"' in told else 12] + told[1:]
        told = told.replace('"stamp"', '"stamp":[],"stamp"')
    if chance.random() < 0.3:
        told = told.replace('"stamp"', '"st\\u0061mp"').replace('"ann"', '"\\u0061nn"').replace('"do"', '"\\u0064o"')
    return (chance.choice(["", " ", "\t"]) + told + chance.choice(["", " ", "\r"])).encode()


def objects_in(value):
    if isinstance(value, dict):
        yield value
        for one in value.values():
            yield from objects_in(one)
    if isinstance(value, list):
        for one in value:
            yield from objects_in(one)


OTHER_KINDS = [None, True, 1.5, -1, LAST_NUMBER + 1, 2 ** 64, "", "a b", "ann@home", [], [1], {}, [{}], [[1, 2]], "x" * 65, [1, 2, 3], [1, 2, 0], [1.0, 2], [-1, 1]]


def spoilt(chance, text):
    """A line that is refused for its form, made of one that is not: each is refused, whatever the member holds."""
    kind = chance.randrange(7)
    if kind == 0:
        cut = text[:chance.randrange(len(text))]
        return chance.choice([cut, text + b"}", text + b",", b"\xef\xbb\xbf" + text, text.replace(b'"', b'"\xff', 1), b"nothing", text.replace(b":", b"=", 1),
                              b'{"do":1e999}', b'{"do":"\\ud800"}', b"[" * 128 + b"]" * 128])
    if kind == 1:
        return chance.choice([b"[]", b"1", b'"text"', b"null", b"[" + text + b"]", b"[" * 127 + b"]" * 127])
    if kind == 2 and chance.random() < 0.1:
        return text + b" " * (LONGEST_LINE + 1 - len(text) + chance.choice([0, 0, 1, 70_000]))
    value = json.loads(text)
    places = list(objects_in(value))
    place = chance.choice(places)
    key = chance.choice(list(place))
    if kind in (2, 3):
        del place[key]
    elif kind == 4:
        place[chance.choice(["extra", "at", "", "line", "Do", "\u00e9"])] = chance.choice([1, None, "do", {}])
    else:
        place[key] = chance.choice(OTHER_KINDS)
    return dumped(value)


def spoilt_line(chance):
    """A line of any word that is refused for its form. What could be read in another way has a number or a serial that no member takes."""
    message = dumped(chance.choice([{"stamp": [3, 1]}, {"caller": 0, "commands": commands(chance)[:3], "serial": 0, "stamp": [3, 1]}]))
    far = 4_000_000_000
    if chance.random() < 0.15:
        return chance.choice([b'{"do":"deliver","at":1}', b'{"do":"waits","number":1}', b'{"do":"dump","to":"x"}', b'{"do":"own","do":"record","number":%d}' % far,
                              b'{"do":"Deliver"}', b'{"do":"fly"}', b'{"do":null}', b"{}"])
    text = chance.choice([
        dumped({"do": "submit", "caller": 0, "serial": far, "command": command(chance)}), dumped({"do": "batch", "caller": 0, "serial": far, "commands": commands(chance)[:4]}),
        dumped({"do": "next", "caller": 0, "serial": far, "commands": commands(chance)[:4]}), b'{"do":"receive","from":1,"number":%d,"message":%s}' % (far, message),
        b'{"do":"answer","from":2,"number":%d,"message":%s}' % (far, message), b'{"do":"own","number":%d,"message":%s}' % (far, message),
        dumped({"do": "message", "number": far}), dumped({"do": "record", "number": far}),
    ])
    return spoilt(chance, text)


def spoilt_call(chance):
    """A line whose text, which is its call's, is no JSON or has another fault in itself."""
    far = 4_000_000_000
    word, key = chance.choice([("submit", "command"), ("batch", "commands"), ("next", "commands"), ("receive", "message"), ("answer", "message"), ("own", "message")])
    text = dumped({"command": command(chance), "commands": commands(chance)[:4],
                   "message": chance.choice([{"stamp": [3, 1]}, {"caller": 0, "commands": commands(chance)[:3], "serial": 0, "stamp": [3, 1]}])}[key])
    # A line is one deeper than the text in it, and so has another limit.
    while (told := spoilt(chance, text)).startswith(b"[[["):
        pass
    before = {"caller": 0, "serial": far} if key != "message" else {"number": far} if word == "own" else {"from": 2, "number": far}
    return dumped({"do": word, **before})[:-1] + b',"%s":%s}' % (key.encode(), told)


# A word that no line has is among them.
ANY_KEYS = {**KEYS, "fly": ""}


def any_object(chance):
    """A line of any word, and perhaps with several faults, of which the first one is to be named."""
    word = chance.choice(list(ANY_KEYS))
    return dumped(shuffled(chance, with_faults(chance, {"do": word, **{key: any_value(chance, key) for key in ANY_KEYS[word].split()}})))


def any_value(chance, key):
    if key == "message":
        keys = chance.choice(["stamp", "caller commands serial stamp", "caller commands serial stamp", "commands stamp"])
        return with_faults(chance, {one: any_value(chance, one) for one in keys.split()})
    if key == "stamp":
        return chance.choice([[chance.randrange(9), chance.randrange(4)], [2 ** 64 - 1, 1], [2 ** 64, 1], [1, LAST_NUMBER], [1, LAST_NUMBER + 1], [1], [1, 1, 0], ["1", 1]])
    if key == "command":
        return with_faults(chance, command(chance))
    if key == "commands":
        return [with_faults(chance, one) if chance.random() < 0.7 else one for one in commands(chance)[:4]]
    return chance.choice([0, 0, 1, 1, 2, LAST_NUMBER])


def with_faults(chance, value):
    """The same object with keys left out, added, or of another kind."""
    left = {key: chance.choice(OTHER_KINDS) if chance.random() < 0.07 else one for key, one in value.items() if chance.random() > 0.07}
    return {**left, "extra": 1} if chance.random() < 0.07 else left
