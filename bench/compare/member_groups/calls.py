"""Lines of one member as calls on one."""
import json
import re

from commands import BY_CALLS, KEYS, LAST_NUMBER, LONGEST_LINE

# What stands beside the word of a line that is a call. The last three are asked by calls alone.
CALL_KEYS = {**KEYS, "deliver": "", "read": "from", "serial": "caller", "check": "session operation object"}
NAMES = {"session", "operation", "object"}
# Texts that a call reads, and how many bytes each has at most.
TEXTS = {"command": LONGEST_LINE, "commands": BY_CALLS.message, "message": BY_CALLS.message}
# A line whose text, its last value, is no JSON, so that the line is none.
BROKEN = re.compile(rb'\{"do":"(\w+)",(?:"(\w+)":(\d+),)?"(\w+)":(\d+),"(command|commands|message)":(.*)\}', re.DOTALL)
BLANKS = re.compile(r"[ \t\r\n]*")
DECODE = json.JSONDecoder().raw_decode


def call_of(line):
    """The word of a line and its values by their keys, where it is a call: numbers, names, and the bytes of texts; else None. A text that
    its call would find too long makes none: a line does not tell it from one that is not."""
    try:
        found = fields_of(line.decode())
    except (ValueError, IndexError):
        return broken_call(line)
    word = found.pop("do", (None, None))[0]
    if not isinstance(word, str) or word not in CALL_KEYS or set(found) != set(CALL_KEYS[word].split()):
        return None
    values = {key: value_of(key, *pair) for key, pair in found.items()}
    return None if None in values.values() else (word, values)


def broken_call(line):
    match = BROKEN.fullmatch(line)
    if not match:
        return None
    word, *pairs, key, text = match.groups()
    values = {pairs[at].decode(): int(pairs[at + 1]) for at in (0, 2) if pairs[at]}
    values[key.decode()] = text if len(text) <= TEXTS[key.decode()] else None
    is_call = set(values) == set(CALL_KEYS.get(word.decode(), "-").split())
    return (word.decode(), values) if is_call and all(value is not None for value in values.values()) else None


def fields_of(text):
    """The values of an object and their texts by their keys. Of a key that stands twice the last one counts."""
    found, at = {}, BLANKS.match(text).end()
    if text[at] != "{":
        raise ValueError(text)
    at = BLANKS.match(text, at + 1).end()
    while text[at] != "}" or found:
        key, at = DECODE(text, at)
        at = BLANKS.match(text, at).end()
        if text[at] != ":" or not isinstance(key, str):
            raise ValueError(text)
        start = BLANKS.match(text, at + 1).end()
        value, end = DECODE(text, start)
        found[key] = value, text[start:end]
        at = BLANKS.match(text, end).end()
        if text[at] == "}":
            break
        if text[at] != ",":
            raise ValueError(text)
        at = BLANKS.match(text, at + 1).end()
    if text[at + 1:].strip(" \t\r\n"):
        raise ValueError(text)
    return found


def value_of(key, value, text):
    """A value as its call takes it, or None where it is of another kind or too long."""
    if key in TEXTS:
        told = text.encode()
        return told if len(told) <= TEXTS[key] else None
    if key in NAMES:
        return value if isinstance(value, str) else None
    return value if type(value) is int and 0 <= value <= LAST_NUMBER else None
