"""Random commands over a small vocabulary, so that what is asked is sometimes done, granted or listed, and sometimes denied."""
import collections
import json

LAST_CLOCK, LAST_NUMBER = 9_007_199_254_740_991, 4_294_967_295
LONGEST_LINE = 65_536
# How members are asked: how many bytes a message's text may have, and which part of the groups has such messages.
By = collections.namedtuple("By", "message long_share")
BY_LINES, BY_CALLS = By(65_485, 0.1), By(1_048_576, 0.03)

# What a line of one member has beside its word, but for deliver.
KEYS = {"submit": "caller serial command", "batch": "caller serial commands", "next": "caller serial commands", "receive": "from number message",
        "answer": "from number message", "own": "number message", "message": "number", "record": "number", "waits": "", "dump": ""}

USERS, ROLES = ["ann", "bob", "cy", "Dora"], ["boss", "clerk", "head", "payer", "temp"]
SESSIONS, SETS = ["s1", "s2", "s3"], ["duty", "desk"]
OPERATIONS, OBJECTS = ["read", "write", "pay"], ["ledger", "invoice"]
PERMISSIONS = [["pay", "invoice"], ["read", "invoice"], ["read", "ledger"], ["write", "ledger"]]
SHAPES = {
    "AddUser": "user", "DeleteUser": "user", "AddRole": "role", "DeleteRole": "role", "AssignUser": "user role", "DeassignUser": "user role",
    "GrantPermission": "operation object role", "RevokePermission": "operation object role", "AddInheritance": "ascendant descendant",
    "DeleteInheritance": "ascendant descendant", "AddAscendant": "ascendant descendant", "AddDescendant": "ascendant descendant",
    "CreateSession": "user session roles", "DeleteSession": "user session", "AddActiveRole": "user session role", "DropActiveRole": "user session role",
    "CheckAccess": "session operation object", "AssignedUsers": "role", "AssignedRoles": "user", "AuthorizedUsers": "role", "AuthorizedRoles": "user",
    "RolePermissions": "role", "UserPermissions": "user", "SessionRoles": "session", "SessionPermissions": "session",
    "RoleOperationsOnObject": "role object", "UserOperationsOnObject": "user object",
    **{f"{before}{kind}{after}": shape for kind in ("Ssd", "Dsd") for before, after, shape in [
        ("Create", "Set", "set roles n"), ("Delete", "Set", "set"), ("Add", "RoleMember", "set role"), ("Delete", "RoleMember", "set role"),
        ("Set", "SetCardinality", "set n"), ("", "RoleSets", ""), ("", "RoleSetRoles", "set"), ("", "RoleSetCardinality", "set")]},
}
# What makes a policy comes more often than what unmakes it.
WEIGHTS = {"AddUser": 8, "AddRole": 12, "AssignUser": 16, "GrantPermission": 16, "AddInheritance": 4, "CreateSession": 20, "AddActiveRole": 12, "CheckAccess": 30,
           "DeleteUser": 0.6, "DeleteRole": 0.6, "CreateSsdSet": 4, "CreateDsdSet": 6, "DeleteSsdSet": 0.6, "DeleteDsdSet": 0.6}
WORDS, CHANCES = list(SHAPES), [WEIGHTS.get(word, 1.5) for word in SHAPES]


def dumped(value):
    return json.dumps(value, separators=(",", ":"), ensure_ascii=False).encode()


def field(chance, key):
    return {
        "user": lambda: chance.choice(USERS), "role": lambda: chance.choice(ROLES), "ascendant": lambda: chance.choice(ROLES),
        "descendant": lambda: chance.choice(ROLES), "session": lambda: chance.choice(SESSIONS), "set": lambda: chance.choice(SETS),
        "operation": lambda: chance.choice(OPERATIONS) if chance.random() < 0.97 else "fly",
        "object": lambda: chance.choice(OBJECTS) if chance.random() < 0.97 else "moon",
        "roles": lambda: [chance.choice(ROLES) for _ in range(chance.choice([0, 1, 1, 1, 2, 2, 3, 5]))],
        "n": lambda: chance.choice([0, 1, 2, 2, 2, 3, 4, LAST_NUMBER]),
    }[key]()


def command(chance):
    word = chance.choices(WORDS, CHANCES)[0]
    return {"name": word, **{key: field(chance, key) for key in SHAPES[word].split()}}


def beginning(chance):
    """What a policy begins with, in order."""
    made = [{"name": "AddRole", "role": role} for role in ROLES] + [{"name": "AddUser", "user": user} for user in USERS]
    for word, count in (("AssignUser", 8), ("GrantPermission", 8), ("AddInheritance", 2), ("CreateSession", 5), ("CreateDsdSet", 2), ("AddActiveRole", 4)):
        made += [{"name": word, **{key: field(chance, key) for key in SHAPES[word].split()}} for _ in range(count)]
    return made


def commands(chance):
    """Those of a batch."""
    count = chance.choices([1, 2, 3, 8, 64], [60, 25, 10, 4, 1])[0]
    return [command(chance) for _ in range(count)]


def long_commands(length):
    """A command in an array, whose text has so many bytes."""
    made = {"name": "CreateSession", "user": "ann", "session": "s1", "roles": []}
    left = length - len(dumped([made])) + 1
    count = left // 67 - 1
    rest = left - 67 * count
    made["roles"] = ["a" * (rest // 2 - 3), "b" * (rest - rest // 2 - 3), *("%s%05d" % ("r" * 59, number) for number in range(count))]
    return [made]


def long_policy():
    """A static set, a dynamic set and a session of 990 roles with names of 64 bytes, and small ones of each."""
    roles = ["%s%03d" % ("r" * 61, number) for number in range(990)]
    made = [{"name": "AddUser", "user": "ann"}, *({"name": "AddRole", "role": role} for role in roles)]
    for kind in ("Ssd", "Dsd"):
        made.append({"name": f"Create{kind}Set", "set": "long", "roles": roles[:2], "n": 2})
        made += [{"name": f"Add{kind}RoleMember", "set": "long", "role": role} for role in roles[2:]]
        made.append({"name": f"Set{kind}SetCardinality", "set": "long", "n": 990})
        made.append({"name": f"Create{kind}Set", "set": "small", "roles": roles[-2:], "n": 2})
    made += [{"name": "AssignUser", "user": "ann", "role": role} for role in roles[:-1]]
    made += [{"name": "CreateSession", "user": "ann", "session": session, "roles": roles[:1]} for session in ("long", "small")]
    made += [{"name": "AddActiveRole", "user": "ann", "session": "long", "role": role} for role in roles[1:-1]]
    return made
