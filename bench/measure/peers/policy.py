"""The policy of bench/measure/checks with names of five bytes, what is asked of it and in which order, and which of that is granted. What is
granted is told by the sets alone: the operation on the object is granted to a role that an active role of the session inherits."""
USERS, OBJECTS, OPERATIONS, ROLES, CHECKS = 1000, 200, 10, 100, 1000


def numbered(letter, number):
    return f"{letter}{number:04}"


def user(number):
    return numbered("u", number)


def session(number):
    return numbered("s", number)


def role(number):
    return numbered("r", number)


def permission(number):
    """An operation and an object."""
    return numbered("o", number % OPERATIONS), numbered("b", number // OPERATIONS)


ROLE_NAMES = [role(number) for number in range(1, ROLES + 1)]
PERMISSIONS = [permission(number) for number in range(OBJECTS * OPERATIONS)]
# Each role but the first is declared below another: (ascendant, descendant).
PAIRS = [(role(number // 2), role(number)) for number in range(2, ROLES + 1)]
GRANTS = [(*permission(number), role(1 + number % 100)) for number in range(OBJECTS * OPERATIONS)]
# Each user has a role, and a session in which it is active.
ASSIGNED = [(user(number), role(1 + number % 100)) for number in range(USERS)]
SESSIONS = [(session(number), user(number)) for number in range(USERS)]
ACTIVE = [(session(number), role(1 + number % 100)) for number in range(USERS)]
ASKED = [(session(number * 17 % USERS), numbered("o", number % OPERATIONS), numbered("b", number * 7 % OBJECTS)) for number in range(CHECKS)]

# A session of each role and a permission granted to each, every one with every other: 10,000, of which each pair that inherits is granted.
EACH_PAIR = [(session(number), *permission(other)) for number in range(ROLES) for other in range(ROLES)]


def inherited(pairs, roles):
    """The smallest reflexive and transitive relation that has the pairs."""
    relation = {(one, one) for one in roles} | set(pairs)
    while True:
        joined = {(above, below) for above, middle in relation for other, below in pairs if middle == other}
        if joined <= relation:
            return relation
        relation |= joined


def all_granted():
    """Each (session, operation, object) that is granted."""
    juniors = {}
    for ascendant, descendant in inherited(PAIRS, ROLE_NAMES):
        juniors.setdefault(ascendant, set()).add(descendant)
    return {(one, operation, thing) for one, active in ACTIVE for operation, thing, granted in GRANTS if granted in juniors[active]}
