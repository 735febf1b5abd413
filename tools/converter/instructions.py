"""Where the instructions of a method stand in a Method component, and where they lead."""
from .assembly import OPCODES

EXTENDED, ABSTRACT = 0x80, 0x40  # in the first byte of a method's header
SIZES = {"b": 1, "B": 1, "s": 2, "S": 2}


def signed(info, at):
    return int.from_bytes(info[at:at + 2], "big", signed=True)


def size_of(info, at):
    """The bytes of an instruction, or None where there is no such one."""
    _, form = OPCODES.get(info[at], (None, None))
    if form is None:
        return None
    if form == "table":
        return 7 + 2 * (signed(info, at + 5) - signed(info, at + 3) + 1)
    if form == "lookup":
        return 5 + 4 * int.from_bytes(info[at + 3:at + 5], "big")
    return 1 + sum(SIZES[letter] for letter in form)


def signed_of(info, at, size):
    return int.from_bytes(info[at:at + size], "big", signed=True)


def flow_of(info, places):
    """Of the instructions at these places those after which another one may follow than the next, each with what it is and where it
    leads: a `jump`, a `branch`, which may also go on, a `switch`, or the `end` of a method or of what is known of it."""
    for at in places:
        name, form = OPCODES[info[at]]
        if name.startswith("if"):
            yield "branch", at, [at + signed_of(info, at + 1, SIZES[form])]
        elif name.startswith("goto"):
            yield "jump", at, [at + signed_of(info, at + 1, SIZES[form])]
        elif name in ("stableswitch", "slookupswitch"):
            first, step = (at + 7, 2) if name == "stableswitch" else (at + 7, 4)
            ends = [at + 1, *range(first, at + size_of(info, at), step)]
            yield "switch", at, sorted({at + signed_of(info, place, 2) for place in ends})
        elif name.endswith("return") or name in ("athrow", "ret", "jsr"):
            yield "end", at, []


def instructions_of(info, start, end):
    """The offsets of the instructions of the method whose header begins at an offset, up to where the next one does."""
    if start >= len(info) or info[start] & ABSTRACT:
        return []
    at, found = start + (4 if info[start] & EXTENDED else 2), []
    while at < end:
        size = size_of(info, at)
        if not size or size < 0 or at + size > end:
            break
        found.append(at)
        at += size
    return found
