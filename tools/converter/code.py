"""The card's instructions, and how the code of a method is laid out in bytes."""
from .refusal import Refusal

# Instructions without operands: the opcode, the cells that it takes from the stack, and those that it puts there.
PLAIN = {
    "nop": (0x00, 0, 0), "aconst_null": (0x01, 0, 1), "aaload": (0x24, 2, 1), "baload": (0x25, 2, 1), "saload": (0x26, 2, 1),
    "aastore": (0x37, 3, 0), "bastore": (0x38, 3, 0), "sastore": (0x39, 3, 0), "pop": (0x3B, 1, 0), "pop2": (0x3C, 2, 0),
    "dup": (0x3D, 1, 2), "dup2": (0x3E, 2, 4), "sadd": (0x41, 2, 1), "ssub": (0x43, 2, 1), "smul": (0x45, 2, 1),
    "sdiv": (0x47, 2, 1), "srem": (0x49, 2, 1), "sneg": (0x4B, 1, 1), "sshl": (0x4D, 2, 1), "sshr": (0x4F, 2, 1),
    "sushr": (0x51, 2, 1), "sand": (0x53, 2, 1), "sor": (0x55, 2, 1), "sxor": (0x57, 2, 1), "s2b": (0x5B, 1, 1),
    "areturn": (0x77, 1, 0), "sreturn": (0x78, 1, 0), "return": (0x7A, 0, 0), "arraylength": (0x92, 1, 1), "athrow": (0x93, 1, 0),
}
ENDS = ("areturn", "sreturn", "return", "athrow", "goto", "stableswitch", "slookupswitch")
CONDITIONS = ("eq", "ne", "lt", "ge", "gt", "le")
BRANCHES = [
    *(f"if{condition}" for condition in CONDITIONS), "ifnull", "ifnonnull", "if_acmpeq", "if_acmpne",
    *(f"if_scmp{condition}" for condition in CONDITIONS), "goto"]
BRANCH, WIDE_BRANCH = 0x60, 0x98  # the first of them, in each form
SCONST_0, BSPUSH, SSPUSH = 0x03, 0x10, 0x11
# Of locals: the opcode with an operand, and the first of the four without; the cells taken and put.
LOCALS = {"aload": (0x15, 0x18, 0, 1), "sload": (0x16, 0x1C, 0, 1), "astore": (0x28, 0x2B, 1, 0), "sstore": (0x29, 0x2F, 1, 0)}
SINC, SINC_W = 0x59, 0x96
DUP_X, SWAP_X = 0x3F, 0x40
NEWARRAY = 0x90
STABLESWITCH, SLOOKUPSWITCH = 0x73, 0x75
# Instructions whose two bytes of operand are an index of the constant pool.
OF_POOL = {
    "getstatic_a": 0x7B, "getstatic_b": 0x7C, "getstatic_s": 0x7D, "putstatic_a": 0x7F, "putstatic_b": 0x80, "putstatic_s": 0x81,
    "invokevirtual": 0x8B, "invokespecial": 0x8C, "invokestatic": 0x8D, "new": 0x8F, "anewarray": 0x91,
}
# Of fields: the opcode with an index of one byte, of two bytes, and of one byte for the object whose method runs.
FIELDS = {
    "getfield_a": (0x83, 0xA9, 0xAD), "getfield_b": (0x84, 0xAA, 0xAE), "getfield_s": (0x85, 0xAB, 0xAF),
    "putfield_a": (0x87, 0xB1, 0xB5), "putfield_b": (0x88, 0xB2, 0xB6), "putfield_s": (0x89, 0xB3, 0xB7),
}
INVOKEINTERFACE, CHECKCAST, INSTANCEOF = 0x8E, 0x94, 0x95
LARGEST_BYTE = 255


class TooManyFields(Exception):
    """A field's entry of the constant pool needs an index of two bytes, where the object is the one whose method runs."""


def two_bytes(value):
    return (value & 0xFFFF).to_bytes(2, "big")


class Instruction:
    """An instruction, with the place `pc` in the class file's code that it comes from."""

    def __init__(self, pc, name, taken, put):
        self.pc, self.name, self.taken, self.put = pc, name, taken, put
        self.offset = 0

    entry = None  # of the constant pool

    def targets(self):
        return []

    def size(self, layout):
        raise NotImplementedError

    def bytes(self, layout):
        raise NotImplementedError


class Fixed(Instruction):
    """An instruction whose bytes are known from the start."""

    def __init__(self, pc, name, taken, put, *content):
        super().__init__(pc, name, taken, put)
        self.content = bytes(content)

    def size(self, layout):
        return len(self.content)

    def bytes(self, layout):
        return self.content


class OfPool(Instruction):
    """An opcode, and perhaps a byte, before the two bytes of an index of the constant pool, and perhaps bytes after it."""

    def __init__(self, pc, name, taken, put, entry, before, behind=b""):
        super().__init__(pc, name, taken, put)
        self.entry, self.before, self.behind = entry, before, behind

    def size(self, layout):
        return len(self.before) + 2 + len(self.behind)

    def bytes(self, layout):
        return self.before + layout.index(self, len(self.before), 2) + self.behind


class OfField(Instruction):
    """An access to an instance field."""

    def __init__(self, pc, name, taken, put, entry, is_this):
        super().__init__(pc, name, taken, put)
        self.entry, self.is_this = entry, is_this

    def is_narrow(self, layout):
        return layout.indices[self.entry] <= LARGEST_BYTE

    def size(self, layout):
        return 2 if self.is_narrow(layout) else 3

    def bytes(self, layout):
        narrow, wide, this = FIELDS[self.name]
        if self.is_narrow(layout):
            return bytes([this if self.is_this else narrow]) + layout.index(self, 1, 1)
        if self.is_this:
            raise TooManyFields
        return bytes([wide]) + layout.index(self, 1, 2)


class Branch(Instruction):
    def __init__(self, pc, name, taken, target):
        super().__init__(pc, name, taken, 0)
        self.target, self.is_wide = target, False

    def targets(self):
        return [self.target]

    def size(self, layout):
        return 3 if self.is_wide else 2

    def bytes(self, layout):
        number = BRANCHES.index(self.name)
        jump = layout.jump(self, self.target)
        if self.is_wide:
            return bytes([WIDE_BRANCH + number]) + two_bytes(jump)
        return bytes([BRANCH + number, jump & 0xFF])


class Table(Instruction):
    """stableswitch."""

    def __init__(self, pc, default, cases):
        super().__init__(pc, "stableswitch", 1, 0)
        self.default, self.cases = default, cases

    def targets(self):
        return [self.default] + [target for _, target in self.cases]

    def size(self, layout):
        return 7 + 2 * len(self.cases)

    def bytes(self, layout):
        content = bytes([STABLESWITCH]) + two_bytes(layout.jump(self, self.default))
        content += two_bytes(self.cases[0][0]) + two_bytes(self.cases[-1][0])
        return content + b"".join(two_bytes(layout.jump(self, target)) for _, target in self.cases)


class Lookup(Instruction):
    """slookupswitch."""

    def __init__(self, pc, default, cases):
        super().__init__(pc, "slookupswitch", 1, 0)
        self.default, self.cases = default, cases

    def targets(self):
        return [self.default] + [target for _, target in self.cases]

    def size(self, layout):
        return 5 + 4 * len(self.cases)

    def bytes(self, layout):
        content = bytes([SLOOKUPSWITCH]) + two_bytes(layout.jump(self, self.default)) + two_bytes(len(self.cases))
        return content + b"".join(two_bytes(value) + two_bytes(layout.jump(self, target)) for value, target in self.cases)


def plain(pc, name):
    opcode, taken, put = PLAIN[name]
    return Fixed(pc, name, taken, put, opcode)


def constant(pc, value):
    if -1 <= value <= 5:
        return Fixed(pc, "sconst", 0, 1, SCONST_0 + value)
    if -128 <= value <= 127:
        return Fixed(pc, "bspush", 0, 1, BSPUSH, value & 0xFF)
    return Fixed(pc, "sspush", 0, 1, SSPUSH, *two_bytes(value))


def local(pc, name, number, is_short):
    opcode, first, taken, put = LOCALS[name]
    if number <= 3 and is_short:
        return Fixed(pc, name, taken, put, first + number)
    return Fixed(pc, name, taken, put, opcode, number)


def increment(pc, number, value):
    if -128 <= value <= 127:
        return Fixed(pc, "sinc", 0, 0, SINC, number, value & 0xFF)
    return Fixed(pc, "sinc_w", 0, 0, SINC_W, number, *two_bytes(value))


class Layout:
    """The bytes of a method's code. `first` tells where the code from a place in the class file's code on begins."""

    def __init__(self, instructions, first, indices, style):
        self.instructions, self.first, self.indices = instructions, first, indices
        self.index_places = []  # where an index of the constant pool stands, and its bytes
        for instruction in instructions:
            if isinstance(instruction, Branch):
                instruction.is_wide = not style.narrow_branches
        self.end = self.place()
        while self.widen():
            self.end = self.place()
        self.content = b"".join(instruction.bytes(self) for instruction in instructions)

    def place(self):
        """Gives each instruction its offset; the offset after them."""
        at = 0
        for instruction in self.instructions:
            instruction.offset = at
            at += instruction.size(self)
        return at

    def widen(self):
        """Widens the branches that do not reach; whether there was one."""
        far = [
            branch for branch in self.instructions
            if isinstance(branch, Branch) and not branch.is_wide and not -128 <= self.jump(branch, branch.target) <= 127]
        for branch in far:
            branch.is_wide = True
        return bool(far)

    def offset(self, pc):
        number = self.first.get(pc, len(self.instructions))
        return self.instructions[number].offset if number < len(self.instructions) else self.end

    def jump(self, instruction, target):
        distance = self.offset(target) - instruction.offset
        if not -32768 <= distance <= 32767:
            raise Refusal("a method is too long")
        return distance

    def index(self, instruction, at, size):
        self.index_places.append((instruction.offset + at, size))
        return self.indices[instruction.entry].to_bytes(size, "big")
