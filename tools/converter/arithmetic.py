"""What is known of a value: a reference, or an int with the interval in which it lies.

A cell of the card has 16 bits where Java computes with 32. An int that may leave the interval of a short is not exact: its low
16 bits are right, and no more. It may meet what gives the same low 16 bits whatever the high ones are, until a cast to short or
byte makes it exact again."""
from dataclasses import dataclass, replace

LOWEST, HIGHEST = -32768, 32767


@dataclass(frozen=True)
class Value:
    """A reference, or an int between two bounds, which are None where it is not exact.

    Of a reference that was loaded from the local 0 of a method and nowhere else, `origin` is where that was. Of an int that was
    loaded from a local, which has not changed since, `variable` is its number."""

    is_reference: bool
    low: int | None = None
    high: int | None = None
    origin: int | None = None
    variable: int | None = None

    @property
    def is_exact(self):
        return self.low is not None

    def is_one(self):
        return self.low is not None and self.low == self.high

    def of_variable(self, number):
        return replace(self, variable=number)


REFERENCE = Value(True)
INEXACT = Value(False)
SHORT = Value(False, LOWEST, HIGHEST)
BYTE = Value(False, -128, 127)
BOOLEAN = Value(False, 0, 1)


def between(low, high):
    """An int between these bounds."""
    return Value(False, low, high) if LOWEST <= low and high <= HIGHEST else INEXACT


def value_of_type(descriptor):
    return {"Z": BOOLEAN, "B": BYTE, "S": SHORT}.get(descriptor, REFERENCE)


def cast(value, target):
    """The value after a cast to short or byte."""
    return value if value.is_exact and target.low <= value.low and value.high <= target.high else target


def negated(value):
    return between(-value.high, -value.low) if value.is_exact else INEXACT


def divided(a, b):
    if a.low == LOWEST and b.low <= -1 <= b.high:
        return INEXACT
    if a.low >= 0 and b.low > 0:
        return between(0, a.high // b.low)
    largest = min(max(abs(a.low), abs(a.high)), HIGHEST)
    return between(-largest if a.low != LOWEST else LOWEST, largest)


def remainder(a, b):
    largest = max(abs(b.low), abs(b.high), 1) - 1
    return between(max(a.low, -largest) if a.low < 0 else 0, min(a.high, largest) if a.high > 0 else 0)


def shifted_left(a, b):
    if a.is_exact and b.is_one() and 0 <= b.low <= 15:
        return between(a.low << b.low, a.high << b.low)
    return INEXACT


def shifted_right(a, b):
    if b.is_one():
        return between(a.low >> (b.low & 31), a.high >> (b.low & 31))
    return between(min(a.low, 0), max(a.high, 0))


def shifted_right_unsigned(a, b):
    if a.low >= 0:
        return shifted_right(a, b)
    if b.is_one() and b.low & 31 > 16:
        return between(0, 0xFFFFFFFF >> (b.low & 31))
    return INEXACT


def masked(a, b):
    """And: with an exact mask that is not negative the result is exact, whatever the other operand is."""
    masks = [value.high for value in (a, b) if value.is_exact and value.low >= 0]
    if masks:
        return between(0, min(masks))
    return SHORT if a.is_exact and b.is_exact else INEXACT


def combined(a, b):
    """Or, and exclusive or."""
    if not (a.is_exact and b.is_exact):
        return INEXACT
    if a.low >= 0 and b.low >= 0:
        return between(0, (1 << max(a.high, b.high).bit_length()) - 1)
    return SHORT


def of_bounds(operation):
    """An operation whose bounds are among those that the bounds of its operands give."""

    def result(a, b):
        if not (a.is_exact and b.is_exact):
            return INEXACT
        bounds = [operation(x, y) for x in (a.low, a.high) for y in (b.low, b.high)]
        return between(min(bounds), max(bounds))

    return result


# The result of each operation of two ints, and the operands that have to be exact: the first, the second.
OPERATIONS = {
    "iadd": (of_bounds(lambda x, y: x + y), "", ""),
    "isub": (of_bounds(lambda x, y: x - y), "", ""),
    "imul": (of_bounds(lambda x, y: x * y), "", ""),
    "idiv": (divided, "a dividend", "a divisor"),
    "irem": (remainder, "a dividend", "a divisor"),
    "ishl": (shifted_left, "", ""),
    "ishr": (shifted_right, "the value of a right shift", ""),
    "iushr": (shifted_right_unsigned, "the value of a right shift", ""),
    "iand": (masked, "", ""),
    "ior": (combined, "", ""),
    "ixor": (combined, "", ""),
}


def narrowed(condition, a, b):
    """What is known of two ints for which a comparison holds."""
    if condition in ("gt", "ge"):
        b, a = narrowed({"gt": "lt", "ge": "le"}[condition], b, a)
        return a, b
    difference = 1 if condition == "lt" else 0
    low, high = b.low, a.high
    if condition in ("lt", "le", "eq"):
        a, b = limited(a, a.low, b.high - difference), limited(b, a.low + difference, b.high)
    if condition == "eq":
        a, b = limited(a, low, a.high), limited(b, b.low, high)
    return a, b


def limited(value, low, high):
    """The value within more bounds, unless it cannot be there."""
    low, high = max(value.low, low), min(value.high, high)
    return replace(value, low=low, high=high) if low <= high else value


def merged(a, b, is_wide):
    """What is known where two ways meet. Where they were taken often, a bound that moves goes to the end of the shorts; the upper
    one first stops before it, where the index of a loop over an array ends."""
    if a is None or b is None or a.is_reference != b.is_reference:
        return None
    if a.is_reference:
        return a if a == b else REFERENCE
    if not (a.is_exact and b.is_exact):
        return INEXACT
    low, high = min(a.low, b.low), max(a.high, b.high)
    if is_wide and low < a.low:
        low = LOWEST
    if is_wide and high > a.high:
        high = HIGHEST - 1 if high < HIGHEST else HIGHEST
    return Value(False, low, high, variable=a.variable if a.variable == b.variable else None)
