"""Points of elliptic curves over prime fields, by Python's integers. A point is a pair, or None at infinity."""


def octets(number):
    return (number.bit_length() + 7) // 8


class Curve:
    """A curve by its numbers."""

    def __init__(self, name, p, a, b, generator, n):
        self.name, self.p, self.a, self.b, self.n = name, p, a, b, n
        self.size = octets(p)
        self.generator = self.decoded(generator)

    def decoded(self, encoding):
        return tuple(int.from_bytes(part, "big") for part in (encoding[1:1 + self.size], encoding[1 + self.size:]))

    def encoded(self, point):
        return b"\4" + b"".join(number.to_bytes(self.size, "big") for number in point)

    def add(self, first, second):
        if first is None or second is None:
            return first or second
        (x, y), (u, v) = first, second
        if x != u:
            slope = (v - y) * pow(u - x, -1, self.p)
        elif y == v and y:
            slope = (3 * x * x + self.a) * pow(2 * y, -1, self.p)
        else:
            return None
        third = (slope * slope - x - u) % self.p
        return third, (slope * (x - third) - y) % self.p

    def multiple(self, number, point):
        total = None
        for bit in f"{number:b}":
            total = self.add(total, total)
            if bit == "1":
                total = self.add(total, point)
        return total
