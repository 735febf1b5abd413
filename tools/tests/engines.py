"""What a card answers to the steps of the applets in tools/tests/cases/engines, by Python's own digests and checksums."""
import binascii
import hashlib

from hash_functions import FUNCTIONS

DIGESTS = {1: "sha1", 2: "md5", 4: "sha256", 5: "sha384", 6: "sha512", 7: "sha224"}  # by their numbers
CHECKSUMS = {1: 2, 2: 4}  # the bytes of each
RANDOMS = range(1, 7)
BUFFER, KEPT, PASSING, NULL = range(4)  # places of arrays
SIZE, BUFFER_SIZE, ANSWER_SIZE, SLOTS = 320, 261, 256, 4
DONE, SECURITY, NULL_POINTER, INDEX, CLASS_CAST = 0x9000, 0xEB00, 0xEA00, 0xE600, 0xEC00
CRYPTO, SYSTEM, TRANSACTION = 0xC000, 0xD000, 0xDA00
ILLEGAL_VALUE, NO_SUCH_ALGORITHM = CRYPTO + 1, CRYPTO + 3
LENGTHS = 2 ** 64  # a message's length counts modulo these; one of 0 bytes begins with the initial hash value
# The first byte of each step, and its operands: a byte, an array's place, or two bytes.
FORMS = {
    "begin": (0x00, ""), "commit": (0x01, ""), "abort": (0x02, ""), "capacity": (0x03, ""), "cells": (0x04, ""), "memory": (0x05, ""),
    "attempt": (0x06, ""), "throw": (0x07, "w"), "reason": (0x08, "w"), "thrown": (0x09, "w"),
    "digest": (0x10, "bbb"), "initialized": (0x11, "bbb"), "checksum": (0x12, "bbb"), "random": (0x13, "bb"), "most": (0x14, "bb"),
    "forget": (0x15, "b"), "has_digest": (0x16, "b"), "has_checksum": (0x18, "b"), "has_random": (0x19, "b"),
    "take_cells": (0x1A, "w"), "take_words": (0x1B, "w"),
    "algorithm": (0x20, "b"), "length": (0x21, "b"), "reset": (0x22, "b"), "update": (0x23, "bpww"), "final": (0x24, "bpwwpw"),
    "begin_after": (0x25, "bpwwpww"),
    "checksum_algorithm": (0x30, "b"), "init": (0x31, "bpww"), "add": (0x33, "bpww"), "sum": (0x34, "bpwwpw"),
    "random_algorithm": (0x40, "b"), "generate": (0x41, "bpww"), "next": (0x42, "bpww"), "seed": (0x43, "bpww"),
    "show": (0x50, "pww"), "put": (0x51, "pww"), "fill": (0x52, "pwwb"),
}


def encoded(step, forms=None):
    """The bytes of a step: its name, its operands, and of `put` the bytes after them."""
    name, *operands = step
    code, form = (forms or FORMS)[name]
    content = bytes([code])
    for kind, value in zip(form, operands):
        content += (value & 0xFFFF).to_bytes(2, "big") if kind == "w" else bytes([value & 0xFF])
    return content + b"".join(operands[len(form):])


def put(place, offset, data):
    """The step that puts bytes into an array."""
    return ("put", place, offset, len(data), data)


def crc32(data, before):
    return binascii.crc32(data, before)


def crc16(data, before):
    """CRC-16 of ISO 3309, by its reversed bits: the library's polynomial is the same, its bits come the other way."""
    def reversed_bits(value, count):
        return int(f"{value:0{count}b}"[::-1], 2)

    turned = bytes(reversed_bits(byte, 8) for byte in data)
    register = binascii.crc_hqx(turned, reversed_bits(before, 16) ^ 0xFFFF) ^ 0xFFFF
    return reversed_bits(register, 16)


def block_length(number):
    """The bytes of a block of a digest; the bytes of a hash value that goes from block to block below."""
    return FUNCTIONS[DIGESTS[number]].block


def hash_length(number):
    return len(FUNCTIONS[DIGESTS[number]].initial)


class Thrown(Exception):
    """An exception of the card, by the status word that the applet answers."""

    def __init__(self, status):
        super().__init__(f"{status:04X}")
        self.status = status


class Digest:
    """A digest's engine: the message since it began."""

    def __init__(self, number):
        self.number, self.name = number, DIGESTS[number]
        self.reset()

    def reset(self):
        self.message = b""

    def length(self):
        return hashlib.new(self.name).digest_size

    def take(self, data):
        self.message += data

    def final(self):
        digest = self.whole_digest()
        self.reset()
        return digest

    def whole_digest(self):
        return hashlib.new(self.name, self.message).digest()


class InitializedDigest(Digest):
    """An InitializedMessageDigest: what came before the message is known by its hash value, and by how many bytes it is."""

    def __init__(self, number):
        self.function = FUNCTIONS[DIGESTS[number]]
        super().__init__(number)

    def reset(self):
        super().reset()
        self.before, self.count = self.function.initial, 0

    def begin_after(self, before, count):
        """Sets the hash value of the bytes before, and how many these are: whole blocks, and no more than the length counts."""
        count, block = int.from_bytes(count, "big"), block_length(self.number)
        if len(before) != hash_length(self.number) or count == 0 or count % block or count >= (2 ** 64 if block == 128 else 2 ** 61):
            raise Thrown(ILLEGAL_VALUE)
        self.before, self.count, self.message = before, count, b""

    def whole_length(self):
        return (self.count + len(self.message)) % LENGTHS

    def take(self, data):
        super().take(data)
        if self.whole_length() == 0:
            self.reset()

    def whole_digest(self):
        return self.function.digest(self.before, self.message, self.whole_length())


class Checksum:
    """A checksum's engine."""

    def __init__(self, number):
        self.number, self.size, self.value = number, CHECKSUMS[number], 0

    def reset(self):
        self.value = 0

    def init(self, data):
        if len(data) != self.size:
            raise Thrown(ILLEGAL_VALUE)
        self.value = int.from_bytes(data, "big")

    def add(self, data):
        self.value = (crc16 if self.size == 2 else crc32)(data, self.value)

    def final(self):
        value, self.value = self.value.to_bytes(self.size, "big"), 0
        return value


class Random:
    """A random data's engine: SHA-256 of seed, reference, what setSeed mixed, and a counter."""

    def __init__(self, number, seed, reference):
        self.number, self.seed, self.reference = number, seed, reference
        self.reset()

    def reset(self):
        self.mixed, self.counter = bytes(32), 0

    def generate(self, count):
        if count == 0:
            raise Thrown(ILLEGAL_VALUE)
        given = b""
        while len(given) < count:
            given += hashlib.sha256(self.seed + self.reference.to_bytes(2, "big") + self.mixed + self.counter.to_bytes(4, "big")).digest()
            self.counter = (self.counter + 1) & 0xFFFFFFFF
        return given[:count]

    def mix(self, data):
        self.mixed = hashlib.sha256(self.mixed + data).digest()


class Card:
    """An applet of the steps. `reference` gives the reference of the next engine."""

    forms = FORMS

    def __init__(self, seed=bytes(32), reference=None):
        self.random_seed, self.reference = seed, reference
        self.arrays = {BUFFER: bytearray(BUFFER_SIZE), KEPT: bytearray(SIZE), PASSING: bytearray(SIZE), NULL: None}
        self.slots = {kind: [None] * SLOTS for kind in ("digest", "checksum", "random")}
        self.engines, self.found, self.answer = [], None, b""

    def power_up(self):
        """A reset, or a cut of the power."""
        self.end()
        self.arrays[PASSING][:] = bytes(SIZE)
        for engine in self.engines:
            engine.reset()

    def end(self):
        """Takes back what is not committed."""
        if self.found is not None:
            self.arrays[KEPT][:], self.slots = self.found
            self.found = None

    def command(self, *steps):
        """What the card answers to a command of these steps: the bytes in hexadecimal, and the status word."""
        data = b"".join(encoded(step, self.forms) for step in steps)
        assert len(data) <= 255, len(data)
        self.arrays[BUFFER][:] = (bytes([0, 0, 0, 0, len(data)]) + data).ljust(BUFFER_SIZE, b"\0")
        self.answer, self.steps = b"", list(steps)
        try:
            while self.steps:
                self.step()
        except Thrown as thrown:
            self.answer = b""
            return f"{thrown.status:04X}"
        finally:
            self.end()
        return f"{self.answer.hex().upper()}9000"

    def step(self):
        name, *operands = self.steps.pop(0)
        if name == "attempt":
            status = DONE
            try:
                self.step()
            except Thrown as thrown:
                status = thrown.status
            return self.show(status)
        return getattr(self, name)(*operands)

    def show(self, *operands):
        """Puts a short, or bytes of an array, into the answer, while the applet has place for them."""
        more = (operands[0] & 0xFFFF).to_bytes(2, "big") if len(operands) == 1 else self.stretch(*operands)
        if len(self.answer) + len(more) > ANSWER_SIZE:
            raise Thrown(INDEX)
        self.answer += more

    def stretch(self, place, offset, length):
        """The bytes of an array from an offset on."""
        array = self.arrays[place]
        if array is None:
            raise Thrown(NULL_POINTER)
        if offset < 0 or length < 0 or offset + length > len(array):
            raise Thrown(INDEX)
        return bytes(array[offset:offset + length])

    def write(self, place, offset, data):
        self.arrays[place][offset:offset + len(data)] = data

    def engine(self, kind, slot):
        if not 0 <= slot < SLOTS:
            raise Thrown(INDEX)
        if self.slots[kind][slot] is None:
            raise Thrown(NULL_POINTER)
        return self.slots[kind][slot]

    def keep(self, kind, slot, engine):
        self.engines.append(engine)
        self.slots[kind][slot] = engine

    # Steps.

    def begin(self):
        self.found = bytes(self.arrays[KEPT]), {kind: list(slots) for kind, slots in self.slots.items()}

    def commit(self):
        self.found = None

    def abort(self):
        self.end()

    def throw(self, reason):
        raise Thrown(CRYPTO + reason)

    thrown = throw

    def reason(self, reason):
        self.show(reason)

    def digest(self, slot, algorithm, _):
        if algorithm not in DIGESTS:
            raise Thrown(NO_SUCH_ALGORITHM)
        self.keep("digest", slot, Digest(algorithm))

    def initialized(self, slot, algorithm, _):
        if algorithm not in DIGESTS:
            raise Thrown(NO_SUCH_ALGORITHM)
        self.keep("digest", slot, InitializedDigest(algorithm))

    def checksum(self, slot, algorithm, _):
        if algorithm not in CHECKSUMS:
            raise Thrown(NO_SUCH_ALGORITHM)
        self.keep("checksum", slot, Checksum(algorithm))

    def random(self, slot, algorithm):
        if algorithm not in RANDOMS:
            raise Thrown(NO_SUCH_ALGORITHM)
        self.keep("random", slot, Random(algorithm, self.random_seed, self.reference()))

    def forget(self, slot):
        self.slots["digest"][slot] = None

    def has_digest(self, slot):
        self.show(int(self.slots["digest"][slot] is not None))

    def has_checksum(self, slot):
        self.show(int(self.slots["checksum"][slot] is not None))

    def has_random(self, slot):
        self.show(int(self.slots["random"][slot] is not None))

    def algorithm(self, slot):
        self.show(self.engine("digest", slot).number)

    def length(self, slot):
        self.show(self.engine("digest", slot).length())

    def reset(self, slot):
        self.engine("digest", slot).reset()

    def update(self, slot, *stretch):
        engine = self.engine("digest", slot)
        engine.take(self.stretch(*stretch))

    def final(self, slot, place, offset, length, to_place, to_offset):
        engine = self.engine("digest", slot)
        self.last(engine, engine.take, (place, offset, length), to_place, to_offset, engine.length())

    def begin_after(self, slot, place, offset, length, *count):
        engine = self.engine("digest", slot)
        if not isinstance(engine, InitializedDigest):
            raise Thrown(CLASS_CAST)
        engine.begin_after(self.stretch(place, offset, length), self.stretch(*count))

    def last(self, engine, take, stretch, to_place, to_offset, size):
        """Takes the last bytes, and hands out what they end."""
        data = self.stretch(*stretch)
        self.stretch(to_place, to_offset, size)
        take(data)
        self.write(to_place, to_offset, engine.final())
        self.show(size)

    def checksum_algorithm(self, slot):
        self.show(self.engine("checksum", slot).number)

    def init(self, slot, *stretch):
        engine = self.engine("checksum", slot)
        engine.init(self.stretch(*stretch))

    def add(self, slot, *stretch):
        engine = self.engine("checksum", slot)
        engine.add(self.stretch(*stretch))

    def sum(self, slot, place, offset, length, to_place, to_offset):
        engine = self.engine("checksum", slot)
        self.last(engine, engine.add, (place, offset, length), to_place, to_offset, engine.size)

    def random_algorithm(self, slot):
        self.show(self.engine("random", slot).number)

    def generate(self, slot, place, offset, length):
        engine = self.engine("random", slot)
        self.stretch(place, offset, length)
        self.write(place, offset, engine.generate(length))

    def next(self, slot, place, offset, length):
        self.generate(slot, place, offset, length)
        self.show(offset + length)

    def seed(self, slot, *stretch):
        engine = self.engine("random", slot)
        engine.mix(self.stretch(*stretch))

    def put(self, place, offset, length, data):
        self.stretch(place, offset, length)
        self.write(place, offset, data)

    def fill(self, place, offset, length, value):
        self.stretch(place, offset, length)
        self.write(place, offset, bytes([value & 0xFF]) * length)
