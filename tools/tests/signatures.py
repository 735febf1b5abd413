"""What a card answers to the steps of the applets in tools/tests/cases/signatures, by the block ciphers of Debian's python3-cryptography and the digests of
Python's own library."""
import hashlib
import hmac

from cryptography.hazmat.primitives.ciphers import algorithms
from cryptography.hazmat.primitives.cmac import CMAC

from ciphers import DECRYPT, ENCRYPT, ILLEGAL_USE, ILLEGAL_VALUE, INVALID_INIT, KEY_LENGTHS, KEY_TYPES, UNINITIALIZED_KEY, CipherCard, Key, OwnKey
from ciphers import block_function, exclusive_or, padding_after
from engines import NO_SUCH_ALGORITHM, SLOTS, Thrown

SIGN, VERIFY = 1, 2
BLOCK = {"des": 8, "aes": 16}
# By their numbers: the kind of the keys, how the code comes of the blocks, the padding, and how many bytes the signature has; and the three numbers.
CODES = {
    1: ("des", "cbc", "none", 4, (0, 1, 1)), 2: ("des", "cbc", "none", 8, (0, 2, 1)), 3: ("des", "cbc", "m1", 4, (0, 1, 2)), 4: ("des", "cbc", "m1", 8, (0, 2, 2)),
    5: ("des", "cbc", "m2", 4, (0, 1, 3)), 6: ("des", "cbc", "m2", 8, (0, 2, 3)), 7: ("des", "cbc", "pkcs5", 4, (0, 1, 6)), 8: ("des", "cbc", "pkcs5", 8, (0, 2, 6)),
    18: ("aes", "cbc", "none", 16, (0, 6, 1)), 19: ("des", "algorithm 3", "m2", 4, (0, 1, 5)), 20: ("des", "algorithm 3", "m2", 8, (0, 2, 5)),
    49: ("aes", "cmac", "none", 16, (0, 10, 3)),
}
HASHES = {24: ("sha1", (1, 7, 0)), 25: ("sha256", (4, 7, 0)), 26: ("sha384", (5, 7, 0)), 27: ("sha512", (6, 7, 0)), 28: ("md5", (2, 7, 0))}
NUMBERS = {**{number: parts[4] for number, parts in CODES.items()}, **{number: parts[1] for number, parts in HASHES.items()}}


def kind_of(number):
    return CODES[number][0] if number in CODES else "hmac"


def doubled(block):
    """A block shifted left by a bit, and reduced where a one came out (SP 800-38B, 6.1)."""
    number = int.from_bytes(block, "big") << 1
    return ((number ^ 0x87 if number >> 128 else number) & (1 << 128) - 1).to_bytes(16, "big")


class BlockCode:
    """A code by a block cipher: the chaining block, the open block, and what came under which keys."""

    def __init__(self, number):
        self.kind, self.way, self.padding, self.size, _ = CODES[number]
        self.block = BLOCK[self.kind]
        self.begin()

    def begin(self):
        self.chain, self.open, self.message, self.keys = None, b"", b"", set()

    def takes(self, key):
        """Algorithm 3 takes keys of two parts or three."""
        return self.way != "algorithm 3" or key.length >= 128

    def takes_vector(self, length):
        return self.way != "cmac" and length == self.block

    def encrypted(self, key, block):
        return block_function(self.kind, key[:8] if self.way == "algorithm 3" else key, ENCRYPT, block)

    def chained(self, key, chain, blocks):
        for at in range(0, len(blocks), self.block):
            chain = self.encrypted(key, exclusive_or(blocks[at:at + self.block], chain))
        return chain

    def after(self, key, vector, data):
        """The chaining block and the open block as these bytes follow."""
        given = self.open + data
        whole = (len(given) - 1) // self.block * self.block if given else 0
        return self.chained(key, vector if self.chain is None else self.chain, given[:whole]), given[whole:]

    def take(self, key, vector, data):
        if self.open + data:
            self.chain, self.open = self.after(key, vector, data)
            self.message += data
            self.keys.add(key)

    def code(self, key, vector, data):
        """The code of the message that ends by these bytes; ILLEGAL_USE where it cannot end so."""
        chain, rest = self.after(key, vector, data)
        if self.way == "cmac":
            sub = doubled(block_function(self.kind, key, ENCRYPT, bytes(16)))
            last = exclusive_or(rest, sub) if len(rest) == 16 else exclusive_or((rest + b"\x80").ljust(16, b"\0"), doubled(sub))
            code = self.encrypted(key, exclusive_or(chain, last))
            if self.keys <= {key}:  # the library's own, where all of it is under one key
                whole = CMAC(algorithms.AES(key))
                whole.update(self.message + data)
                assert whole.finalize() == code
            return code
        padded = rest + padding_after(self.padding, self.block, len(rest))
        if not padded or len(padded) % self.block:
            raise Thrown(ILLEGAL_USE)
        code = self.chained(key, chain, padded)
        if self.way == "algorithm 3":
            third = key[16:] or key[:8]
            code = block_function("des", third, ENCRYPT, block_function("des", key[8:16], DECRYPT, code))
        return code[:self.size]


class HashCode:
    """HMAC: the inner digest, which has taken in the key of the first piece."""

    def __init__(self, number):
        self.name = HASHES[number][0]
        self.kind, self.size = "hmac", hashlib.new(self.name).digest_size
        self.begin()

    def begin(self):
        self.inner, self.message, self.keys = None, b"", set()

    def takes(self, _):
        return True

    def takes_vector(self, _):
        return False

    def keyed(self, key, mark):
        hash_function = hashlib.new(self.name)
        key = hashlib.new(self.name, key).digest() if len(key) > hash_function.block_size else key
        hash_function.update(bytes(byte ^ mark for byte in key.ljust(hash_function.block_size, b"\0")))
        return hash_function

    def after(self, key, data):
        inner = self.keyed(key, 0x36) if self.inner is None else self.inner.copy()
        inner.update(data)
        return inner

    def take(self, key, _, data):
        self.inner = self.after(key, data)
        self.message += data
        self.keys.add(key)

    def code(self, key, _, data):
        outer = self.keyed(key, 0x5C)
        outer.update(self.after(key, data).digest())
        if self.keys <= {key}:
            assert outer.digest() == hmac.new(key, self.message + data, self.name).digest()
        return outer.digest()


class SignatureEngine:
    """A signature: its code, key, mode and vector."""

    def __init__(self, number):
        self.number = number
        self.of = BlockCode(number) if number in CODES else HashCode(number)
        self.key, self.way, self.vector = None, 0, bytes(16)

    def reset(self):
        self.of.begin()

    def init(self, key, way, vector):
        if key is None or isinstance(key, OwnKey) or key.kind != self.of.kind or not self.of.takes(key):
            raise Thrown(ILLEGAL_VALUE)
        if way not in (SIGN, VERIFY):
            raise Thrown(ILLEGAL_VALUE)
        first = vector()
        if first is not None and not self.of.takes_vector(len(first)):
            raise Thrown(ILLEGAL_VALUE)
        if key.value is None:
            raise Thrown(UNINITIALIZED_KEY)
        self.key, self.way, self.vector = key, way, first or bytes(16)
        self.reset()

    def running(self, *ways):
        """The bytes of the key and the vector of an engine that is initialized one of these ways."""
        if self.way not in ways:
            raise Thrown(INVALID_INIT)
        if self.key.value is None:
            raise Thrown(UNINITIALIZED_KEY)
        return self.key.value, self.vector


class SignatureCard(CipherCard):
    """An applet of the steps of signatures."""

    # The first byte of each step, and its operands: a byte, an array's place, or two bytes.
    forms = {
        "begin": (0x00, ""), "commit": (0x01, ""), "abort": (0x02, ""), "attempt": (0x06, ""),
        "build": (0x10, "bbw"), "set_des": (0x11, "bpw"), "set_aes": (0x12, "bpw"), "set_hmac": (0x13, "bpww"), "clear": (0x14, "b"), "own": (0x15, "b"),
        "make": (0x20, "bb"), "make_by_three": (0x21, "bbbb"), "init": (0x22, "bbb"), "init_with": (0x23, "bbbpww"),
        "algorithm": (0x30, "b"), "length": (0x31, "b"), "digest_algorithm": (0x32, "b"), "cipher_algorithm": (0x33, "b"), "padding_algorithm": (0x34, "b"),
        "update": (0x40, "bpww"), "sign": (0x41, "bpwwpw"), "verify": (0x42, "bpwwpww"),
        "show": (0x60, "pww"), "put": (0x61, "pww"), "fill": (0x62, "pwwb"),
    }

    def __init__(self):
        super().__init__()
        self.slots = {"key": [None] * SLOTS, "signature": [None] * SLOTS}

    def signature(self, slot):
        return self.engine("signature", slot)

    # Steps.

    def build(self, slot, number, length):
        if number not in KEY_TYPES or length not in KEY_LENGTHS[KEY_TYPES[number][0]]:
            raise Thrown(NO_SUCH_ALGORITHM)
        key = Key(KEY_TYPES[number][0], number, length)
        self.keys.append(key)
        self.slots["key"][slot] = key

    def set_hmac(self, slot, place, offset, length):
        self.engine("key", slot).set(self.stretch(place, offset, length))

    def make(self, slot, number):
        if number not in NUMBERS:
            raise Thrown(NO_SUCH_ALGORITHM)
        self.keep("signature", slot, SignatureEngine(number))

    def make_by_three(self, slot, *numbers):
        self.make(slot, {three: number for number, three in NUMBERS.items()}.get(numbers))

    def init(self, slot, key_slot, way):
        self.signature(slot).init(self.slots["key"][key_slot], way, lambda: None)

    def init_with(self, slot, key_slot, way, *stretch):
        self.signature(slot).init(self.slots["key"][key_slot], way, lambda: self.stretch(*stretch))

    def algorithm(self, slot):
        self.show(self.signature(slot).number)

    def length(self, slot):
        self.signature(slot).running(SIGN, VERIFY)
        self.show(self.signature(slot).of.size)

    def digest_algorithm(self, slot):
        self.show(NUMBERS[self.signature(slot).number][0])

    def cipher_algorithm(self, slot):
        self.show(NUMBERS[self.signature(slot).number][1])

    def padding_algorithm(self, slot):
        self.show(NUMBERS[self.signature(slot).number][2])

    def update(self, slot, *stretch):
        engine = self.signature(slot)
        key, vector = engine.running(SIGN, VERIFY)
        engine.of.take(key, self.of_block(engine, vector), self.stretch(*stretch))

    def sign(self, slot, place, offset, length, to_place, to_offset):
        engine = self.signature(slot)
        key, vector = engine.running(SIGN)
        data = self.stretch(place, offset, length)
        self.stretch(to_place, to_offset, engine.of.size)
        code = engine.of.code(key, self.of_block(engine, vector), data)
        self.write(to_place, to_offset, code)
        engine.reset()
        self.show(len(code))

    def verify(self, slot, place, offset, length, *given):
        engine = self.signature(slot)
        key, vector = engine.running(VERIFY)
        data = self.stretch(place, offset, length)
        given = self.stretch(*given)
        code = engine.of.code(key, self.of_block(engine, vector), data)
        engine.reset()
        self.show(int(given == code))

    @staticmethod
    def of_block(engine, vector):
        """The vector before the first block."""
        return vector[:engine.of.block] if engine.number in CODES else vector
