"""What a card answers to the steps of the applets in tools/tests/cases/ciphers, by the block ciphers of Debian's python3-cryptography."""
from cryptography.hazmat.primitives.ciphers import Cipher as LibraryCipher, algorithms, modes

from engines import BUFFER, BUFFER_SIZE, CRYPTO, KEPT, NO_SUCH_ALGORITHM, NULL, NULL_POINTER, PASSING, SIZE, SLOTS, Card, Thrown

ILLEGAL_VALUE, UNINITIALIZED_KEY, INVALID_INIT, ILLEGAL_USE = CRYPTO + 1, CRYPTO + 2, CRYPTO + 4, CRYPTO + 5
DECRYPT, ENCRYPT = 1, 2
PADDINGS = {"none": 1, "m1": 2, "m2": 3, "pkcs5": 6}  # by their numbers; the same of the other tables
MODES = {("aes", "cbc"): 1, ("aes", "ecb"): 2, ("des", "cbc"): 3, ("des", "ecb"): 4}
ALGORITHMS = {
    ("des", "cbc", "none"): 1, ("des", "cbc", "m1"): 2, ("des", "cbc", "m2"): 3, ("des", "cbc", "pkcs5"): 4,
    ("des", "ecb", "none"): 5, ("des", "ecb", "m1"): 6, ("des", "ecb", "m2"): 7, ("des", "ecb", "pkcs5"): 8,
    ("aes", "cbc", "none"): 13, ("aes", "ecb", "none"): 14,
    ("aes", "cbc", "m1"): 22, ("aes", "cbc", "m2"): 23, ("aes", "cbc", "pkcs5"): 24,
    ("aes", "ecb", "m1"): 25, ("aes", "ecb", "m2"): 26, ("aes", "ecb", "pkcs5"): 27,
}
NAMED = {number: parts for parts, number in ALGORITHMS.items()}
KEY_TYPES = {1: ("des", "reset"), 2: ("des", "deselect"), 3: ("des", None), 13: ("aes", "reset"), 14: ("aes", "deselect"), 15: ("aes", None),
             19: ("hmac", "reset"), 20: ("hmac", "deselect"), 21: ("hmac", None)}
KEY_LENGTHS = {"des": (64, 128, 192), "aes": (128, 192, 256), "hmac": (64, 128, *range(136, 1025, 8))}
BLOCKS = {"aes": 16, "des": 8}


def block_function(kind, key, way, block):
    """A block enciphered or deciphered. A key of DES of 8 bytes is three times the same, of 16 the first one is the third too."""
    algorithm = algorithms.AES(key) if kind == "aes" else algorithms.TripleDES((key * 3)[:24])
    context = LibraryCipher(algorithm, modes.ECB())
    work = context.encryptor() if way == ENCRYPT else context.decryptor()
    return work.update(block) + work.finalize()


def exclusive_or(one, other):
    return bytes(a ^ b for a, b in zip(one, other))


def padding_after(padding, size, count):
    """The padding of a message of so many bytes."""
    if padding == "m1":
        return bytes(-count % size if count else size)
    if padding == "m2":
        return b"\x80" + bytes(-(count + 1) % size)
    if padding == "pkcs5":
        return bytes([size - count % size]) * (size - count % size)
    return b""


def without_padding(padding, block):
    """A last block without its padding, the longest that fits; nothing where it ends by none."""
    if padding == "m1":
        return block.rstrip(b"\0")
    if padding == "m2":
        message, mark, zeros = block.rpartition(b"\x80")
        return message if mark and not zeros.strip(b"\0") else None
    count = block[-1]
    return block[:-count] if 1 <= count <= len(block) and block.endswith(bytes([count]) * count) else None


class Key:
    """A key object: of a type and a length in bits, of which HMAC keys have none here."""

    def __init__(self, kind, number, length):
        self.number, self.event, self.length = number, KEY_TYPES[number][1], length
        self.kind, self.value = kind, None

    def set(self, data):
        self.value = data


class OwnKey:
    """A key that the platform has not made."""


class CipherEngine:
    """A cipher: the blocks that are not handed out yet, the chaining block, and how many bytes came."""

    def __init__(self, number):
        self.number, (self.kind, self.mode, self.padding) = number, NAMED[number]
        self.size = BLOCKS[self.kind]
        self.key, self.way, self.vector = None, 0, bytes(self.size)
        self.reset()

    def reset(self):
        self.chain, self.open, self.count = None, b"", 0

    def requires(self, key):
        """The bytes of the key; an exception where it is not set."""
        if key.value is None:
            raise Thrown(UNINITIALIZED_KEY)
        return key.value

    def init(self, key, way, vector):
        if key is None or isinstance(key, OwnKey) or key.kind != self.kind:
            raise Thrown(ILLEGAL_VALUE)
        if way not in (DECRYPT, ENCRYPT):
            raise Thrown(ILLEGAL_VALUE)
        first = vector()
        if first is not None and (self.mode == "ecb" or len(first) != self.size):
            raise Thrown(ILLEGAL_VALUE)
        self.requires(key)
        self.key, self.way, self.vector = key, way, first or bytes(self.size)
        self.reset()

    def running(self):
        if not self.way:
            raise Thrown(INVALID_INIT)
        return self.requires(self.key)

    def convert(self, key, chain, data):
        """What whole blocks become, and the next chaining block."""
        output = b""
        for at in range(0, len(data), self.size):
            block = data[at:at + self.size]
            chained = self.mode == "cbc"
            if self.way == ENCRYPT:
                made = block_function(self.kind, key, ENCRYPT, exclusive_or(block, chain) if chained else block)
                chain = made if chained else chain
            else:
                made = block_function(self.kind, key, DECRYPT, block)
                made, chain = (exclusive_or(made, chain), block) if chained else (made, chain)
            output += made
        return output, chain

    def next(self, data):
        """What is handed out as these bytes follow, and what the engine is from then on."""
        key = self.running()
        chain, given = self.vector if self.chain is None else self.chain, self.open + data
        holds = self.way == DECRYPT and self.padding != "none" and given and len(given) % self.size == 0
        whole = len(given) // self.size * self.size - (self.size if holds else 0)
        output, after = self.convert(key, chain, given[:whole])
        return output, (after if given or self.chain is not None else None, given[whole:], self.count + len(data))

    def last(self, data):
        """What is handed out as these bytes end the message; ILLEGAL_USE where it cannot end so."""
        key = self.running()
        chain, given, count = self.vector if self.chain is None else self.chain, self.open + data, self.count + len(data)
        if self.way == ENCRYPT:
            given += padding_after(self.padding, self.size, count)
        if len(given) % self.size:
            raise Thrown(ILLEGAL_USE)
        output, _ = self.convert(key, chain, given)
        if self.way == DECRYPT and self.padding != "none":
            block = without_padding(self.padding, output[-self.size:]) if output else None
            if block is None:
                raise Thrown(ILLEGAL_USE)
            output = output[:-self.size] + block
        return output


class CipherCard(Card):
    """An applet of the steps of ciphers."""

    # The first byte of each step, and its operands: a byte, an array's place, or two bytes.
    forms = {
        "begin": (0x00, ""), "commit": (0x01, ""), "abort": (0x02, ""), "attempt": (0x06, ""),
        "build": (0x10, "bbw"), "set_des": (0x11, "bpw"), "set_aes": (0x12, "bpw"), "clear": (0x13, "b"), "forget_key": (0x14, "b"), "own": (0x15, "b"),
        "make": (0x20, "bbb"), "make_by_two": (0x21, "bbbb"), "forget": (0x22, "b"),
        "algorithm": (0x30, "b"), "cipher_algorithm": (0x31, "b"), "padding_algorithm": (0x32, "b"),
        "init": (0x33, "bbb"), "init_with": (0x34, "bbbpww"), "update": (0x35, "bpwwpw"), "final": (0x36, "bpwwpw"),
        "show": (0x60, "pww"), "put": (0x61, "pww"), "fill": (0x62, "pwwb"),
    }

    def __init__(self):
        super().__init__()
        self.arrays = {BUFFER: bytearray(BUFFER_SIZE), KEPT: bytearray(SIZE), PASSING: bytearray(SIZE), NULL: None}
        self.slots = {"key": [None] * SLOTS, "cipher": [None] * SLOTS}
        self.keys = []

    def power_up(self):
        super().power_up()
        self.clear_keys("reset", "deselect")

    def deselect(self):
        self.clear_keys("deselect")

    def clear_keys(self, *events):
        for key in self.keys:
            if key.event in events:
                key.value = None

    # What a transaction takes back: what is kept.

    def begin(self):
        super().begin()
        self.fields = ([(key, key.value) for key in self.keys if key.event is None],
                       [(engine, (engine.key, engine.way, engine.vector)) for engine in self.engines])

    def end(self):
        if self.found is not None:
            values, engines = self.fields
            for key, value in values:
                key.value = value
            for engine, fields in engines:
                engine.key, engine.way, engine.vector = fields
        super().end()

    # Steps.

    def build(self, slot, number, length):
        if number not in KEY_TYPES or length not in KEY_LENGTHS[KEY_TYPES[number][0]]:
            raise Thrown(NO_SUCH_ALGORITHM)
        key = Key(KEY_TYPES[number][0], number, length)
        self.keys.append(key)
        self.slots["key"][slot] = key

    def set_des(self, slot, place, offset):
        key = self.engine("key", slot)
        key.set(self.stretch(place, offset, key.length // 8))

    set_aes = set_des

    def clear(self, slot):
        self.engine("key", slot).value = None

    def forget_key(self, slot):
        self.slots["key"][slot] = None

    def own(self, slot):
        self.slots["key"][slot] = OwnKey()

    def make(self, slot, number, _):
        if number not in NAMED:
            raise Thrown(NO_SUCH_ALGORITHM)
        self.keep("cipher", slot, CipherEngine(number))

    def make_by_two(self, slot, cipher, padding, _):
        parts = [(kind, mode, name) for kind, mode, name in ALGORITHMS if (MODES[kind, mode], PADDINGS[name]) == (cipher, padding)]
        self.make(slot, ALGORITHMS[parts[0]] if parts else None, _)

    def forget(self, slot):
        self.slots["cipher"][slot] = None

    def algorithm(self, slot):
        self.show(self.engine("cipher", slot).number)

    def cipher_algorithm(self, slot):
        engine = self.engine("cipher", slot)
        self.show(MODES[engine.kind, engine.mode])

    def padding_algorithm(self, slot):
        self.show(PADDINGS[self.engine("cipher", slot).padding])

    def init(self, slot, key_slot, way):
        self.engine("cipher", slot).init(self.slots["key"][key_slot], way, lambda: None)

    def init_with(self, slot, key_slot, way, *stretch):
        self.engine("cipher", slot).init(self.slots["key"][key_slot], way, lambda: self.stretch(*stretch))

    def update(self, slot, place, offset, length, to_place, to_offset):
        engine = self.engine("cipher", slot)
        engine.running()
        output, state = engine.next(self.stretch(place, offset, length))
        self.hand_out(output, to_place, to_offset)
        engine.chain, engine.open, engine.count = state

    def final(self, slot, place, offset, length, to_place, to_offset):
        engine = self.engine("cipher", slot)
        engine.running()
        output = engine.last(self.stretch(place, offset, length))
        self.hand_out(output, to_place, to_offset)
        engine.reset()

    def hand_out(self, output, place, offset):
        self.stretch(place, offset, len(output))
        self.write(place, offset, output)
        self.show(len(output))
