"""MD5, SHA-1 and SHA-2 from any hash value on, by RFC 1321 and FIPS 180-4: Python's own library begins at the initial one alone."""
import math

MASK_32, MASK_64 = 2 ** 32 - 1, 2 ** 64 - 1


def primes(count):
    found = []
    number = 2
    while len(found) < count:
        if all(number % prime for prime in found):
            found.append(number)
        number += 1
    return found


def root(value, power):
    """The greatest number whose power is at most the value."""
    low, high = 0, 1 << (value.bit_length() // power + 1)
    while high - low > 1:
        middle = (low + high) // 2
        low, high = (middle, high) if middle ** power <= value else (low, middle)
    return low


def root_bits(prime, power, bits):
    """The first bits after the point of the prime's root."""
    return root(prime << (power * bits), power) % 2 ** bits


PRIMES = primes(80)
SINES = [int(abs(math.sin(at + 1)) * 2 ** 32) for at in range(64)]
CUBES_32 = [root_bits(prime, 3, 32) for prime in PRIMES[:64]]
CUBES_64 = [root_bits(prime, 3, 64) for prime in PRIMES]
ROOTS_32 = [root_bits(prime, 2, 32) for prime in PRIMES[:8]]
ROOTS_64 = [root_bits(prime, 2, 64) for prime in PRIMES[:16]]
FIRST = [0x67452301, 0xEFCDAB89, 0x98BADCFE, 0x10325476]
TURNS = [(7, 12, 17, 22), (5, 9, 14, 20), (4, 11, 16, 23), (6, 10, 15, 21)]


def left(word, count):
    return (word << count | word >> (32 - count)) & MASK_32


def right(word, count, size):
    return (word >> count | word << (size - count)) & (2 ** size - 1)


def sums(hash_value, after, mask):
    return [(one + other) & mask for one, other in zip(hash_value, after)]


def md5(hash_value, words):
    """The hash value after a block, by its words; the same below."""
    a, b, c, d = hash_value
    for at in range(64):
        mixed, place = ((b & c | ~b & d, at), (d & b | ~d & c, 5 * at + 1), (b ^ c ^ d, 3 * at + 5), (c ^ (b | ~d), 7 * at))[at // 16]
        turned = left((a + mixed + SINES[at] + words[place % 16]) & MASK_32, TURNS[at // 16][at % 4])
        a, b, c, d = d, (b + turned) & MASK_32, b, c
    return sums(hash_value, (a, b, c, d), MASK_32)


def sha1(hash_value, words):
    words = list(words)
    for at in range(16, 80):
        words.append(left(words[at - 3] ^ words[at - 8] ^ words[at - 14] ^ words[at - 16], 1))
    a, b, c, d, e = hash_value
    for at in range(80):
        mixed, constant = ((b & c | ~b & d, 0x5A827999), (b ^ c ^ d, 0x6ED9EBA1), (b & c | b & d | c & d, 0x8F1BBCDC), (b ^ c ^ d, 0xCA62C1D6))[at // 20]
        a, b, c, d, e = (left(a, 5) + mixed + e + constant + words[at]) & MASK_32, a, left(b, 30), c, d
    return sums(hash_value, (a, b, c, d, e), MASK_32)


def sha2(size, constants, large, small):
    """A compression of SHA-2: the size of a word in bits, the constants of the rounds, the turns, and of the message's words the turns and shifts."""
    mask = 2 ** size - 1

    def turned(word, *counts):
        mixed = 0
        for count in counts:
            mixed ^= right(word, count, size)
        return mixed

    def compressed(hash_value, words):
        words = list(words)
        for at in range(16, len(constants)):
            (*turns_0, shift_0), (*turns_1, shift_1) = small
            early, late = words[at - 15], words[at - 2]
            words.append((words[at - 16] + (turned(early, *turns_0) ^ early >> shift_0)
                          + words[at - 7] + (turned(late, *turns_1) ^ late >> shift_1)) & mask)
        a, b, c, d, e, f, g, h = hash_value
        for constant, word in zip(constants, words):
            one = h + turned(e, *large[1]) + (e & f ^ ~e & g) + constant + word
            other = turned(a, *large[0]) + (a & b ^ a & c ^ b & c)
            a, b, c, d, e, f, g, h = (one + other) & mask, a, b, c, (d + one) & mask, e, f, g
        return sums(hash_value, (a, b, c, d, e, f, g, h), mask)

    return compressed


SHA_256 = sha2(32, CUBES_32, ((2, 13, 22), (6, 11, 25)), ((7, 18, 3), (17, 19, 10)))
SHA_512 = sha2(64, CUBES_64, ((28, 34, 39), (14, 18, 41)), ((1, 8, 7), (19, 61, 6)))


class HashFunction:
    """A hash function: its compression, the bytes of a word and their order, the initial hash value, and the bytes of a digest."""

    def __init__(self, compressed, width, order, initial, size):
        self.compressed, self.width, self.order, self.size = compressed, width, order, size
        self.block = 16 * width
        self.initial = self.bytes(initial)

    def words(self, data):
        return [int.from_bytes(data[at:at + self.width], self.order) for at in range(0, len(data), self.width)]

    def bytes(self, words):
        return b"".join(word.to_bytes(self.width, self.order) for word in words)

    def hash_value(self, before, blocks):
        """The bytes of the hash value after whole blocks, which follow the one before."""
        value = self.words(before)
        for at in range(0, len(blocks), self.block):
            value = self.compressed(value, self.words(blocks[at:at + self.block]))
        return self.bytes(value)

    def digest(self, before, rest, length):
        """The digest of a message of `length` bytes. Its last ones are `rest`, and those before them, which are whole blocks, have the hash value `before`."""
        field = 2 * self.width
        bits = length * 8 % 256 ** field
        end = b"\x80" + bytes(-(len(rest) + 1 + field) % self.block) + bits.to_bytes(field, self.order)
        return self.hash_value(before, rest + end)[:self.size]


FUNCTIONS = {
    "md5": HashFunction(md5, 4, "little", FIRST, 16),
    "sha1": HashFunction(sha1, 4, "big", FIRST + [0xC3D2E1F0], 20),
    "sha224": HashFunction(SHA_256, 4, "big", [word & MASK_32 for word in ROOTS_64[8:]], 28),
    "sha256": HashFunction(SHA_256, 4, "big", ROOTS_32, 32),
    "sha384": HashFunction(SHA_512, 8, "big", ROOTS_64[8:], 48),
    "sha512": HashFunction(SHA_512, 8, "big", ROOTS_64[:8], 64),
}
