"""Probable primes, and the primes of a seed, by Python's integers: written here again from what docs/DECISIONS.md and the definitions of jc_rsa say."""
import hashlib
import math

BASES = (2, 3, 5, 7, 11, 13, 17, 19)
MOST_CANDIDATES = 16384


def is_strong(number, base):
    """The test of Miller and Rabin."""
    twos = ((number - 1) & (1 - number)).bit_length() - 1
    power = pow(base, (number - 1) >> twos, number)
    return power == 1 or any(pow(power, 1 << k, number) == number - 1 for k in range(twos))


def is_probable_prime(number, bases):
    return number > 1 and all(number % k for k in range(2, 256)) and all(is_strong(number, base) for base in bases)


def random_bytes(seed, size):
    """SHA-256 of the seed and a number of four bytes, for the numbers 0, 1, 2 .."""
    blocks = (hashlib.sha256(seed + k.to_bytes(4, "big")).digest() for k in range((size + 31) // 32))
    return b"".join(blocks)[:size]


def candidate(seed, size, number):
    drawn = bytearray(random_bytes(seed + number.to_bytes(4, "big"), size))
    drawn[0] |= 0xc0
    drawn[-1] |= 1
    return int.from_bytes(drawn, "big")


def primes_of(seed, exponent, size):
    """The first two candidates of a seed that are taken."""
    start = 0
    for _ in range(2):
        for number in range(start, start + MOST_CANDIDATES):
            drawn = candidate(seed, size, number)
            if is_probable_prime(drawn, BASES) and math.gcd(exponent, drawn - 1) == 1:
                yield drawn
                start = number + 1
                break
