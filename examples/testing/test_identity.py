#!/usr/bin/python3
"""Tests of the identity card: pytest test_identity.py, or python3 test_identity.py. They take python3-cryptography, which is the issuer and the terminal.

images.py says with which program and image.
"""
import os
import sys
import unittest

sys.dont_write_bytecode = True
sys.path.insert(0, os.path.dirname(os.path.realpath(__file__)))

from images import PROGRAM, image_of, run_all
from jcard import Card

try:
    from cryptography.exceptions import InvalidSignature
    from cryptography.hazmat.primitives import hashes
    from cryptography.hazmat.primitives.asymmetric import ec
    from cryptography.hazmat.primitives.serialization import Encoding, PublicFormat
except ImportError as lack:
    raise unittest.SkipTest("python3-cryptography is not installed") from lack

NAME = b"jcard-identity"
CHALLENGE = bytes(range(32))
SELECT = "00A40400 0A F06964656E7469747901"
VERIFY = "00200000 04 30303030"
PUBLIC_KEY = "00CA0000"


def identity():
    """A new card, selected."""
    card = Card(PROGRAM, image_of("identity"))
    assert card.transmit(SELECT).sw == 0x9000
    return card


def verify(card):
    assert card.transmit(VERIFY).sw == 0x9000


class Pair:
    """A key pair that the issuer makes."""

    def __init__(self):
        self.private = ec.generate_private_key(ec.SECP256R1())
        self.point = self.private.public_key().public_bytes(Encoding.X962, PublicFormat.UncompressedPoint)
        number = self.private.private_numbers().private_value
        self.command = bytes([0x80, 0xD8, 0, 0, 97]) + number.to_bytes(32, "big") + self.point

    def put(self, card):
        verify(card)
        assert card.transmit(self.command).sw == 0x9000


def authenticate(challenge=CHALLENGE):
    return bytes([0x00, 0x88, 0, 0, len(challenge)]) + challenge


def signature_of(card, challenge=CHALLENGE):
    verify(card)
    response = card.transmit(authenticate(challenge))
    assert response.sw == 0x9000
    return response.data


def is_signature(point, signature, challenge=CHALLENGE):
    """Whether it is one of this card, as the terminal computes it."""
    key = ec.EllipticCurvePublicKey.from_encoded_point(ec.SECP256R1(), point)
    try:
        key.verify(signature, NAME + challenge, ec.ECDSA(hashes.SHA256()))
        return True
    except InvalidSignature:
        return False


def test_a_challenge_is_signed():
    with identity() as card:
        pair = Pair()
        pair.put(card)
        assert card.transmit(PUBLIC_KEY).data == pair.point
        for challenge in CHALLENGE, bytes(8), bytes(64):
            assert is_signature(pair.point, signature_of(card, challenge), challenge)
        assert not is_signature(pair.point, signature_of(card), bytes(32))


def test_a_right_pin_serves_for_one_signature():
    with identity() as card:
        Pair().put(card)
        signature_of(card)
        assert card.transmit(authenticate()).sw == 0x6982


def test_there_is_no_key_before_one_is_put():
    with identity() as card:
        assert card.transmit(PUBLIC_KEY).sw == 0x6985
        verify(card)
        assert card.transmit(authenticate()).sw == 0x6985


def test_a_pair_is_whole_at_each_cut():
    """After each cut of PUT KEY PAIR the public key is that of the card's signatures, before or after."""
    old, new = Pair(), Pair()
    writes, response = 0, None
    while response is None:
        with identity() as card:
            old.put(card)
            verify(card)
            response = card.tear(writes, new.command)
            assert card.transmit(SELECT).sw == 0x9000
            point = card.transmit(PUBLIC_KEY).data
            assert point in (old.point, new.point)
            assert is_signature(point, signature_of(card)), f"after {writes} writes"
            assert point == old.point if writes == 0 else not response or point == new.point
        writes += 1


if __name__ == "__main__":
    run_all(globals())
