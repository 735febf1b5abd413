#!/usr/bin/python3
"""Tests of the payment card: pytest test_payment.py, or python3 test_payment.py. They take python3-cryptography.

images.py says with which program and image.
"""
import os
import struct
import sys
import unittest

sys.dont_write_bytecode = True
sys.path.insert(0, os.path.dirname(os.path.realpath(__file__)))

from images import PROGRAM, image_of, run_all
from jcard import Card

try:
    from issuer import AAC, APPROVED, ARQC, DECLINED, TC, Transaction
except ImportError as lack:
    raise unittest.SkipTest("python3-cryptography is not installed") from lack

KEY = bytes.fromhex("0123456789ABCDEFFEDCBA9876543210")
PIN = bytes.fromhex("241234FFFFFFFFFF")
STORE_DATA = bytes.fromhex("80E200001A") + KEY + PIN + bytes.fromhex("FFFF")
VERIFY = bytes.fromhex("0020008008") + PIN
# 12.50 EUR in Germany on 2026-11-28, goods, an unpredictable number
DATA = bytes.fromhex("000000001250 000000000000 0276 0000000000 0978 261128 00 1A2B3C4D".replace(" ", ""))


def select(card):
    assert card.transmit("00A40400 09 F07061796D656E7401").sw == 0x9000


def payment():
    """A new card, personalized and selected."""
    card = Card(PROGRAM, image_of("payment"))
    select(card)
    assert card.transmit(STORE_DATA).sw == 0x9000
    return card


def generate(kind):
    return bytes([0x80, 0xAE, kind, 0, len(DATA)]) + DATA


def transact(card, kind):
    """A transaction of the card, whose cryptogram is right."""
    response = card.transmit(generate(kind))
    assert response.sw == 0x9000
    return Transaction(KEY, DATA, response.data)


def state(card):
    """The ATC, how many were approved offline, and the tries of the PIN."""
    return struct.unpack(">HBB", card.transmit("80500000").data)


def test_online():
    with payment() as card:
        transaction = transact(card, ARQC)
        assert (transaction.kind, transaction.atc, transaction.pin_was_right, transaction.offline) == (ARQC, 1, False, 0)
        assert card.transmit(transaction.authentication(APPROVED)).sw == 0x9000
        assert transact(card, AAC).kind == AAC
        assert state(card) == (2, 0, 3)


def test_without_the_pin_all_goes_online():
    with payment() as card:
        assert transact(card, TC).kind == ARQC
        assert card.transmit(VERIFY).sw == 0x9000
        approved = transact(card, TC)
        assert (approved.kind, approved.pin_was_right, approved.offline) == (TC, True, 1)


def offline():
    """A card that has approved as many as it may."""
    card = payment()
    assert card.transmit(VERIFY).sw == 0x9000
    assert [transact(card, TC).kind for _ in range(3)] == [TC, TC, ARQC]
    assert state(card) == (3, 2, 3)
    return card


def test_approval_of_the_issuer_sets_the_count_back():
    with offline() as card:
        assert card.transmit(transact(card, TC).authentication(APPROVED)).sw == 0x9000
        assert state(card) == (4, 0, 3)
        assert transact(card, TC).kind == TC


def test_other_answers_of_the_issuer_do_not():
    with offline() as card:
        assert card.transmit(transact(card, TC).authentication(DECLINED)).sw == 0x9000
        wrong = bytearray(transact(card, TC).authentication(APPROVED))
        wrong[5] ^= 1
        assert card.transmit(bytes(wrong)).sw == 0x6300
        assert state(card) == (5, 2, 3)
        assert transact(card, TC).kind == ARQC


def test_a_cryptogram_of_the_issuer_has_one_try():
    with payment() as card:
        command = transact(card, ARQC).authentication(APPROVED)
        assert card.transmit(command[:-2] + DECLINED).sw == 0x6300
        assert card.transmit(command).sw == 0x6985
        transact(card, ARQC)
        assert card.transmit(command).sw == 0x6300  # it is for another ATC


def test_an_atc_is_never_used_twice():
    """After each cut the next cryptogram has an ATC that no answer and no cut transaction had."""
    writes, response = 0, None
    while response is None:
        with payment() as card:
            transact(card, ARQC)
            response = card.tear(writes, generate(ARQC))
            select(card)
            counted = state(card)[0]
            assert counted == 2 if response else counted in (1, 2), f"after {writes} writes"
            assert transact(card, ARQC).atc == counted + 1
        writes += 1
    assert Transaction(KEY, DATA, response.data).atc == 2


def test_offline_approval_at_each_cut():
    """The ATC and the number of approvals go together."""
    writes, response = 0, None
    while response is None:
        with payment() as card:
            assert card.transmit(VERIFY).sw == 0x9000
            response = card.tear(writes, generate(TC))
            select(card)
            assert state(card) in ([(1, 1, 3)] if response else [(0, 0, 3), (1, 1, 3)]), f"after {writes} writes"
        writes += 1


if __name__ == "__main__":
    run_all(globals())
