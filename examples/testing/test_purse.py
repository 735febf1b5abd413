#!/usr/bin/python3
"""Tests of the purse: pytest test_purse.py, or python3 test_purse.py.

images.py says with which program and image.
"""
import os
import struct
import sys

sys.dont_write_bytecode = True
sys.path.insert(0, os.path.dirname(os.path.realpath(__file__)))

from images import PROGRAM, image_of, run_all
from jcard import Card

DEBIT = "80400000 02 0078"
BEFORE, AFTER = (500, 1, 500, 500), (380, 2, -120, 380)


def credit(card):
    """Tells the PIN of the purse, and puts 500 into it."""
    select(card)
    assert card.transmit("80200000 04 31323334").sw == 0x9000
    assert card.transmit("80300000 02 01F4").sw == 0x9000


def select(card):
    assert card.transmit("00A40400 07 F0707572736501").sw == 0x9000


def state(card):
    """The balance, the number of changes, and the newest line of the log."""
    return struct.unpack(">4h", card.transmit("80500000").data + card.transmit("80600000").data)


def sweep(*recoveries):
    """Cuts the power after 0 writes of the debit, after 1, and so on, until the debit is not cut. Nothing of a cut one may be left."""
    writes, response = 0, None
    while response is None:
        with Card(PROGRAM, image_of("purse")) as card:
            credit(card)
            response = card.tear(writes, DEBIT, *recoveries)
            select(card)
            assert state(card) == (AFTER if response else BEFORE), f"after {writes} writes"
        writes += 1
    assert response.sw == 0x9000


def test_debit():
    with Card(PROGRAM, image_of("purse")) as card:
        credit(card)
        assert state(card) == BEFORE
        assert card.transmit(DEBIT).sw == 0x9000
        assert state(card) == AFTER


def test_debit_at_each_cut():
    sweep()


def test_debit_at_each_cut_of_its_recovery():
    for writes in range(6):
        sweep(writes)


def test_tries_of_the_pin_count_before_they_are_compared():
    with Card(PROGRAM, image_of("purse")) as card:
        credit(card)
        assert card.tear(1, "80200000 04 31323334") is None
        select(card)
        assert card.transmit("80200000 04 31323335").sw == 0x63C1


if __name__ == "__main__":
    run_all(globals())
