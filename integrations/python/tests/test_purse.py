"""Tests of the purse in examples/purse, by the fixtures of the plugin."""
import struct

import pytest

from jcard import PowerCut

PURSE = "F0707572736501"
DEBIT = "80400000 02 0078"
BEFORE, AFTER = (500, 1, 500, 500), (380, 2, -120, 380)

pytestmark = [pytest.mark.card(words=8192), pytest.mark.applet("../../../examples/purse/Purse.java", select=PURSE)]


def credit(card):
    """Tells the PIN of the purse, and puts 500 into it."""
    assert card.transmit("80200000 04 31323334").sw == 0x9000
    assert card.transmit("80300000 02 01F4").sw == 0x9000


def state(card):
    """The balance, the number of changes, and the newest line of the log."""
    return struct.unpack(">4h", card.transmit("80500000").data + card.transmit("80600000").data)


def test_debit(card):
    credit(card)
    assert state(card) == BEFORE
    assert card.transmit(DEBIT).sw == 0x9000
    assert state(card) == AFTER


def test_begins_without_money_each_time(card):
    assert card.transmit(b"\x80\x50\0\0") == (bytes(4), 0x9000)


def test_tries_of_the_pin_count_before_they_are_compared(card):
    card.cut_after(1)
    with pytest.raises(PowerCut):
        card.transmit("80200000 04 31323334")
    with pytest.raises(PowerCut):
        card.transmit("80500000")
    card.power_up()
    assert card.select(PURSE).sw == 0x9000
    assert card.transmit("80200000 04 31323335").sw == 0x63C1


def test_torn_debit(torn):
    credit(torn)
    response = torn.tear(DEBIT)
    assert torn.select(PURSE).sw == 0x9000
    assert state(torn) == (BEFORE if response is None else AFTER)
