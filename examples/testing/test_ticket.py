#!/usr/bin/python3
"""Tests of the ticket: pytest test_ticket.py, or python3 test_ticket.py. They take python3-cryptography.

images.py says with which program and image.
"""
import os
import struct
import sys
import unittest

sys.dont_write_bytecode = True
sys.path.insert(0, os.path.dirname(os.path.realpath(__file__)))

from images import PROGRAM, image_of, run_all
from jcard import Card

try:
    from gate import ADD, RIDE, Session
except ImportError as lack:
    raise unittest.SkipTest("python3-cryptography is not installed") from lack

KEY = bytes(range(16))
OF_TERMINAL = bytes(range(0xA0, 0xA8))
PUT_KEY = bytes.fromhex("80D8000012") + KEY + bytes.fromhex("03E8")  # for 1000 changes
CHALLENGE = "0084000008"
STATION = 7
BEFORE, AFTER = (10, 0, 1), (9, STATION, 2)


def ticket():
    return Card(PROGRAM, image_of("ticket"))


def select(card):
    assert card.transmit("00A40400 08 F07469636B657401").sw == 0x9000


def state(card):
    """The trips, the last station and the number of changes."""
    return struct.unpack(">3h", card.transmit("80300000").data)


def authenticate(card):
    """Begins a session of the selected card, which proves itself too."""
    session = Session(KEY, card.transmit(CHALLENGE).data, OF_TERMINAL)
    assert card.transmit(session.authentication) == (session.proof_of_card, 0x9000)
    return session


def begin(card):
    """A session of a new ticket with ten trips."""
    select(card)
    assert card.transmit(PUT_KEY).sw == 0x9000
    session = authenticate(card)
    response = card.transmit(session.command(ADD, 10, 0))
    assert session.state(response.data) == BEFORE
    return session


def altered(command):
    """The command with another last bit."""
    return command[:-1] + bytes([command[-1] ^ 1])


def test_ride():
    with ticket() as card:
        session = begin(card)
        response = card.transmit(session.command(RIDE, STATION, 1))
        assert response.sw == 0x9000
        assert session.state(response.data) == AFTER == state(card)


def test_a_terminal_without_the_key():
    with ticket() as card:
        begin(card)
        session = Session(bytes(16), card.transmit(CHALLENGE).data, OF_TERMINAL)
        assert card.transmit(session.authentication) == (b"", 0x6300)
        assert card.transmit(session.command(RIDE, STATION, 1)).sw == 0x6982
        assert state(card) == BEFORE


def test_a_challenge_serves_once():
    with ticket() as card:
        begin(card)
        session = Session(KEY, card.transmit(CHALLENGE).data, OF_TERMINAL)
        assert card.transmit(altered(session.authentication)).sw == 0x6300
        assert card.transmit(session.authentication).sw == 0x6985


def test_a_wrong_mac_ends_the_session():
    with ticket() as card:
        command = begin(card).command(RIDE, STATION, 1)
        assert card.transmit(altered(command)) == (b"", 0x6982)
        assert card.transmit(command).sw == 0x6982
        assert state(card) == BEFORE


def test_a_ride_to_another_station_has_another_mac():
    with ticket() as card:
        command = bytearray(begin(card).command(RIDE, STATION, 1))
        command[6] += 1
        assert card.transmit(bytes(command)).sw == 0x6982
        assert state(card) == BEFORE


def test_a_command_serves_once():
    with ticket() as card:
        command = begin(card).command(RIDE, STATION, 1)
        assert card.transmit(command).sw == 0x9000
        assert card.transmit(command).sw == 0x6982
        assert state(card) == AFTER


def test_all_of_a_session_again_after_a_reset():
    """The card's challenge comes again, and so does the session's key; the number of changes does not."""
    with ticket() as card:
        session = begin(card)
        command = session.command(RIDE, STATION, 1)
        assert card.transmit(command).sw == 0x9000
        card.power_up()
        select(card)
        assert authenticate(card).key == session.key
        assert card.transmit(command).sw == 0x6982
        assert state(card) == AFTER


def test_ride_at_each_cut():
    """After a cut the ticket is as it was, and a new session can take the trip."""
    writes, response = 0, None
    while response is None:
        with ticket() as card:
            session = begin(card)
            response = card.tear(writes, session.command(RIDE, STATION, 1))
            select(card)
            assert state(card) == (AFTER if response else BEFORE), f"after {writes} writes"
            if response is None:
                session = authenticate(card)
                assert session.state(card.transmit(session.command(RIDE, STATION, 1)).data) == AFTER
        writes += 1
    assert session.state(response.data) == AFTER


def test_key_at_each_cut():
    """After a cut the card has no key and takes it, or has it."""
    writes, response = 0, None
    while response is None:
        with ticket() as card:
            select(card)
            response = card.tear(writes, PUT_KEY)
            select(card)
            assert card.transmit(PUT_KEY).sw == (0x6985 if response else 0x9000), f"after {writes} writes"
            authenticate(card)
        writes += 1


if __name__ == "__main__":
    run_all(globals())
