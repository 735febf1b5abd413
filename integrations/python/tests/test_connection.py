"""pyscard's interface."""
import os

import pytest

pytest.importorskip("smartcard")

from smartcard.CardConnection import CardConnection
from smartcard.CardConnectionObserver import CardConnectionObserver
from smartcard.Exceptions import CardConnectionException, NoCardException
from smartcard.util import toBytes

from jcard import Applet, Card, make_image
from jcard.connection import JcardReader

MANAGER = toBytes("00A4040006F04A434D4752")
BEGIN_A_LOAD, BEGIN_A_COMPONENT = [0x80, 0xB0, 0, 0], [0x80, 0xB2, 1, 0]


@pytest.fixture
def reader():
    made = JcardReader()
    yield made
    made.eject()


def test_answers_as_a_connection(reader):
    connection = reader.createConnection()
    with pytest.raises(CardConnectionException):
        connection.transmit(MANAGER)
    connection.connect()
    assert connection.getReader().name == "jcard"
    assert connection.getProtocol() == CardConnection.T1_protocol
    assert bytes(connection.getATR()).find(b"JCARD") == 12
    assert connection.transmit(MANAGER) == ([], 0x90, 0x00)
    # sconst_5, sreturn
    assert connection.transmit(toBytes("8010010002 0878")) == ([0, 5], 0x90, 0x00)


def test_tells_its_observers(reader):
    class Noted(CardConnectionObserver):
        def update(self, connection, event):
            noted.append(event.type)

    noted = []
    connection = reader.createConnection()
    connection.addObserver(Noted())
    connection.connect()
    connection.transmit(MANAGER)
    connection.disconnect()
    assert noted == ["connect", "command", "response", "disconnect"]


def test_resets_as_it_disconnects_and_reconnects(reader):
    connection = reader.createConnection()
    connection.connect()
    assert connection.transmit(BEGIN_A_LOAD)[1:] == (0x90, 0x00)
    assert connection.transmit(BEGIN_A_COMPONENT)[1:] == (0x90, 0x00)
    connection.reconnect()
    assert connection.transmit(BEGIN_A_COMPONENT)[1:] == (0x69, 0x85)
    connection.disconnect()
    connection.connect()
    assert connection.transmit(BEGIN_A_COMPONENT)[1:] == (0x69, 0x85)


def test_refuses_other_protocols(reader):
    with pytest.raises(CardConnectionException):
        reader.createConnection().connect(CardConnection.T0_protocol)


def test_tells_that_there_is_no_card(tmp_path):
    with pytest.raises(NoCardException):
        JcardReader(lambda: Card(tmp_path / "none.img")).createConnection().connect()


def test_cuts_the_power(tmp_path):
    counter = os.path.join(os.path.dirname(__file__), "../../java/src/test/applets/counter")
    make_image(tmp_path / "card.img", [Applet([counter])], words=8192)
    reader = JcardReader(lambda: Card(tmp_path / "card.img"))
    connection = reader.createConnection()

    def select():
        assert connection.transmit(toBytes("00A4040009F0636F756E74657201"))[1:] == (0x90, 0x00)

    connection.connect()
    select()
    assert connection.transmit([0x80, 1, 5, 0]) == ([5], 0x90, 0x00)
    assert connection.transmit(toBytes("FF530004")) == ([], 0x90, 0x00)
    with pytest.raises(CardConnectionException):
        connection.transmit([0x80, 1, 7, 0])
    with pytest.raises(CardConnectionException):
        connection.transmit([0x80, 0, 0, 0])
    connection.disconnect()
    connection.connect()
    select()
    assert connection.transmit([0x80, 0, 0, 0]) == ([5], 0x90, 0x00)
    # after four writes there is something to take back, so the recovery writes
    connection.transmit(toBytes("FF530004"))
    with pytest.raises(CardConnectionException):
        connection.transmit([0x80, 1, 7, 0])
    connection.disconnect()
    assert reader.exchange(bytes.fromhex("FF530000")) == b"\x90\x00"
    with pytest.raises(CardConnectionException):
        connection.connect()
    reader.exchange(bytes.fromhex("FF53FFFF"))
    connection.connect()
    select()
    assert connection.transmit([0x80, 0, 0, 0]) == ([5], 0x90, 0x00)
    reader.eject()
