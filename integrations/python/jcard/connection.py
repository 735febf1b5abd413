"""pyscard's interface to a card, without a reader and without pcscd.

    connection = JcardReader(lambda: Card.of_copy("card.img")).createConnection()
    connection.connect()
    data, sw1, sw2 = connection.transmit([0x00, 0xA4, 0x04, 0x00])

The command FF 53 K K is the reader's own: KK further word writes pass, and the power is cut at the next.
"""
from __future__ import annotations

from typing import Any, Callable, Optional, Sequence

from smartcard.CardConnection import CardConnection
from smartcard.Exceptions import CardConnectionException, NoCardException
from smartcard.reader.Reader import Reader

from jcard.card import Card, PowerCut, ProgramEnded

# T=1, whole AIDs alone, neither extended lengths nor logical channels, the name JCARD: the PC/SC reader's for an image with the usual APDU buffer
ATR = bytes.fromhex("3B8B8131FE458073800100554A43415244F9")


class JcardReader(Reader):
    """A reader with a card in it."""

    def __init__(self, begin: Callable[[], Card] = Card.new, name: str = "jcard") -> None:
        """A reader for the card that `begin` answers: at the first connection, and after `eject`."""
        super().__init__(name)
        self._begin = begin
        self._card: Optional[Card] = None
        self._is_powered = False

    def createConnection(self) -> JcardConnection:  # noqa: N802
        """A connection, which is not connected yet."""
        return JcardConnection(self)

    def eject(self) -> None:
        """Ends the card's program."""
        if self._card is not None:
            self._card.close()
        self._card, self._is_powered = None, False

    def power_up(self) -> None:
        """Powers the card up where it has no power."""
        if self._is_powered:
            return
        try:
            if self._card is None:
                self._card = self._begin()
            self._card.power_up()
        except PowerCut as cut:
            raise CardConnectionException(str(cut)) from None
        except (OSError, ProgramEnded) as ended:
            self.eject()
            raise NoCardException(str(ended), hresult=0) from None
        self._is_powered = True

    def power_off(self) -> None:
        """Cuts the power."""
        self._is_powered = False

    def exchange(self, command: bytes) -> bytes:
        """The response to a command."""
        if len(command) == 4 and command[:2] == b"\xFF\x53" and self._card is not None:
            self._card.cut_after(int.from_bytes(command[2:], "big"))
            return b"\x90\x00"
        if self._card is None or not self._is_powered:
            raise CardConnectionException("the card has no power")
        try:
            data, status = self._card.transmit(command)
        except PowerCut as cut:
            self._is_powered = False
            raise CardConnectionException(str(cut)) from None
        except ProgramEnded as ended:
            self.eject()
            raise CardConnectionException(str(ended)) from None
        return data + status.to_bytes(2, "big")


class JcardConnection(CardConnection):
    """A connection to the card in a reader. `disconnect` cuts the power, and `connect` powers the card up."""

    def __init__(self, reader: JcardReader) -> None:
        super().__init__(reader)
        self._reader = reader
        self._is_connected = False

    def connect(self, protocol: Optional[int] = None, mode: Optional[int] = None, disposition: Optional[int] = None) -> None:
        """Powers the card up; a CardConnectionException where its recovery is cut or the protocol is not T=1."""
        if not (protocol or self.defaultprotocol) & CardConnection.T1_protocol:
            raise CardConnectionException("the card speaks T=1 alone")
        self._reader.power_up()
        self._is_connected = True
        super().connect(protocol, mode, disposition)

    def reconnect(self, protocol: Optional[int] = None, mode: Optional[int] = None, disposition: Optional[int] = None) -> None:
        """Cuts the power, and powers the card up."""
        self._reader.power_off()
        self._reader.power_up()
        self._is_connected = True
        super().reconnect(protocol, mode, disposition)

    def disconnect(self) -> None:
        """Cuts the power. The program goes on, and keeps the image, up to `JcardReader.eject`."""
        self._reader.power_off()
        self._is_connected = False
        super().disconnect()

    def getATR(self) -> list[int]:  # noqa: N802
        """The answer to reset."""
        self._require()
        return list(ATR)

    def getProtocol(self) -> int:  # noqa: N802
        """T=1."""
        return int(CardConnection.T1_protocol)

    def doTransmit(self, command: Sequence[int], protocol: Optional[int] = None) -> tuple[list[int], int, int]:  # noqa: N802
        """The response's data and the two bytes of its status word."""
        self._require()
        response = self._reader.exchange(bytes(command))
        return list(response[:-2]), response[-2], response[-1]

    def doControl(self, code: int, data: Sequence[int] = ()) -> list[int]:  # noqa: N802
        raise CardConnectionException("the reader knows no control command")

    def doGetAttrib(self, attribute: int) -> list[int]:  # noqa: N802
        raise CardConnectionException("the reader has no attributes")

    def _require(self) -> None:
        if not self._is_connected:
            raise CardConnectionException("the card is not connected")

    def __eq__(self, other: Any) -> bool:
        return self is other

    def __hash__(self) -> int:
        return id(self)
