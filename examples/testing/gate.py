"""The terminal's side of the ticket: what a gate computes, by python3-cryptography, and what it demands of the card."""
import struct

from cryptography.hazmat.primitives.ciphers.algorithms import AES
from cryptography.hazmat.primitives.cmac import CMAC

ADD, RIDE = 0x10, 0x20
PROOF_OF_TERMINAL, PROOF_OF_CARD, KEY_OF_SESSION = b"\x01", b"\x02", b"\x03"
STATE_SIZE = 6


def mac(key, message):
    code = CMAC(AES(key))
    code.update(message)
    return code.finalize()


class Session:
    """A session of a terminal that has the card's key, from the challenges of both."""

    def __init__(self, key, of_card, of_terminal):
        both = of_card + of_terminal
        proof = of_terminal + mac(key, PROOF_OF_TERMINAL + both)
        self.authentication = bytes.fromhex("00820000") + bytes([len(proof)]) + proof
        self.proof_of_card = mac(key, PROOF_OF_CARD + both)
        self.key = mac(key, KEY_OF_SESSION + both)

    def command(self, instruction, value, changes):
        """ADD or RIDE after this number of changes."""
        command = struct.pack(">BBHBH", 0x80, instruction, 0, 18, value)
        return command + mac(self.key, changes.to_bytes(2, "big") + command)

    def answer(self, state):
        """The card's answer to a change that leaves this state."""
        return state + mac(self.key, state)

    def state(self, answer):
        """The trips, the station and the number of changes in an answer to a change. A ValueError where the card did not make it."""
        if answer != self.answer(answer[:STATE_SIZE]):
            raise ValueError("the MAC of the answer is wrong")
        return struct.unpack(">3h", answer[:STATE_SIZE])
