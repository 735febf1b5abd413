"""The issuer's side of the payment card: what it computes of a transaction, by python3-cryptography."""
import struct

from cryptography.hazmat.primitives.ciphers import Cipher
from cryptography.hazmat.primitives.ciphers.algorithms import TripleDES
from cryptography.hazmat.primitives.ciphers.modes import CBC, ECB

ARQC, TC, AAC = 0x80, 0x40, 0x00
APPROVED, DECLINED = b"00", b"05"  # response codes


def encipher(key, message, mode):
    """Triple DES by a key of three parts."""
    encryptor = Cipher(TripleDES(key), mode).encryptor()
    return encryptor.update(message) + encryptor.finalize()


def triple_des(key, message):
    """Each block by itself, by a key of two parts."""
    return encipher(key + key[:8], message, ECB())


def exclusive_or(one, other):
    return bytes(left ^ right for left, right in zip(one, other))


def mac(key, message):
    """The MAC of ISO 9797-1 by algorithm 3 and padding method 2: DES with the key's first part, triple DES for the last block."""
    padded = message + b"\x80"
    padded += bytes(-len(padded) % 8)
    chained = encipher(key[:8] * 3, padded[:-8], CBC(bytes(8)))
    return triple_des(key, exclusive_or(chained[-8:], padded[-8:]))


class Transaction:
    """What the issuer makes of the card's answer to GENERATE AC."""

    def __init__(self, master_key, data, answer):
        layout, length, self.kind, self.atc, self.cryptogram, results, self.offline = struct.unpack(">BBBH8sBB", answer)
        if (layout, length, results & 0xFE) != (0x80, 13, self.kind):
            raise ValueError("the answer has another form")
        self.pin_was_right = bool(results & 1)
        counter = struct.pack(">H", self.atc)
        self.key = triple_des(master_key, counter + bytes([0xF0, 0, 0, 0, 0, 0]) + counter + bytes([0x0F, 0, 0, 0, 0, 0]))
        if self.cryptogram != mac(self.key, data + counter + bytes([results, self.offline])):
            raise ValueError("the cryptogram is wrong")

    def authentication(self, code):
        """EXTERNAL AUTHENTICATE with the issuer's cryptogram for a response code."""
        cryptogram = triple_des(self.key, exclusive_or(self.cryptogram, code + bytes(6)))
        return bytes.fromhex("008200000A") + cryptogram + code
