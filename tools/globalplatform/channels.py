"""The card's side of the secure channels of GlobalPlatform: SCP02 (Card Specification, Appendix E; option i = 15) and SCP03 (Amendment D;
option i = 00). Both have the test keys 40 41 .. 4F."""
import os

from cryptography.hazmat.primitives.ciphers import Cipher, algorithms, modes
from cryptography.hazmat.primitives.cmac import CMAC

TEST_KEY = bytes(range(0x40, 0x50))
KEY_VERSION = 0xFF  # of the keys that a card comes with
DIVERSIFICATION = bytes(10)
MAC, MAC_AND_ENCRYPTION = 0x01, 0x03  # security levels
MAC_LENGTH = 8
ALL_ZERO = bytes(8)


class Refused(Exception):
    """A status word."""

    def __init__(self, status):
        super().__init__(f"{status:04X}")
        self.status = status


def padded(data, block):
    """A text to whole blocks: 80, and then as many 00 as it takes."""
    return data + b"\x80" + bytes(-(len(data) + 1) % block)


def unpadded(data):
    text, mark, rest = data.rpartition(b"\x80")
    if not mark or rest.strip(b"\0"):
        raise Refused(0x6982)
    return text


def des_cbc(key, data, start=ALL_ZERO):
    """Triple DES with two keys, or DES with one of 8 bytes."""
    worker = Cipher(algorithms.TripleDES(key), modes.CBC(start)).encryptor()
    return worker.update(data) + worker.finalize()


def des_cbc_decrypted(key, data):
    worker = Cipher(algorithms.TripleDES(key), modes.CBC(ALL_ZERO)).decryptor()
    return worker.update(data) + worker.finalize()


def full_mac(key, data):
    """ISO/IEC 9797-1, algorithm 1 with triple DES and padding 2."""
    return des_cbc(key, padded(data, 8))[-8:]


def retail_mac(key, data, start):
    """ISO/IEC 9797-1, algorithm 3 with padding 2: DES but for the last block, which gets triple DES."""
    text = padded(data, 8)
    if len(text) > 8:
        start = des_cbc(key[:8], text[:-8], start)[-8:]
    return des_cbc(key, text[-8:], start)


def cmac(key, data):
    worker = CMAC(algorithms.AES(key))
    worker.update(data)
    return worker.finalize()


def derived(key, constant, context, length):
    """Bytes of the derivation of NIST SP 800-108 in counter mode, as SCP03 uses it. One block is enough for keys of 16 bytes."""
    return cmac(key, bytes(11) + bytes([constant, 0]) + (8 * length).to_bytes(2, "big") + b"\1" + context)[:length]


class Channel:
    """A session that INITIALIZE UPDATE began. `level` is None up to EXTERNAL AUTHENTICATE."""

    def __init__(self, host_challenge):
        self.host_challenge, self.level = host_challenge, None

    def authenticate(self, command):
        """EXTERNAL AUTHENTICATE, with its host cryptogram and its MAC."""
        level = command[2]
        if level not in (0, MAC, MAC_AND_ENCRYPTION):
            raise Refused(0x6A86)
        if command[4:5] != bytes([16]) or len(command) not in (21, 22):
            raise Refused(0x6700)
        if self.verified(command) != self.host_cryptogram:
            raise Refused(0x6300)
        self.level = level

    def opened(self, command):
        """A command without its secure messaging."""
        if self.level == 0:
            return command
        if not command[0] & 0x04:
            raise Refused(0x6982)
        data = self.verified(command)
        if self.level == MAC_AND_ENCRYPTION:
            data = self.decrypted(data)
        header = bytes([command[0] & ~0x04]) + command[1:4]
        return header + (bytes([len(data)]) + data if data else b"")

    def split(self, command):
        """The header with the length, the data, and the MAC of a command. What follows is the expected length."""
        length = command[4] if len(command) > 4 else 0
        if length < MAC_LENGTH or len(command) not in (5 + length, 6 + length):
            raise Refused(0x6982)
        data = command[5:5 + length]
        return command[:5], data[:-MAC_LENGTH], data[-MAC_LENGTH:]


class Scp02(Channel):
    """Triple DES. The MAC is that of the command before it is encrypted, with the MAC before it, encrypted by DES, as its start."""

    number, option = 2, 0x15

    def __init__(self, host_challenge, counter, card_challenge=None):
        super().__init__(host_challenge)
        challenge = card_challenge or os.urandom(6)
        sequence = counter.to_bytes(2, "big")
        self.encryption, self.mac = (des_cbc(TEST_KEY, constant + sequence + bytes(12)) for constant in (b"\x01\x82", b"\x01\x01"))
        self.before = None
        self.host_cryptogram = full_mac(self.encryption, sequence + challenge + host_challenge)
        cryptogram = full_mac(self.encryption, host_challenge + sequence + challenge)
        self.answer = DIVERSIFICATION + bytes([KEY_VERSION, self.number]) + sequence + challenge + cryptogram

    def verified(self, command):
        """The data of a command whose MAC is right; with encryption its MAC is that of the data before."""
        header, data, mac = self.split(command)
        plain = self.decrypted(data) if self.level == MAC_AND_ENCRYPTION else data
        start = ALL_ZERO if self.before is None else des_cbc(self.mac[:8], self.before)
        wanted = retail_mac(self.mac, header[:4] + bytes([len(plain) + MAC_LENGTH]) + plain, start)
        if mac != wanted:
            raise Refused(0x6982)
        self.before = wanted
        return data

    def decrypted(self, data):
        if len(data) % 8:
            raise Refused(0x6982)
        return unpadded(des_cbc_decrypted(self.encryption, data)) if data else data


class Scp03(Channel):
    """AES. The MAC is that of the command as it is sent, after the MAC before; encryption begins with an encrypted counter."""

    number, option = 3, 0x00

    def __init__(self, host_challenge, _, card_challenge=None):
        super().__init__(host_challenge)
        challenge = card_challenge or os.urandom(8)
        context = host_challenge + challenge
        self.encryption, self.mac = (derived(TEST_KEY, constant, context, 16) for constant in (4, 6))
        self.chaining, self.commands = bytes(16), 0
        self.host_cryptogram = derived(self.mac, 1, context, 8)
        self.answer = DIVERSIFICATION + bytes([KEY_VERSION, self.number, self.option]) + challenge + derived(self.mac, 0, context, 8)

    def verified(self, command):
        header, data, mac = self.split(command)
        wanted = cmac(self.mac, self.chaining + header + data)
        if mac != wanted[:MAC_LENGTH]:
            raise Refused(0x6982)
        self.chaining = wanted
        if self.level is not None:
            self.commands += 1
        return data

    def decrypted(self, data):
        if len(data) % 16:
            raise Refused(0x6982)
        if not data:
            return data
        counter = Cipher(algorithms.AES(self.encryption), modes.ECB()).encryptor().update(self.commands.to_bytes(16, "big"))
        worker = Cipher(algorithms.AES(self.encryption), modes.CBC(counter)).decryptor()
        return unpadded(worker.update(data) + worker.finalize())


PROTOCOLS = {"SCP02": Scp02, "SCP03": Scp03}
