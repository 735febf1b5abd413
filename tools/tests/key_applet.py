"""A card with the applet of tools/tests/cases/publickeys, which makes one call of a key, a signature, a cipher, a key pair or an agreement a command."""
import os
import sys

from harness import TESTS, TOOLS, TOP
from engine_cases import NoCard, have, put_text
from converter.compiling import compile_sources

sys.path.insert(0, os.path.join(TOP, "examples/testing"))
from jcard import Card

APPLET = "F07075626C69636B65797301"
PARTS = {name: number for number, name in enumerate(("modulus", "exponent", "p", "q", "pq", "dp", "dq", "", "field", "a", "b", "g", "r", "k", "w", "s"))}
RSA_PUBLIC, RSA_PRIVATE, RSA_CRT, EC_PUBLIC, EC_PRIVATE = 4, 5, 6, 11, 12
SIGN, VERIFY, DECRYPT, ENCRYPT = 1, 2, 1, 2
UNINITIALIZED_KEY, ILLEGAL_VALUE, ILLEGAL_USE = 0xC002, 0xC001, 0xC005
AT, TO, GIVEN = 0, 700, 1400  # where a message, an output, and what is set stand
PKCS1 = {10: "SHA1", 11: "MD5", 39: "SHA224", 40: "SHA256", 41: "SHA384", 42: "SHA512"}
PSS = {21: "SHA1", 43: "SHA224", 44: "SHA256", 45: "SHA384", 46: "SHA512"}
ECDSA = {17: "SHA1", 37: "SHA224", 33: "SHA256", 34: "SHA384", 38: "SHA512"}
# p, a, b, x, y and n of SEC 2 and FIPS 186, of RFC 5639: the library has no call that names them.
CURVES = {
    "secp192r1": (192, "fffffffffffffffffffffffffffffffeffffffffffffffff", "fffffffffffffffffffffffffffffffefffffffffffffffc",
                  "64210519e59c80e70fa7e9ab72243049feb8deecc146b9b1", "188da80eb03090f67cbf20eb43a18800f4ff0afd82ff1012",
                  "07192b95ffc8da78631011ed6b24cdd573f977a11e794811", "ffffffffffffffffffffffff99def836146bc9b1b4d22831"),
    "secp224r1": (224, "ffffffffffffffffffffffffffffffff000000000000000000000001", "fffffffffffffffffffffffffffffffefffffffffffffffffffffffe",
                  "b4050a850c04b3abf54132565044b0b7d7bfd8ba270b39432355ffb4", "b70e0cbd6bb4bf7f321390b94a03c1d356c21122343280d6115c1d21",
                  "bd376388b5f723fb4c22dfe6cd4375a05a07476444d5819985007e34", "ffffffffffffffffffffffffffff16a2e0b8f03e13dd29455c5c2a3d"),
    "secp256r1": (256, "ffffffff00000001000000000000000000000000ffffffffffffffffffffffff", "ffffffff00000001000000000000000000000000fffffffffffffffffffffffc",
                  "5ac635d8aa3a93e7b3ebbd55769886bc651d06b0cc53b0f63bce3c3e27d2604b", "6b17d1f2e12c4247f8bce6e563a440f277037d812deb33a0f4a13945d898c296",
                  "4fe342e2fe1a7f9b8ee7eb4a7c0f9e162bce33576b315ececbb6406837bf51f5", "ffffffff00000000ffffffffffffffffbce6faada7179e84f3b9cac2fc632551"),
    "secp384r1": (384, "fffffffffffffffffffffffffffffffffffffffffffffffffffffffffffffffeffffffff0000000000000000ffffffff",
                  "fffffffffffffffffffffffffffffffffffffffffffffffffffffffffffffffeffffffff0000000000000000fffffffc",
                  "b3312fa7e23ee7e4988e056be3f82d19181d9c6efe8141120314088f5013875ac656398d8a2ed19d2a85c8edd3ec2aef",
                  "aa87ca22be8b05378eb1c71ef320ad746e1d3b628ba79b9859f741e082542a385502f25dbf55296c3a545e3872760ab7",
                  "3617de4a96262c6f5d9e98bf9292dc29f8f41dbd289a147ce9da3113b5f0b8c00a60b1ce1d7e819d7a431d7c90ea0e5f",
                  "ffffffffffffffffffffffffffffffffffffffffffffffffc7634d81f4372ddf581a0db248b0a77aecec196accc52973"),
    "secp521r1": (521, "01" + "ff" * 65, "01" + "ff" * 64 + "fc",
                  "0051953eb9618e1c9a1f929a21a0b68540eea2da725b99b315f3b8b489918ef109e156193951ec7e937b1652c0bd3bb1bf073573df883d2c34f1ef451fd46b503f00",
                  "00c6858e06b70404e9cd9e3ecb662395b4429c648139053fb521f828af606b4d3dbaa14b5e77efe75928fe1dc127a2ffa8de3348b3c1856a429bf97e7e31c2e5bd66",
                  "011839296a789a3bc0045c8a5fb42c7d1bd998f54449579b446817afbd17273e662c97ee72995ef42640c550b9013fad0761353c7086a272c24088be94769fd16650",
                  "01fffffffffffffffffffffffffffffffffffffffffffffffffffffffffffffffffa51868783bf2f966b7fcc0148f709a5d03bb5c9b8899c47aebb6fb71e91386409"),
    "brainpoolP256r1": (256, "a9fb57dba1eea9bc3e660a909d838d726e3bf623d52620282013481d1f6e5377", "7d5a0975fc2c3057eef67530417affe7fb8055c126dc5c6ce94a4b44f330b5d9",
                        "26dc5c6ce94a4b44f330b5d9bbd77cbf958416295cf7e1ce6bccdc18ff8c07b6", "8bd2aeb9cb7e57cb2c4b482ffc81b7afb9de27e1e3bd23c23a4453bd9ace3262",
                        "547ef835c3dac4fd97f8461a14611dc9c27745132ded8e545c1d54c72f046997", "a9fb57dba1eea9bc3e660a909d838d718c397aa3b561a6f7901e0e82974856a7"),
}


def long_of(data):
    return int.from_bytes(data, "big")


class Applet:
    """The applet on a card: one call a command."""

    def __init__(self, program, image):
        self.card = Card(program, image)
        self.sw = None
        self.send(bytes.fromhex(f"00A40400{len(APPLET) // 2:02X}{APPLET}"))

    def send(self, command):
        response = self.card.transmit(command)
        self.sw = response.sw
        return response.data

    def call(self, ins, slot, number=0, *operands):
        """The number that a call returns, and nothing where an exception came: `sw` says which."""
        data = b"".join(operand.to_bytes(2, "big") for operand in operands)
        answer = self.send(bytes((0, ins, slot, number, len(data))) + data)
        return (long_of(answer) if answer else True) if self.sw == 0x9000 else None

    def write(self, at, data):
        for start in range(0, len(data), 200):
            piece = data[start:start + 200]
            self.send(b"\0\1" + (at + start).to_bytes(2, "big") + bytes((len(piece),)) + piece)

    def read(self, at, length):
        pieces = []
        for start in range(0, length, 200):
            count = min(200, length - start)
            pieces.append(self.send(b"\0\2" + (at + start).to_bytes(2, "big") + bytes((count,))))
        return b"".join(pieces)

    def build(self, slot, kind, bits):
        return self.call(0x10, slot, kind, bits)

    def put(self, slot, part, data):
        self.write(GIVEN, data)
        return self.call(0x11, slot, PARTS[part], GIVEN, len(data))

    def get(self, slot, part):
        count = self.call(0x12, slot, PARTS[part], GIVEN)
        return None if count is None else self.read(GIVEN, count)

    def is_initialized(self, slot):
        return self.send(bytes((0, 0x13, slot, 0)))[3] == 1

    def sign(self, slot, key, message):
        """A signature of a message, of which a part comes before."""
        if self.call(0x21, slot, SIGN, key) is None:
            return None
        self.write(AT, message)
        first = len(message) // 3
        if first:
            self.call(0x22, slot, 0, AT, first)
        count = self.call(0x23, slot, 0, AT + first, len(message) - first, TO)
        return None if count is None else self.read(TO, count)

    def verify(self, slot, key, message, signature):
        if self.call(0x21, slot, VERIFY, key) is None:
            return None
        self.write(AT, message)
        self.write(TO, signature)
        verified = self.call(0x24, slot, 0, AT, len(message), TO, len(signature))
        return None if verified is None else verified == 1

    def cipher(self, slot, key, mode, data):
        if self.call(0x31, slot, mode, key) is None:
            return None
        self.write(AT, data)
        first = len(data) // 2
        if first:
            self.call(0x32, slot, 0, AT, first, TO)
        count = self.call(0x33, slot, 0, AT + first, len(data) - first, TO)
        return None if count is None else self.read(TO, count)


def made_card(program, folder):
    """An image with the applet; its path."""
    classes, image = os.path.join(folder, "classes"), os.path.join(folder, "made.img")
    os.mkdir(classes)
    compile_sources("javac", [os.path.join(TESTS, "cases/publickeys/PublicKeys.java")], classes)
    have("convert", os.path.join(TOOLS, "convert"), "classes", "--package", "publickeys", "--out", "publickeys.cap", folder=folder)
    script = have("cap2script", os.path.join(TOOLS, "cap2script"), "publickeys.cap", APPLET, folder=folder)
    put_text(os.path.join(folder, "load.script"), script)
    have("new", program, "new", image, "--words", "16384", "--journal", "1024")
    answers = have("load", program, "run", image, "load.script", folder=folder).splitlines()
    if set(answers) != {"9000"}:
        raise NoCard(f"the load is answered {answers[-1]}")
    return image
