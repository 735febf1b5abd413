"""Images of which a word is damaged."""
from .loads import COUNTER, SHARED, contents_of, install, load

MANAGER = "00A4040006F04A434D4752"
VALUES = (0x0000, 0x0001, None, 0xFFFF)  # None is the complement
# What a card holds whose images are damaged: the counter, arrays that are initialised, and a transaction that a cut left open; a server,
# its client, and an applet with a PIN; the counter, beside the packed table of the usual card.
HELD = {
    "counter": [*load(contents_of("counter_2_1")), *load(contents_of("initialised")), *load(contents_of("arrays")), *COUNTER,
                "stop 4", "00000701"],
    "shared": [*load(contents_of("server")), *load(contents_of("client")), *SHARED, MANAGER, *load(contents_of("pin_applet")),
               install("F00000000501"), "00A4040006F00000000501", "000100000903030405040102030400"],
    "packed": [*load(contents_of("counter_2_1")), *COUNTER],
}
USUAL = {"packed"}  # cards for which no platform table is named


def bytes_of(path):
    with open(path, "rb") as file:
        return file.read()


def word(image, at):
    return int.from_bytes(image[2 * at:2 * at + 2], "big")


def with_word(image, at, value):
    """The image with another word."""
    return image[:2 * at] + value.to_bytes(2, "big") + image[2 * at + 2:]


def damages(image):
    """Each word, and each other value that it gets."""
    for at in range(len(image) // 2):
        old = word(image, at)
        for value in dict.fromkeys(old ^ 0xFFFF if value is None else value for value in VALUES):
            if value != old:
                yield at, value
