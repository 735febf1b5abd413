"""Words of a command line."""
import argparse
import re

from .components import LONGEST_AID, SHORTEST_AID


def hexadecimal(word):
    """The bytes of a word, between which blanks or colons may stand."""
    if not re.fullmatch(r" *(?:[0-9A-Fa-f]{2}[ :]*)*", word):
        raise argparse.ArgumentTypeError(f"{word} is not hexadecimal, two digits a byte")
    return bytes.fromhex(word.replace(":", ""))


def aid(word):
    value = hexadecimal(word)
    if not SHORTEST_AID <= len(value) <= LONGEST_AID:
        raise argparse.ArgumentTypeError(f"an AID has {SHORTEST_AID} to {LONGEST_AID} bytes, not {len(value)}")
    return value


def version(word):
    if not re.fullmatch(r"[0-9]{1,3}\.[0-9]{1,3}", word) or any(int(part) > 255 for part in word.split(".")):
        raise argparse.ArgumentTypeError(f"{word} is no version, as 1.0")
    return tuple(map(int, word.split(".")))


def named_aid(word):
    """A name in Java and an AID, as purse.Purse=F0:00:00:00:0B:01."""
    name, equals, value = word.partition("=")
    if not equals or not re.fullmatch(r"[\w$]+(\.[\w$]+)*", name):
        raise argparse.ArgumentTypeError(f"{word} is not NAME=AID")
    return name.replace(".", "/"), aid(value)
