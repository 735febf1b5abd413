"""What is on a card, read from its image: packages with their applets, and instances. docs/FORMATS.md has the words."""
import struct
from typing import NamedTuple

PACKAGES, MOST_PACKAGES, APPLETS = 528, 32, 560
NUMBER_OF_PACKAGES, NUMBER_OF_APPLETS = 6, 7
CELLS = 4  # of an object stand after this many words
HEADER, APPLET = 1, 3


class Package(NamedTuple):
    aid: bytes
    version: bytes  # major, minor
    applets: list


class Instance(NamedTuple):
    aid: bytes
    package: Package


class Registry(NamedTuple):
    packages: list
    instances: list

    def package(self, aid):
        return next((each for each in self.packages if each.aid == aid), None)

    def instance(self, aid):
        return next((each for each in self.instances if each.aid == aid), None)


def read_registry(path):
    """The packages and applets of an image."""
    with open(path, "rb") as file:
        content = file.read()
    words = struct.unpack(f">{len(content) // 2}H", content[:len(content) // 2 * 2])
    packages = [package_at(content, words[PACKAGES + k]) for k in range(min(words[NUMBER_OF_PACKAGES], MOST_PACKAGES))]
    instances = []
    for k in range(words[NUMBER_OF_APPLETS]):
        object_, number = words[APPLETS + 3 * k], words[APPLETS + 3 * k + 1]
        instances.append(Instance(aid_at(words, object_), packages[number - 1]))
    return Registry(packages, instances)


def aid_at(words, address):
    """An AID object: the length, and then the bytes, two a cell."""
    length = words[address + CELLS]
    value = struct.pack(">8H", *words[address + CELLS + 1:address + CELLS + 9])
    return value[:length]


def package_at(content, address):
    """A package's record: components, each its tag, its size and its info, two bytes a word; then 0."""
    infos, at = {}, address + 1
    while content[2 * at:2 * at + 2] != b"\0\0":
        tag, size = struct.unpack(">2H", content[2 * at:2 * at + 4])
        infos[tag] = content[2 * at + 4:2 * at + 4 + size]
        at += 2 + (size + 1) // 2
    header = infos[HEADER]
    # u4 magic, u1 minor, u1 major, u1 flags; then of the package u1 minor, u1 major, u1 length, the AID
    minor, major, length = header[7], header[8], header[9]
    return Package(header[10:10 + length], bytes([major, minor]), applets_in(infos.get(APPLET, b"\0")))


def applets_in(info):
    """The AIDs of an Applet component: u1 count; each u1 length, the AID, u2 offset of install."""
    found, at = [], 1
    for _ in range(info[0]):
        found.append(info[at + 1:at + 1 + info[at]])
        at += 3 + info[at]
    return found
