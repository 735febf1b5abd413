"""Components of packages that are cut or changed."""
import os

from converter.assembly import components_of, lines_of

from .program import CARDS

VALUES = (0x00, 0x7F, 0x80, 0xFF)
END = "80BA0000"
RESET = "reset"


def contents_of(name):
    """The components of a package of the rows."""
    with open(os.path.join(CARDS, f"package_{name}.load"), encoding="ascii") as file:
        return components_of(file.read())


def load(contents):
    """The lines that load components as a package."""
    return [line.partition(" #")[0] for line in lines_of(contents)] + [END]


def cuts(contents):
    """Each component cut at each length as it stands, and with a size that fits what is left; and what was done."""
    for tag, component in contents.items():
        for length in range(len(component)):
            yield f"component {tag}, its first {length} bytes", {**contents, tag: component[:length]}
        for length in range(len(component) - 3):
            cut = bytes([tag]) + length.to_bytes(2, "big") + component[3:3 + length]
            yield f"component {tag}, {length} bytes of its info", {**contents, tag: cut}


def changes(contents):
    """Each byte of each component changed to each value; and what was done."""
    for tag, component in contents.items():
        for place, byte in enumerate(component):
            for value in VALUES:
                if value != byte:
                    changed = component[:place] + bytes([value]) + component[place + 1:]
                    yield f"component {tag}, byte {place} is {value:02X}", {**contents, tag: changed}


def install(aid, data=""):
    """The command that installs the applet with an AID under it."""
    parameters = f"{len(aid) // 2:02X}{aid}00{len(data) // 2:02X}{data}"
    return f"80B80000{(len(aid) + 2 + len(parameters)) // 2:02X}{len(aid) // 2:02X}{aid}{parameters}"


def select(aid):
    return f"00A40400{len(aid) // 2:02X}{aid}"


COUNTER = [install("F00000000101"), select("F00000000101"), "00000501", "00000900", "00010000", "00000981", "00010000",
           RESET, select("F00000000101"), "00010000"]
SHARED = [install("F00000000301"), install("F00000000401"), select("F00000000401"),
          *(f"00{number:02X}00{told:02X}" for number in range(0x36) for told in (0, 1)), RESET, select("F00000000401"), "00000000"]
