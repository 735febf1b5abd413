"""The components of a load in a file of rows, and the rows in which one comes: what tools/dev/load_cuts and tools/dev/load_changes share."""
import sys

TAGS = (1, 2, 3, 4, 5, 6, 7, 8, 10)
LONGEST = 255  # bytes of a component that comes by one B4
HEADER = 1


class Unusable(Exception):
    """Why no rows can be made of a file."""


def components(path):
    """The components of a load, in the order of the file, each from its tag on: a Header first, each of 3 to 255 bytes."""
    found = []
    try:
        with open(path, encoding="ascii") as lines:
            for number, line in enumerate(lines, 1):
                row = line.split("#")[0].split("=")[0].replace(" ", "").strip()
                if row.startswith("80B2"):
                    found.append(b"")
                elif row.startswith("80B4"):
                    if not found:
                        raise Unusable(f"{path} line {number}: bytes of a component before a row 80B2 begins one")
                    found[-1] += bytes.fromhex(row[10:])
    except OSError as error:
        raise Unusable(f"cannot read {path}: {error.strerror}") from None
    except UnicodeDecodeError:
        raise Unusable(f"cannot read {path}: it is no text in ASCII") from None
    except ValueError:
        raise Unusable(f"{path} line {number}: bytes that are no hexadecimal digits") from None
    if not found or found[0][:1] != bytes([HEADER]):
        raise Unusable(f"{path} does not begin with a Header")
    for component in found:
        if not 3 <= len(component) <= LONGEST or component[0] not in TAGS:
            raise Unusable(f"{path} has a component of {len(component)} bytes or of an unknown tag; 3 to {LONGEST} bytes can be taken")
    return found


def rows(tag, component, status=None):
    """The rows in which a component comes, and how its end is answered: 9000 where no other status word is given."""
    lines = [f"80B2{tag:02X}00"]
    if component:
        lines.append(f"80B40000 {len(component):02X} {component.hex().upper()}")
    return lines + ["80BC0000" + (f" = {status}" if status else "")]


def write(tool, doc, head, rows_of, words):
    """Prints a head and the rows of each file that the words name; the exit status."""
    if words in (["--help"], ["-h"]):
        print(doc.strip())
        return 0
    if not words or any(word.startswith("-") for word in words):
        print(f"{tool}: {'no .load file is named' if not words else 'there are no options'}; --help says more", file=sys.stderr)
        return 2
    try:
        texts = [(path, rows_of(path)) for path in words]
    except Unusable as why:
        print(f"{tool}: {why}", file=sys.stderr)
        return 1
    print(head)
    for path, lines in texts:
        print(f"\n# {path.rpartition('/')[2]}")
        print("\n".join(lines))
    return 0
