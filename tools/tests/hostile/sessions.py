"""Random sessions on cards: the same for the same seed.

A session is a list of lines of a script. It loads packages of the rows, whole or made bad, installs and selects their applets, tells them
commands, runs code, arms the fuse and resets, and tells what has no form.
"""
import os
import random

from converter.assembly import OPCODES, Assembler, two

from .loads import install, load, select
from .program import TOP

PACKAGES = os.path.join(TOP, "tools/dev/packages")
METHOD, DIRECTORY, HEADER, APPLET = 7, 2, 1, 3
MANAGER = "F04A434D4752"
EDGES = (0, 1, 2, 0x7F, 0x80, 0xFE, 0xFF)


class Package:
    """A package of the rows: its components, its applets, and where its instructions stand."""

    def __init__(self, name):
        with open(os.path.join(PACKAGES, f"{name}.listing"), encoding="ascii") as file:
            listing = Assembler(file.read())
        self.name, self.contents = name, listing.contents
        self.applets = [aid for _, aid, _ in listing.applets]
        self.entries = len(listing.entries)
        self.instructions = []
        for head, lines in listing.methods:
            at = listing.labels[head[1]] + len(listing.head(head))
            for line in lines:
                if line.is_instruction:
                    size = listing.size(line)
                    if line[0] != "bytes":
                        self.instructions.append((at, size))
                    at += size


def packages():
    """The packages of the rows that are whole, by their names."""
    names = sorted(name.removesuffix(".listing") for name in os.listdir(PACKAGES) if name.endswith(".listing"))
    found = [Package(name) for name in names]
    return {package.name: package for package in found if HEADER in package.contents and DIRECTORY in package.contents}


def sizes():
    """The opcodes by the sizes of their instructions; those of a varying size are left out."""
    found = {}
    for code, (_, form) in OPCODES.items():
        if form not in ("table", "lookup"):
            found.setdefault(1 + sum(1 if letter in "Bb" else 2 for letter in form), []).append(code)
    return found


OF_SIZE = sizes()
STANDING_ON = {"client": "server", "firewall_client": "firewall_server", "pin_client": "pin_server", "faults_client": "faults"}


class Session:
    """Makes the lines of a session from a seed."""

    def __init__(self, seed, known):
        self.chance, self.known = random.Random(seed), known
        self.applets = [MANAGER]

    def lines(self, count):
        """This number of lines at least."""
        lines = self.packages()
        while len(lines) < count:
            lines += self.chance.choices(self.PARTS, self.WEIGHTS)[0](self)
        return lines

    def byte(self):
        chance = self.chance
        return chance.choice(EDGES) if chance.random() < 0.4 else chance.randrange(256)

    def small(self):
        return self.chance.randrange(16) if self.chance.random() < 0.8 else self.byte()

    # Packages

    def packages(self):
        """The lines that load a package, after the one that it stands on, and often installs and selects its applet."""
        name = self.chance.choice([name for name, package in self.known.items() if package.applets or self.chance.random() < 0.3])
        names = [STANDING_ON[name], name] if name in STANDING_ON else ["harness", name] if self.chance.random() < 0.1 else [name]
        lines = self.managed()
        for each in names:
            package = self.known[each]
            contents = package.contents if self.chance.random() < 0.4 else self.made_bad(package)
            lines += self.reordered(load(contents))
            self.applets += package.applets
            lines += [install(aid, self.data(3)) for aid in package.applets]
        return lines + self.selection()

    def made_bad(self, package):
        """Its components with some changes."""
        contents = dict(package.contents)
        for _ in range(self.chance.choice((1, 1, 2, 3, 8))):
            kind = self.chance.random()
            if kind < 0.8 and package.instructions and METHOD in contents:
                contents[METHOD] = self.other_instruction(package, contents[METHOD])
            elif kind < 0.95:
                tag = self.chance.choice(list(contents))
                contents[tag] = self.other_byte(contents[tag])
            else:
                tag = self.chance.choice(list(contents))
                contents = self.other_size(contents, tag)
        return contents

    def other_byte(self, component):
        if not component:
            return component
        at = self.chance.randrange(len(component))
        return component[:at] + bytes([self.byte()]) + component[at + 1:]

    def other_instruction(self, package, component):
        """Another instruction of the same size in the place of one, or another operand."""
        at, size = self.chance.choice(package.instructions)
        place = 3 + at
        if place + size > len(component):
            return component
        code = component[place] if self.chance.random() < 0.4 else self.chance.choice(OF_SIZE.get(size, [component[place]]))
        operands = component[place + 1:place + size]
        if operands and self.chance.random() < 0.6:
            operands = bytes(self.byte() for _ in operands)
            if len(operands) > 1 and self.chance.random() < 0.7:
                operands = operands[:-2] + two(self.chance.randrange(package.entries + 1))
        return component[:place] + bytes([code]) + operands + component[place + size:]

    def other_size(self, contents, tag):
        """A component with some bytes less or more, and mostly sizes that say so."""
        info = contents[tag][3:]
        at = self.chance.randrange(len(info) + 1)
        info = info[:at] + bytes(self.byte() for _ in range(self.chance.randrange(4))) + info[at + self.chance.randrange(4):]
        changed = {**contents, tag: bytes([tag]) + two(len(info)) + info}
        directory = changed[DIRECTORY]
        place = 3 + 2 * (tag - 1)
        if self.chance.random() < 0.8 and place + 2 <= len(directory):
            changed[DIRECTORY] = directory[:place] + two(len(info)) + directory[place + 2:]
        return changed

    def reordered(self, lines):
        """Lines of a load, now and then with one left out, twice, elsewhere, or with a reset."""
        if self.chance.random() < 0.85:
            return lines
        at, to = self.chance.randrange(len(lines)), self.chance.randrange(len(lines))
        return self.chance.choice((lines[:at] + lines[at + 1:], lines[:at] + lines[at:at + 1] * 2 + lines[at + 1:],
                                   lines[:at] + [lines[to]] + lines[at:], lines[:at] + ["reset"] + lines[at:]))

    # Commands

    def data(self, most):
        return bytes(self.small() for _ in range(self.chance.randrange(most + 1))).hex().upper()

    def managed(self):
        """Mostly, the manager is selected."""
        return [select(MANAGER)] if self.chance.random() < 0.9 else []

    def installation(self):
        return [*self.managed(), install(self.applet(), self.data(6)), *self.selection()]

    def applet(self):
        """The AID of an applet: mostly of a package that came last."""
        return self.chance.choice(self.applets[-2:] if self.chance.random() < 0.7 else self.applets)

    def selection(self):
        return [select(self.applet())]

    def to_applets(self):
        """Commands that an applet may know."""
        lines = self.selection() if self.chance.random() < 0.5 else []
        for _ in range(self.chance.randrange(4, 24)):
            header = f"{self.chance.choice((0, 0, 0, 0x80)):02X}{self.small():02X}{self.small():02X}{self.small():02X}"
            kind = self.chance.random()
            if kind < 0.6:
                lines.append(header)
            elif kind < 0.8:
                aid = self.applet()
                lines.append(f"{header}{len(aid) // 2:02X}{aid}")
            else:
                data = self.data(24)
                lines.append(f"{header}{len(data) // 2:02X}{data}{self.chance.choice(('', '00', '10'))}")
        return lines

    def code(self):
        """Code that the manager runs."""
        content = b""
        while len(content) < 200 and self.chance.random() < 0.93:
            size = self.chance.choice((1, 1, 1, 2, 2, 3))
            content += bytes([self.chance.choice(OF_SIZE[size])]) + bytes(self.small() for _ in range(size - 1))
            if self.chance.random() < 0.4:
                content += bytes([self.chance.choice((0x01, 0x03, 0x04, 0x1C, 0x18, 0x3D))])
        content += bytes([self.chance.choice((0x78, 0x7A, 0x77, 0x00))])
        return [*self.managed(), f"8010{self.small():02X}{self.small():02X}{len(content):02X}{content.hex().upper()}", *self.selection()]

    def power(self):
        """The power is cut after some writes, and comes back."""
        lines = [f"stop {self.chance.choice((0, 1, 2, 3, 5, 8, 13, 40, 100, 300, self.chance.randrange(65536)))}"]
        lines += self.chance.choice((self.to_applets, self.packages, self.installation))()
        return [*lines, "reset", *self.selection()]

    def reset(self):
        return ["reset"]

    def noise(self):
        """Bytes of any kind, and what prints nothing."""
        length = self.chance.choice((0, 1, 3, 4, 5, 6, 20, 255, 260, 261, 262, 300))
        return [self.chance.choice((bytes(self.byte() for _ in range(length)).hex().upper() or " ", "", "# nothing", "00 a4 04 00"))]

    PARTS = (packages, installation, selection, to_applets, code, power, reset, noise)
    WEIGHTS = (6, 4, 10, 40, 6, 6, 2, 4)
