"""Listings of packages: components from a listing, and a listing of components, byte for byte.

A listing is a text; '#' begins a comment. It has these lines, in the order of the components, each with its word at the start:

  format 2.1                        (or 2.2, and then the package's name in hexadecimal)
  package AID MAJOR.MINOR FLAGS     the flags of the Header in hexadecimal
  applet AID LABEL                  the install method
  import AID MAJOR.MINOR
  class NAME, field CLASS.TOKEN, virtual CLASS.METHOD, super CLASS.METHOD, static LABEL or CLASS.METHOD, static_field OFFSET or
      CLASS.TOKEN                   an entry of the constant pool
  interface NAME FLAGS ABOVE..
  record NAME FLAGS ABOVE CELLS FIRST_REFERENCE REFERENCES
  public_table BASE LABEL.., package_table BASE LABEL..        of the class record above; '-' is FFFF
  implements INTERFACE TOKEN..
  handler FROM TO AT CLASS          'any' is any class; 'last' after it is the stop bit
  method LABEL STACK ARGUMENTS LOCALS            'extended' or 'abstract' after it
  LABEL:                            in a method, before an instruction
      MNEMONIC OPERANDS             indented: an instruction
  statics SIZE REFERENCES ZEROS VALUES; array TYPE BYTES
  export NAME; fields OFFSET..; methods LABEL..
  bytes TAG BYTES                   a component as it is, in place of the one that the other lines would make
  only TAG..                        the components that are loaded, where the others are left out

A class is a name of a record or an interface, of the platform table, or IMPORT:TOKEN; a method of the platform has its name there. A place
in the constant pool is named by the entry after its kind, or as @NUMBER.
"""
import os
import re

from .components import NAMES, SIZES_IN_DIRECTORY
from .refusal import Refusal

TOP = os.path.dirname(os.path.dirname(os.path.dirname(os.path.realpath(__file__))))
INSTRUCTIONS = os.path.join(TOP, "crates/jc_frames/specs/Table.antt")
PLATFORM = os.path.join(TOP, "examples/extended.table")  # has the numbers of the other example table, and more names
WIDER = 0x38  # from a conditional branch to its form with two bytes
SIZES = {"Bare": "", "U1": "B", "S1": "b", "S2": "s", "U2": "S", "U1S1": "Bb", "U1S2": "Bs", "U1U2U1": "BSB", "Listed": "B",
         "ListedU2": "BS", "Halves": "B", "TableSwitch": "table", "LookupSwitch": "lookup"}
KINDS = {1: "class", 2: "field", 3: "virtual", 4: "super", 5: "static_field", 6: "static"}
TAGS = {kind: tag for tag, kind in KINDS.items()}
ARRAYS = {"boolean": 10, "byte": 11, "short": 12}
OF_REFERENCES = 14
EXTERNAL, NOWHERE, STOP = 0x80, 0xFFFF, 0x8000


def opcodes():
    """The instruction table: of each opcode its mnemonic and its operands."""
    found = {}
    with open(INSTRUCTIONS, encoding="utf-8") as file:
        for code, form, name in re.findall(r"\(0x(\w\w), (\w+).*--\s*(\w+)", file.read()):
            if form in SIZES:
                found[int(code, 16)] = name, SIZES[form]
            else:
                found[int(code, 16)] = name, "b"
                found[int(code, 16) + WIDER] = name + "_w", "s"
    return found


def platform():
    """Classes and methods of the platform table: by a package's AID, the names by tokens."""
    packages, at = {}, None
    with open(PLATFORM, encoding="ascii") as file:
        for kind, *rest in (line.split() for line in file):
            if kind == "package":
                classes = packages[bytes.fromhex(rest[0])] = {}
            elif kind in ("extended", "random"):
                pass
            elif kind == "class":
                at = classes[int(rest[0])] = rest[1], {}
            else:
                at[1][kind, int(rest[0])] = rest[1]
    return packages


OPCODES = opcodes()
MNEMONICS = {name: (code, form) for code, (name, form) in OPCODES.items()}
PACKAGES = platform()


def kinds_of(mnemonic):
    """The kinds of entries of the constant pool that an instruction names."""
    if mnemonic.startswith(("getfield", "putfield")):
        return ("field",)
    if mnemonic.startswith(("getstatic", "putstatic")):
        return ("static_field",)
    return {"invokevirtual": ("virtual",), "invokespecial": ("static", "super"), "invokestatic": ("static",), "invokeinterface": ("class",),
            "new": ("class",), "anewarray": ("class",), "checkcast": ("class",), "instanceof": ("class",)}.get(mnemonic, ())


def is_branch(mnemonic):
    return mnemonic.startswith(("if", "goto", "jsr"))


def two(value):
    return (value & 0xFFFF).to_bytes(2, "big")


def versioned(aid, version):
    """An AID after a version and its length, as the components have it."""
    major, minor = map(int, version.split("."))
    aid = bytes.fromhex(aid)
    return bytes([minor, major, len(aid)]) + aid


def external(imports, text):
    """The two bytes of a class of another package."""
    number = re.fullmatch(r"(\d+):(\d+)", text)
    if number:
        return bytes([EXTERNAL | int(number[1]), int(number[2])])
    for place, imported in enumerate(imports):
        for token, (name, _) in PACKAGES.get(imported[3:], {}).items():
            if name == text:
                return bytes([EXTERNAL | place, token])
    raise Refusal(f"there is no class {text}")


def token_of(imports, reference, text, kinds):
    """The token of a method of another class, by its name in the platform table or as a number."""
    if text.isdigit():
        return int(text)
    aid = imports[reference[0] & ~EXTERNAL][3:] if reference[0] & EXTERNAL else None
    for (kind, token), name in PACKAGES.get(aid, {}).get(reference[1], ("", {}))[1].items():
        if name == text and kind in kinds:
            return token
    raise Refusal(f"there is no method {text}")


class Words(list):
    """The words of a line of a listing."""

    def __init__(self, number, text):
        super().__init__(text.split())
        self.number, self.is_instruction = number, text[0] == " "


class Assembler:
    """The components of a listing, by their tags."""

    def __init__(self, text):
        self.minor, self.name, self.imports, self.applets, self.entries, self.records = 1, b"", [], [], [], []
        self.handlers, self.methods, self.statics, self.arrays, self.exports, self.given, self.only = [], [], None, [], [], {}, ()
        self.package = self.at = None
        lines = [(number, line.partition("#")[0]) for number, line in enumerate(text.splitlines(), 1)]
        try:
            for words in self.each(Words(number, line) for number, line in lines if line.strip()):
                self.read(words)
            self.at = None
            if self.package is None or self.statics is None:
                raise Refusal("a listing has a line 'package' and a line 'statics'")
            self.place_methods()
            self.place_records()
            self.contents = self.components()
        except (Refusal, ValueError, IndexError, KeyError, TypeError, OverflowError) as error:
            where = f"line {self.at.number}: {' '.join(self.at)}: " if self.at else ""
            raise Refusal(f"{where}{error if isinstance(error, Refusal) else 'bad operands'}") from None

    def each(self, lines):
        """Lines, of which the one at hand is reported where it is refused."""
        for words in lines:
            self.at = words
            yield words

    def read(self, words):
        word, *rest = words
        if words.is_instruction or word.endswith(":"):
            if not self.methods:
                raise Refusal("it stands in no method")
            self.methods[-1][1].append(words)
        elif word in TAGS:
            self.entries.append(words)
        elif word in ("record", "interface"):
            self.records.append((words, []))
        elif word in ("public_table", "package_table", "implements"):
            self.records[-1][1].append(words)
        elif word == "method":
            self.methods.append((words, []))
        elif word == "handler":
            self.handlers.append(words)
        elif word == "statics":
            self.statics = [int(each) for each in rest[:3]] + [bytes.fromhex("".join(rest[3:]))]
        elif word == "array":
            self.arrays.append((int(rest[0]), bytes.fromhex("".join(rest[1:]))))
        elif word == "export":
            self.exports.append([words, [], []])
        elif word in ("fields", "methods"):
            self.exports[-1][1 if word == "fields" else 2] = rest
        elif word == "import":
            self.imports.append(versioned(*rest))
        elif word == "package":
            self.package, self.flags = versioned(*rest[:2]), int(rest[2], 16)
        elif word == "format":
            self.minor, self.name = int(rest[0].removeprefix("2.")), bytes.fromhex("".join(rest[1:]))
        elif word == "applet":
            self.applets.append(words)
        elif word == "bytes":
            self.given[int(rest[0])] = bytes.fromhex("".join(rest[1:]))
        elif word == "only":
            self.only = list(map(int, rest))
        else:
            raise Refusal("no line of a listing")

    # Places

    def place_methods(self):
        """The labels of methods and instructions, by their offsets."""
        self.labels, at = {}, 1 + 8 * len(self.handlers)
        for head, lines in self.methods:
            self.at = head
            self.labels[head[1]] = at
            at += len(self.head(head))
            for line in self.each(lines):
                if line.is_instruction:
                    at += self.size(line)
                else:
                    self.labels[line[0][:-1]] = at

    def size(self, line):
        mnemonic, *operands = line
        if mnemonic == "bytes":
            return len(bytes.fromhex("".join(operands)))
        if mnemonic not in MNEMONICS:
            raise Refusal(f"there is no instruction {mnemonic}")
        form = MNEMONICS[mnemonic][1]
        if form == "table":
            return 7 + 2 * (len(operands) - 3)
        if form == "lookup":
            return 5 + 4 * (len(operands) - 2)
        return 1 + sum(1 if letter in "Bb" else 2 for letter in form)

    def head(self, words):
        stack, arguments, local = map(int, words[2:5])
        flags = (8 if "extended" in words else 0) | (4 if "abstract" in words else 0)
        if flags & 8:
            return bytes([flags << 4, stack, arguments, local])
        return bytes([flags << 4 | stack, arguments << 4 | local])

    def place_records(self):
        self.places, at = {}, 0 if self.minor == 1 else 2
        for (kind, name, _, *rest), below in self.records:
            self.places[name] = at
            at += 1 + 2 * len(rest) if kind == "interface" else 10
            for word, _, *members in below:
                at += len(members) + 3 if word == "implements" else 2 * len(members)

    # References

    def label(self, text):
        if text == "-":
            return NOWHERE
        if text not in self.labels:
            raise Refusal(f"there is no label {text}")
        return self.labels[text]

    def reference(self, text):
        if text == "none":
            return two(NOWHERE)
        if text.startswith("%"):
            return two(int(text[1:]))
        return two(self.places[text]) if text in self.places else external(self.imports, text)

    def entry(self, kind, text, more=None):
        owner, dot, member = text.partition(".")
        if kind == "class":
            return bytes([TAGS[kind]]) + self.reference(text) + b"\0"
        if kind == "static" and not dot:
            return bytes([TAGS[kind], 0]) + two(self.label(text))
        if kind == "static_field" and not dot:
            return bytes([TAGS[kind], 0]) + two(int(text))
        reference = self.reference(owner)
        kinds = {"static": ("static",), "virtual": ("virtual", "interface"), "super": ("virtual",)}.get(kind, ())
        return bytes([TAGS[kind]]) + reference + bytes([token_of(self.imports, reference, member, kinds)])

    def index(self, mnemonic, text):
        if text.startswith("@"):
            return int(text[1:])
        for kind in kinds_of(mnemonic):
            if [kind, text] in self.entries:
                return self.entries.index([kind, text])
        raise Refusal(f"{mnemonic} {text}: there is no such entry of the constant pool")

    # Components

    def instruction(self, at, line):
        mnemonic, *operands = line
        if mnemonic == "bytes":
            return bytes.fromhex("".join(operands))
        code, form = MNEMONICS[mnemonic]
        if form == "table":
            low, *targets, _, default = operands
            high = int(low) + len(targets) - 1
            return bytes([code]) + b"".join(map(two, [self.jump(at, default), int(low), high, *(self.jump(at, each) for each in targets)]))
        if form == "lookup":
            *pairs, _, default = operands
            content = bytes([code]) + two(self.jump(at, default)) + two(len(pairs))
            for pair in pairs:
                value, _, target = pair.partition(":")
                content += two(int(value)) + two(self.jump(at, target))
            return content
        values = self.values(at, mnemonic, operands)
        content = bytes([code])
        for letter, value in zip(form, values, strict=True):
            size = 1 if letter in "Bb" else 2
            content += (value & (1 << 8 * size) - 1).to_bytes(size, "big")
        return content

    def jump(self, at, text):
        return int(text) if text[0] in "+-" else self.label(text) - at

    def values(self, at, mnemonic, operands):
        if is_branch(mnemonic):
            return [self.jump(at, operands[0])]
        if mnemonic in ("checkcast", "instanceof"):
            text = operands[0]
            if text.removesuffix("[]") in ARRAYS:
                return [ARRAYS[text[:-2]], 0]
            return [OF_REFERENCES if text.endswith("[]") else 0, self.index(mnemonic, text.removesuffix("[]"))]
        if mnemonic == "newarray":
            return [ARRAYS[operands[0]]]
        if mnemonic in ("dup_x", "swap_x"):
            return [int(operands[0]) << 4 | int(operands[1])]
        if mnemonic == "invokeinterface":
            return [int(operands[0]), self.index(mnemonic, operands[1]), int(operands[2])]
        if kinds_of(mnemonic):
            return [self.index(mnemonic, operands[0])]
        return list(map(int, operands))

    def method_component(self):
        content = bytes([len(self.handlers)])
        for _, start, end, at, caught, *last in self.each(self.handlers):
            length = self.label(end) - self.label(start)
            index = 0 if caught == "any" else self.index("new", caught)
            content += two(self.label(start)) + two(length | (STOP if last else 0)) + two(self.label(at)) + two(index)
        for head, lines in self.methods:
            content += self.head(head)
            for line in self.each(lines):
                if line.is_instruction:
                    content += self.instruction(len(content), line)
        return content

    def class_component(self):
        content = b"" if self.minor == 1 else two(0)
        for words, below in self.records:
            self.at = words
            kind, _, flags, *rest = words
            if kind == "interface":
                content += bytes([int(flags, 16) << 4 | len(rest)]) + b"".join(map(self.reference, rest))
                continue
            above, *numbers = rest
            tables = [line for line in below if line[0] != "implements"]
            implemented = below[len(tables):]
            content += bytes([int(flags, 16) << 4 | len(implemented)]) + self.reference(above) + bytes(map(int, numbers))
            content += b"".join(bytes([int(base), len(labels)]) for _, base, *labels in tables)
            content += b"".join(two(self.label(each)) for _, _, *labels in self.each(tables) for each in labels)
            for _, name, *tokens in self.each(implemented):
                content += self.reference(name) + bytes([len(tokens), *map(int, tokens)])
        return content

    def header(self):
        content = bytes.fromhex("DECAFFED") + bytes([self.minor, 2, self.flags]) + self.package
        return content if self.minor == 1 else content + bytes([len(self.name)]) + self.name

    def directory(self, infos):
        count = SIZES_IN_DIRECTORY[self.minor]
        sizes = {tag: len(info) for tag, info in infos.items()} | {2: 2 * count + 9}
        arrays = sum(len(array) for _, array in self.arrays)
        content = b"".join(two(sizes.get(tag, 0)) for tag in range(1, count + 1))
        content += two(self.statics[0]) + two(len(self.arrays)) + two(arrays)
        return content + bytes([len(self.imports), len(self.applets), 0])

    def components(self):
        infos = {4: bytes([len(self.imports)]) + b"".join(self.imports)}
        infos[5] = two(len(self.entries)) + b"".join(self.entry(*words) for words in self.each(self.entries))
        infos[6], infos[7] = self.class_component(), self.method_component()
        size, references, zeros, values = self.statics
        infos[8] = two(size) + two(references) + two(len(self.arrays))
        infos[8] += b"".join(bytes([kind]) + two(len(array)) + array for kind, array in self.arrays)
        infos[8] += two(zeros) + two(len(values)) + values
        if self.applets:
            infos[3] = bytes([len(self.applets)])
            for _, aid, label in self.each(self.applets):
                infos[3] += bytes([len(aid) // 2]) + bytes.fromhex(aid) + two(self.label(label))
        if self.exports:
            infos[10] = bytes([len(self.exports)])
            for words, fields, methods in self.exports:
                self.at = words
                infos[10] += two(self.places[words[1]]) + bytes([len(fields), len(methods)])
                infos[10] += b"".join(two(int(each)) for each in fields) + b"".join(two(self.label(each)) for each in methods)
        infos[1] = self.header()
        infos[2] = self.directory(infos)
        made = {tag: bytes([tag]) + two(len(info)) + info for tag, info in sorted(infos.items())}
        return {tag: content for tag, content in {**made, **self.given}.items() if not self.only or tag in self.only}


def lines_of(contents):
    """The lines that load components."""
    lines = ["80B00000"]
    for tag in sorted(contents):
        lines.append(f"80B2{tag:02X}00 # {NAMES[tag]}")
        for at in range(0, len(contents[tag]), 255):
            part = contents[tag][at:at + 255]
            lines.append(f"80B40000 {len(part):02X} {part.hex().upper()}")
        lines.append("80BC0000")
    return lines


def components_of(text):
    """The components that the lines of a load bring."""
    contents, tag = {}, None
    for line in text.splitlines():
        line = line.partition("#")[0].replace(" ", "")
        if line.startswith("80B2"):
            tag = int(line[4:6], 16)
            contents[tag] = b""
        elif line.startswith("80B4"):
            contents[tag] += bytes.fromhex(line[10:])
    return contents
