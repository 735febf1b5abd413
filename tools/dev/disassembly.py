"""The listing of a package's components, from which `assembly` makes the same bytes."""
from converter.assembly import (
    ARRAYS, Assembler, EXTERNAL, KINDS, NOWHERE, OF_REFERENCES, OPCODES, PACKAGES, STOP, components_of, is_branch, kinds_of)
from converter.class_file import Bytes
from converter.components import NAMES
from converter.refusal import Refusal

HEADER, DIRECTORY, APPLET, IMPORT, CONSTANT_POOL, CLASSES, METHOD, STATIC_FIELDS, _, EXPORT = NAMES
WHOLE = {HEADER, DIRECTORY, IMPORT, CONSTANT_POOL, CLASSES, METHOD, STATIC_FIELDS}
ARRAY_NAMES = {number: f"{name}[]" for name, number in ARRAYS.items()}


def aid_and_version(source):
    minor, major = source.take(2)
    return source.take(source.unsigned(1)).hex().upper(), f"{major}.{minor}"


class Listing:
    """The lines of a listing."""

    def __init__(self, contents):
        self.infos = {tag: content[3:] for tag, content in contents.items()}
        self.lines = []
        self.header()
        self.read_classes()
        self.read_pool()
        self.read_applets()
        self.imported_and_pool()
        self.lines += self.record_lines
        self.method_lines()
        self.static_lines()
        self.export_lines()

    def header(self):
        source = Bytes(self.infos[HEADER])
        source.take(4)
        self.minor, _, flags = source.take(3)
        aid, version = aid_and_version(source)
        if self.minor > 1:
            self.lines.append(f"format 2.{self.minor} {source.take(source.unsigned(1)).hex().upper()}".rstrip())
        self.lines.append(f"package {aid} {version} {flags:X}")

    # What names what

    def class_name(self, high, low):
        """The name of a class by the two bytes of its reference."""
        if not high & EXTERNAL:
            place = high << 8 | low
            return self.names.get(place, f"%{place}")
        if high << 8 | low == NOWHERE:
            return "none"
        named = PACKAGES.get(self.imported(high), {}).get(low)
        return named[0] if named else f"{high & ~EXTERNAL}:{low}"

    def imported(self, high):
        imports = self.imports
        return bytes.fromhex(imports[high & ~EXTERNAL][0]) if high & ~EXTERNAL < len(imports) else None

    def method(self, offset):
        if offset == NOWHERE:
            return "-"
        self.starts.add(offset)
        return f"method_{offset}"

    def read_classes(self):
        source = Bytes(self.infos[IMPORT])
        self.imports = [aid_and_version(source) for _ in range(source.unsigned(1))]
        self.starts, self.names, self.record_lines = set(), {}, []
        info = self.infos[CLASSES]
        places = []
        source = Bytes(info)
        if self.minor > 1:
            source.take(2)
        while not source.is_at_end():
            places.append(source.at)
            first = source.unsigned(1)
            self.names[places[-1]] = f"{'interface' if first & 0x80 else 'class'}_{places[-1]}"
            if first & 0x80:
                source.take(2 * (first & 15))
                continue
            source.take(5)
            _, public, _, package = source.take(4)
            source.take(2 * (public + package))
            for _ in range(first & 15):
                source.take(2)
                source.take(source.unsigned(1))
        for place in places:
            self.record(Bytes(info[place:]), place)

    def record(self, source, place):
        first = source.unsigned(1)
        flags, count = first >> 4, first & 15
        if first & 0x80:
            above = [self.class_name(*source.take(2)) for _ in range(count)]
            self.record_lines.append(" ".join(["interface", self.names[place], f"{flags:X}", *above]))
            return
        above = self.class_name(*source.take(2))
        numbers = " ".join(map(str, source.take(3)))
        self.record_lines.append(f"record {self.names[place]} {flags:X} {above} {numbers}")
        tables = [(word, *source.take(2)) for word in ("public_table", "package_table")]
        for word, base, length in tables:
            labels = [self.method(source.unsigned(2)) for _ in range(length)]
            self.record_lines.append(" ".join([word, str(base), *labels]))
        for _ in range(count):
            name = self.class_name(*source.take(2))
            self.record_lines.append(" ".join(["implements", name, *map(str, source.take(source.unsigned(1)))]))

    def read_pool(self):
        source = Bytes(self.infos[CONSTANT_POOL])
        self.pool = [self.entry(*source.take(4)) for _ in range(source.unsigned(2))]

    def entry(self, tag, high, low, last):
        kind = KINDS[tag]
        if kind == "class":
            return kind, self.class_name(high, low)
        if kind.startswith("static") and not high & EXTERNAL:
            place = low << 8 | last
            return kind, self.method(place) if kind == "static" else str(place)
        named = PACKAGES.get(self.imported(high), {}).get(low) if high & EXTERNAL else None
        kinds = {"static": ("static",), "virtual": ("virtual", "interface"), "super": ("virtual",)}.get(kind, ())
        names = [named[1][each, last] for each in kinds if named and (each, last) in named[1]]
        return kind, f"{self.class_name(high, low)}.{names[0] if names else last}"

    def read_applets(self):
        self.applets = []
        if APPLET in self.infos:
            source = Bytes(self.infos[APPLET])
            for _ in range(source.unsigned(1)):
                aid = source.take(source.unsigned(1)).hex().upper()
                self.applets.append((aid, self.method(source.unsigned(2))))
        if EXPORT in self.infos:
            self.exports = []
            source = Bytes(self.infos[EXPORT])
            for _ in range(source.unsigned(1)):
                place, fields, methods = source.unsigned(2), source.unsigned(1), source.unsigned(1)
                fields = [str(source.unsigned(2)) for _ in range(fields)]
                self.exports.append((self.names[place], fields, [self.method(source.unsigned(2)) for _ in range(methods)]))

    def imported_and_pool(self):
        self.lines += [f"applet {aid} {label}" for aid, label in self.applets]
        self.lines += [f"import {aid} {version}" for aid, version in self.imports]
        self.lines += [f"{kind} {text}  # {number}" for number, (kind, text) in enumerate(self.pool)]

    # Methods

    def named(self, mnemonic, index):
        """An entry of the constant pool as an instruction names it."""
        if index < len(self.pool):
            kind, text = self.pool[index]
            if kind in kinds_of(mnemonic):
                first = [(each, text) for each in kinds_of(mnemonic) if (each, text) in self.pool][0]
                if self.pool.index(first) == index:
                    return text
        return f"@{index}"

    def method_lines(self):
        info = self.infos[METHOD]
        source = Bytes(info)
        handlers = [[source.unsigned(2) for _ in range(4)] for _ in range(source.unsigned(1))]
        methods, self.targets = [], {place for start, length, at, _ in handlers for place in (start, start + (length & ~STOP), at)}
        self.starts.add(source.at)
        while not source.is_at_end():
            methods.append(self.decode(source, min([each for each in self.starts if each > source.at], default=len(info))))
        self.known = {at for _, _, rows in methods for at, _, _ in rows} | {len(info)}
        if any(target not in self.known | self.starts for target in self.targets):
            raise Refusal("a handler is at no instruction")
        for start, length, at, index in handlers:
            caught = self.named("new", index) if index else "any"
            last = " last" if length & STOP else ""
            places = [self.place_name(each) for each in (start, start + (length & ~STOP), at)]
            self.lines.append(f"handler {' '.join(places)} {caught}{last}")
        for start, head, rows in methods:
            self.lines.append(f"method method_{start} {head}")
            for at, mnemonic, operands in rows:
                if at in self.targets:
                    self.lines.append(f"at_{at}:")
                self.lines.append(" ".join(["   ", mnemonic, *self.texts(at, mnemonic, operands)]))
        if len(info) in self.targets:
            self.lines.append(f"at_{len(info)}:")

    def place_name(self, place):
        return f"at_{place}" if place in self.known else f"method_{place}"

    def decode(self, source, end):
        """A method: where it begins, its head, and of each instruction the place, the mnemonic and the operands."""
        start, first = source.at, source.unsigned(1)
        if first & 0x80:
            stack, arguments, local = source.take(3)
        else:
            stack, (arguments, local) = first & 15, divmod(source.unsigned(1), 16)
        head = f"{stack} {arguments} {local}{' extended' if first & 0x80 else ''}{' abstract' if first & 0x40 else ''}"
        rows = []
        while source.at < end:
            at = source.at
            mnemonic, form = OPCODES.get(source.unsigned(1), ("bytes", None))
            try:
                rows.append((at, mnemonic, self.operands(source, at, mnemonic, form)))
            except (Refusal, IndexError, KeyError):
                source.at = end + 1
            if source.at > end:
                source.at = end
                rows = [row for row in rows if row[0] < at] + [(at, "bytes", [self.infos[METHOD][at:end].hex().upper()])]
        return start, head, rows

    def operands(self, source, at, mnemonic, form):
        if form is None:
            return [f"{self.infos[METHOD][at]:02X}"]
        if form == "table":
            default, low, high = (source.signed(2) for _ in range(3))
            jumps = [source.signed(2) for _ in range(low, high + 1)]
            self.targets |= {at + each for each in [default, *jumps]}
            return [default, low, jumps]
        if form == "lookup":
            default, count = source.signed(2), source.unsigned(2)
            pairs = [(source.signed(2), source.signed(2)) for _ in range(count)]
            self.targets |= {at + each for each in [default, *(jump for _, jump in pairs)]}
            return [default, pairs]
        values = [(source.signed if letter in "bs" else source.unsigned)(1 if letter in "Bb" else 2) for letter in form]
        if is_branch(mnemonic):
            self.targets.add(at + values[0])
        return values

    def texts(self, at, mnemonic, operands):
        """The operands of an instruction as the listing tells them."""
        def place(jump):
            return self.place_name(at + jump) if at + jump in self.known | self.starts else f"{jump:+}"

        if mnemonic == "stableswitch":
            default, low, jumps = operands
            return [str(low), *map(place, jumps), "else", place(default)]
        if mnemonic == "slookupswitch":
            default, pairs = operands
            return [*(f"{value}:{place(jump)}" for value, jump in pairs), "else", place(default)]
        if is_branch(mnemonic):
            return [place(operands[0])]
        if mnemonic in ("checkcast", "instanceof"):
            kind, index = operands
            return [ARRAY_NAMES.get(kind) or self.named(mnemonic, index) + ("[]" if kind == OF_REFERENCES else "")]
        if mnemonic == "newarray":
            return [ARRAY_NAMES[operands[0]][:-2]]
        if mnemonic in ("dup_x", "swap_x"):
            return [str(half) for half in divmod(operands[0], 16)]
        if mnemonic == "invokeinterface":
            return [str(operands[0]), self.named(mnemonic, operands[1]), str(operands[2])]
        if kinds_of(mnemonic):
            return [self.named(mnemonic, operands[0])]
        return list(map(str, operands))

    # The others

    def static_lines(self):
        source = Bytes(self.infos[STATIC_FIELDS])
        size, references, count = (source.unsigned(2) for _ in range(3))
        arrays = [(source.unsigned(1), source.take(source.unsigned(2))) for _ in range(count)]
        zeros = source.unsigned(2)
        self.lines.append(f"statics {size} {references} {zeros} {source.take(source.unsigned(2)).hex().upper()}".rstrip())
        self.lines += [f"array {kind} {content.hex().upper()}".rstrip() for kind, content in arrays]

    def export_lines(self):
        for name, fields, methods in self.exports if EXPORT in self.infos else []:
            self.lines += [f"export {name}", " ".join(["fields", *fields]), " ".join(["methods", *methods])]


def listing_of(text):
    """The listing of the package that the lines of a load bring."""
    contents = components_of(text)
    if not WHOLE <= set(contents) or text.count("80B00000") != 1:
        raise Refusal("it loads no whole package, or more than one")
    lines = Listing(contents).lines
    made = Assembler("".join(f"{line}\n" for line in lines)).contents
    lines += [f"bytes {tag} {content.hex().upper()}" for tag, content in sorted(contents.items()) if made.get(tag) != content]
    return lines
