"""The components of a CAP file, read by the rules by which the card reads them."""
from .components import (
    APPLET, CLASSES, CONSTANT_POOL, DIRECTORY, EXPORT, EXTERNAL, FLAG_APPLET, FLAG_EXPORT, HEADER, IMPORT, LONGEST_AID, MAGIC, METHOD,
    OF_ANOTHER_PACKAGE, REFERENCE_LOCATION, SHORTEST_AID, SIZES_IN_DIRECTORY, STATIC_FIELDS)
from .components import NAMES as ALL_NAMES
from .package import CLASS, INSTANCE_FIELD, STATIC_FIELD, STATIC_METHOD, SUPER_METHOD, VIRTUAL_METHOD

NAMES = {tag: name for tag, name in ALL_NAMES.items() if tag != REFERENCE_LOCATION}  # of the components that are loaded
DESCRIPTOR, DEBUG = 11, 12
(TRUNCATED, TRAILING, BAD_MAGIC, BAD_VERSION, USES_INT, REMOTE, SIZES_DISAGREE, MISSING, _, BAD_OFFSET) = (
    f"{0x6400 + number:04X}" for number in range(1, 11))
FORMATS = " and ".join(f"2.{minor}" for minor in SIZES_IN_DIRECTORY)  # those that are read
FLAG_INT = 1
ALL_FLAGS = FLAG_INT | FLAG_EXPORT | FLAG_APPLET
MOST_BYTES = 65538  # of a component, with its tag and its size
MOST_CLASSES = 256
BYTES_OF_ELEMENTS = {2: 1, 3: 1, 4: 2}  # by the type of an initialised array
KINDS = {  # of entries of the constant pool
    CLASS: "class", INSTANCE_FIELD: "instance field", VIRTUAL_METHOD: "virtual method", SUPER_METHOD: "super method",
    STATIC_FIELD: "static field", STATIC_METHOD: "static method"}


class Fault(Exception):
    """Why a component is refused: the status word of the card, and what is wrong."""

    def __init__(self, word, text):
        super().__init__(text)
        self.word = word


class Source:
    """The bytes of a component's info, read one after the other. `at` counts from its first byte."""

    def __init__(self, content):
        self.content, self.at = content, 0

    def take(self, size):
        piece = self.content[self.at:self.at + size]
        if len(piece) < size:
            raise Fault(TRUNCATED, "it ends too early")
        self.at += size
        return piece

    def number(self, size):
        return int.from_bytes(self.take(size), "big")

    def numbers(self, count, size=2):
        return [self.number(size) for _ in range(count)]

    def aid(self):
        size = self.number(1)
        if not SHORTEST_AID <= size <= LONGEST_AID:
            raise Fault(BAD_OFFSET, f"an AID has {size} bytes")
        return self.take(size)

    def package(self):
        """A package's AID and its version, major and minor."""
        minor, major = self.numbers(2, 1)
        return self.aid(), (major, minor)

    def is_at_end(self):
        return self.at == len(self.content)

    def end(self):
        if not self.is_at_end():
            raise Fault(TRAILING, f"{len(self.content) - self.at} bytes stand behind its end")


def source_of(tag, content):
    """The info of a component with its tag and its size."""
    if len(content) > MOST_BYTES:
        raise Fault(TRAILING, f"it has more than {MOST_BYTES} bytes")
    if content[:1] != bytes([tag]):
        raise Fault(MISSING, f"its tag is {content[0]}, not {tag}" if content else "it is empty")
    if len(content) < 3:
        raise Fault(TRUNCATED, "it ends too early")
    size, info = int.from_bytes(content[1:3], "big"), content[3:]
    if len(info) < size:
        raise Fault(TRUNCATED, f"it has {len(info)} bytes behind its size, which says {size}")
    if size < len(info):
        raise Fault(TRAILING, f"it has {len(info)} bytes behind its size, which says {size}")
    return Source(info)


class Header:
    """What a package says of itself. A format that is not read, and int, are faults that do not end the reading."""

    def __init__(self, source, faults):
        magic = source.take(4)
        if magic != MAGIC:
            raise Fault(BAD_MAGIC, f"its magic number is {magic.hex().upper()}, not {MAGIC.hex().upper()}")
        self.format = self.read_format(source, faults)
        flags = source.number(1)
        if flags & FLAG_INT:
            faults.append(Fault(USES_INT, "the package uses int, which the card does not have"))
        elif flags > ALL_FLAGS:
            faults.append(Fault(BAD_OFFSET, f"the flags are {flags:02X}"))
        self.asked = {EXPORT: bool(flags & FLAG_EXPORT), APPLET: bool(flags & FLAG_APPLET)}
        self.aid, self.version = source.package()
        if self.format is not None:
            if self.format > 1:
                source.take(source.number(1))
            source.end()

    def asks(self, tag):
        """Whether the package has to have the component."""
        return self.asked.get(tag, True)

    def told(self):
        """The package's AID and its version, as in a dump of an image."""
        return "{} {}.{}".format(self.aid.hex().upper(), *self.version)

    @staticmethod
    def read_format(source, faults):
        """The minor version of the format, of which the major is 2; None for one that is not read."""
        minor = source.number(1)
        major = (source.content[source.at:source.at + 1] or b"\2")[0]
        is_read = major == 2 and minor in SIZES_IN_DIRECTORY
        if not is_read:
            faults.append(Fault(BAD_VERSION, f"CAP format {major}.{minor} is not read, only {FORMATS}"))
        source.take(1)
        return minor if is_read else None


class Directory:
    """The sizes and counts that a package says."""

    def __init__(self, source, minor):
        self.sizes = dict(enumerate(source.numbers(SIZES_IN_DIRECTORY[minor]), 1))
        self.image_size, self.arrays, self.array_bytes = source.numbers(3)
        self.imports, self.applets, customs = source.numbers(3, 1)
        for _ in range(customs):
            tag = source.number(1)
            if tag < 128:
                raise Fault(BAD_OFFSET, f"a custom component has the tag {tag}")
            source.take(2)
            source.aid()
        source.end()


def wrong_sizes(directory, sizes):
    """Which sizes a Directory tells otherwise than they are. That of a component that is not there is 0; one that is None is not known."""
    for tag, name in NAMES.items():
        said, size = directory.sizes[tag], sizes.get(tag, 0)
        if size is not None and said != size:
            yield f"Directory.cap says {said} for the size of {name}.cap, not {size}"


def read_applets(source):
    """The AIDs of the applets, and where their install methods begin."""
    applets = [(source.aid(), source.number(2)) for _ in range(source.number(1))]
    source.end()
    return applets


def read_imports(source):
    imports = [source.package() for _ in range(source.number(1))]
    source.end()
    return imports


class ClassRef:
    """A class by its offset in this package, or by the tokens of an imported package and of the class."""

    def __init__(self, high, low):
        self.is_external = bool(high & EXTERNAL)
        self.offset, self.package_token, self.class_token = high << 8 | low, high & ~EXTERNAL, low


class Entry:
    """An entry of the constant pool. A static member of this package has an offset in place of a class."""

    def __init__(self, source):
        self.tag = source.number(1)
        if self.tag not in KINDS:
            raise Fault(BAD_OFFSET, f"an entry has the tag {self.tag}")
        self.kind, self.offset = KINDS[self.tag], None
        high = source.number(1)
        is_own_static = self.tag in (STATIC_FIELD, STATIC_METHOD) and not high & EXTERNAL
        if is_own_static and high:
            raise Fault(BAD_OFFSET, f"an entry of a {self.kind} begins with {high}")
        low, self.token = source.take(2)
        self.class_ref = ClassRef(high, low)
        if is_own_static:
            self.offset, self.class_ref = low << 8 | self.token, None


def read_pool(source):
    pool = [Entry(source) for _ in range(source.number(2))]
    source.end()
    return pool


class Record:
    """A record of the Class component."""

    def __init__(self, source, earlier):
        self.offset = source.at
        flags, count = divmod(source.number(1), 16)
        if flags not in (0, 4, 8, 12):
            raise Fault(REMOTE if flags & 2 else BAD_OFFSET, f"the record at {self.offset} has the flags {flags}")
        self.is_interface = bool(flags & 8)
        self.public, self.package, self.declared_cells, self.superclass = (0, []), (0, []), 0, None
        if self.is_interface:
            self.interfaces = [(self.above(source, earlier), b"") for _ in range(count)]
            return
        self.superclass = self.above(source, earlier)
        self.declared_cells, first, references = source.take(3)
        if references and first + references > self.declared_cells:
            raise Fault(BAD_OFFSET, f"the fields with references of the record at {self.offset} are not among its own")
        base, size, package_base, package_size = source.take(4)
        self.public = base, source.numbers(size)
        self.package = package_base % 128, source.numbers(package_size)
        self.interfaces = [(ClassRef(*source.take(2)), source.take(source.number(1))) for _ in range(count)]

    def above(self, source, earlier):
        """The superclass or a superinterface: in this package an earlier record."""
        ref = ClassRef(*source.take(2))
        if not ref.is_external and ref.offset not in earlier:
            raise Fault(BAD_OFFSET, f"the record at {self.offset} names one at {ref.offset} above it, where no earlier one begins")
        return ref


def read_classes(source, minor):
    """The records by their offsets."""
    if minor > 1:
        source.take(source.number(2))
    records = {}
    while not source.is_at_end():
        if len(records) == MOST_CLASSES:
            raise Fault(BAD_OFFSET, f"it has more than {MOST_CLASSES} records")
        record = Record(source, records)
        records[record.offset] = record
    return records


class Methods:
    """Where methods can begin."""

    def __init__(self, source):
        source.take(8 * source.number(1))
        self.start, self.info = source.at, source.content

    def has_room(self, offset):
        """Whether a method's header begins at an offset: it lies after the handlers, and leaves room for the header."""
        if not self.start <= offset < len(self.info):
            return False
        is_extended = self.info[offset] > 127
        return len(self.info) - offset >= (4 if is_extended else 2)


class Statics:
    """The sizes of the static image."""

    def __init__(self, source):
        self.image_size, references, self.arrays = source.numbers(3)
        if references < self.arrays:
            raise Fault(BAD_OFFSET, f"it has {self.arrays} arrays and {references} references")
        self.array_bytes = 0
        for _ in range(self.arrays):
            kind = source.number(1)
            if kind not in BYTES_OF_ELEMENTS:
                raise Fault(BAD_OFFSET, f"an array is of the type {kind}")
            size = source.number(2)
            if size % BYTES_OF_ELEMENTS[kind]:
                raise Fault(BAD_OFFSET, f"an array of shorts has {size} bytes")
            source.take(size)
            self.array_bytes += size
        zeros, others = source.numbers(2)
        if self.image_size != 2 * references + zeros + others:
            raise Fault(SIZES_DISAGREE, f"the image has {self.image_size} bytes, and its parts {2 * references + zeros + others}")
        source.take(others)
        source.end()


class Export:
    """A class that other packages can name by its token."""

    def __init__(self, source):
        self.offset = source.number(2)
        fields, methods = source.numbers(2, 1)
        self.fields, self.methods = source.numbers(fields), source.numbers(methods)


def read_exports(source):
    exports = [Export(source) for _ in range(source.number(1))]
    source.end()
    return exports


def is_inherited(offset):
    """Whether an entry of a public method table is the method of another package's class."""
    return offset == OF_ANOTHER_PACKAGE
