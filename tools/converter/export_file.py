"""Export files: what other packages may name of a package, and by which numbers. Format 2.1 is written, and 2.1 to 2.3 read.

What they are taken to be (u1, u2, u4 are numbers of 1, 2 and 4 bytes; an index is a place in the constants):

  file: u4 magic, u1 minor, u1 major, u2 count and constants, u2 this_package; in 2.3 u1 count and u2 indices of packages; u1 count and classes
  constant: u1 1, u2 length, text; or u1 3, u4 number; or u1 7, u2 name_index of a class;
    or u1 13, u1 flags, u2 name_index, u1 minor, u1 major, u1 length, AID of a package
  class: u1 token, u2 flags, u2 class_index, u2 count and u2 indices of the classes above, u1 count and u2 indices of interfaces,
    u2 count and fields, u2 count and methods; in 2.3 u1 more
  field: u1 token, u2 flags, u2 name_index, u2 descriptor_index, u2 count and attributes, each u2 name_index, u4 length and its bytes
  method: u1 token, u2 flags, u2 name_index, u2 descriptor_index
"""
from .class_file import ABSTRACT, FINAL, INTERFACE, PUBLIC, STATIC, Bytes
from .library import Classes, ClassInfo, PackageInfo
from .refusal import Refusal, class_name

MAGIC = 0x00FACADE
FORMATS = (2, 1), (2, 2), (2, 3)
UTF8, INTEGER, CLASS, PACKAGE = 1, 3, 7, 13
IS_SHAREABLE = 0x0800
ACCESS = 0x041F  # public, private, protected, static, final, abstract
CONSTANT = 0xFF  # the token of a constant, which has none
IS_LIBRARY = 1


class Constants:
    """The constant pool of an export file that is written."""

    def __init__(self):
        self.entries = {}

    def index(self, content):
        return self.entries.setdefault(content, len(self.entries))

    def text(self, value):
        encoded = value.encode()
        return self.index(bytes([UTF8]) + len(encoded).to_bytes(2, "big") + encoded)

    def number(self, value):
        return self.index(bytes([INTEGER]) + value.to_bytes(4, "big", signed=True))

    def class_named(self, name):
        return self.index(bytes([CLASS]) + self.text(name).to_bytes(2, "big"))


def two_bytes(value):
    return value.to_bytes(2, "big")


def counted(items):
    return two_bytes(len(items)) + b"".join(items)


class Writer:
    """Writes the export file of a package."""

    def __init__(self, package):
        self.package, self.constants = package, Constants()
        classes = bytes([len(package.exports)]) + b"".join(map(self.class_info, package.exports))
        major, minor = package.info.version
        name, aid = self.constants.text(package.info.name), package.info.aid
        this = self.constants.index(
            bytes([PACKAGE, 0 if package.request.applets else IS_LIBRARY]) + two_bytes(name) + bytes([minor, major, len(aid)]) + aid)
        pool = counted(list(self.constants.entries))
        self.content = MAGIC.to_bytes(4, "big") + bytes([1, 2]) + pool + two_bytes(this) + classes

    def class_info(self, info):
        classes, file = self.package.classes, self.package.files[info.name]
        above = [] if info.is_interface else [each.name for each in classes.chain(info) if self.is_named(each)][1:]
        interfaces = {
            interface.name for each in classes.chain(info) for interface in classes.interfaces(each) if self.is_named(interface)}
        content = bytes([info.token])
        content += two_bytes(file.flags & (ACCESS | INTERFACE) | (IS_SHAREABLE if classes.is_shareable(info) else 0))
        content += two_bytes(self.constants.class_named(info.name))
        content += counted([two_bytes(self.constants.class_named(name)) for name in above])
        names = [two_bytes(self.constants.class_named(name)) for name in sorted(interfaces)]
        content += bytes([len(names)]) + b"".join(names)
        content += counted([self.field(info, file, field) for field in file.fields if field.is_visible])
        return content + counted(self.methods(info, file))

    def is_named(self, info):
        """Whether other packages can name the class."""
        return info.token is not None

    def methods(self, info, file):
        """The methods that can be called on it: its own, and those that classes and interfaces without a token gave it."""
        tables = (info.interface_methods,) if info.is_interface else (info.static_methods, info.virtual_methods)
        tokens = {key: token for table in tables for key, token in table.items()}
        flags = {method.key: method.flags for method in file.methods}
        for each in list(self.package.classes.chain(info))[1:]:
            if not self.is_named(each):
                tokens = {**each.virtual_methods, **tokens}
                flags = {**{method.key: method.flags for method in self.package.files[each.name].methods}, **flags}
        return [self.method(key, token, flags.get(key, PUBLIC | ABSTRACT)) for key, token in tokens.items()]

    def field(self, info, file, field):
        constant = file.constant(field) if field.is_static and field.is_final else None
        token = info.fields.get(field.name, CONSTANT)
        if field.is_static and constant is None:
            token = info.static_fields[field.name]
        content = bytes([token]) + two_bytes(field.flags & ACCESS) + two_bytes(self.constants.text(field.name))
        content += two_bytes(self.constants.text(field.descriptor))
        if constant is None:
            return content + two_bytes(0)
        name, value = self.constants.text("ConstantValue"), self.constants.number(constant)
        return content + two_bytes(1) + two_bytes(name) + (2).to_bytes(4, "big") + two_bytes(value)

    def method(self, key, token, flags):
        return bytes([token]) + two_bytes(flags & ACCESS) + b"".join(two_bytes(self.constants.text(part)) for part in key)


class Reader:
    """Reads an export file."""

    def __init__(self, content):
        source = self.source = Bytes(content)
        if source.unsigned(4) != MAGIC:
            raise ValueError("the magic number")
        minor, major = source.unsigned(1), source.unsigned(1)
        if (major, minor) not in FORMATS:
            raise Refusal(f"export files of format {major}.{minor} are not read, only 2.1 to 2.3")
        self.has_packages = minor == 3
        self.constants = [self.constant() for _ in range(source.unsigned(2))]
        name, aid, version = self.constants[source.unsigned(2)]
        self.package = PackageInfo(self.constants[name], aid, version)
        if self.has_packages:
            source.take(2 * source.unsigned(1))
        self.above = {}  # the classes above each class, the nearest first or not
        for _ in range(source.unsigned(1)):
            self.class_info()

    def constant(self):
        source = self.source
        tag = source.unsigned(1)
        if tag == UTF8:
            return source.take(source.unsigned(2)).decode()
        if tag == INTEGER:
            return source.signed(4)
        if tag == CLASS:
            return source.unsigned(2)
        if tag == PACKAGE:
            source.take(1)
            name, minor, major = source.unsigned(2), source.unsigned(1), source.unsigned(1)
            return name, source.take(source.unsigned(1)), (major, minor)
        raise ValueError("a constant")

    def text(self):
        return self.constants[self.source.unsigned(2)]

    def class_named(self):
        return self.constants[self.text()]

    def class_info(self):
        source = self.source
        token, flags, name = source.unsigned(1), source.unsigned(2), self.class_named()
        above = [self.class_named() for _ in range(source.unsigned(2))]
        interfaces = [self.class_named() for _ in range(source.unsigned(1))]
        info = ClassInfo(name, self.package, None, interfaces, bool(flags & INTERFACE), token)
        self.above[name] = above
        self.package.add(info)
        for _ in range(source.unsigned(2)):
            self.field(info)
        for _ in range(source.unsigned(2)):
            self.method(info)
        if self.has_packages:
            source.take(1)

    def field(self, info):
        source = self.source
        token, flags, name, _ = source.unsigned(1), source.unsigned(2), self.text(), self.text()
        for _ in range(source.unsigned(2)):
            source.take(2)
            source.take(source.unsigned(4))
        if flags & STATIC == 0:
            info.fields[name] = token
        elif token != CONSTANT or flags & FINAL == 0:
            info.static_fields[name] = token

    def method(self, info):
        source = self.source
        token, flags, name, descriptor = source.unsigned(1), source.unsigned(2), self.text(), self.text()
        if info.is_interface:
            table = info.interface_methods
        else:
            table = info.static_methods if flags & STATIC or name == "<init>" else info.virtual_methods
        table[name, descriptor] = token


def read_exports(paths):
    """The packages of some export files."""
    readers = []
    for path in paths:
        try:
            with open(path, "rb") as file:
                readers.append(Reader(file.read()))
        except OSError as error:
            raise Refusal(f"cannot read {path}: {error.strerror}") from None
        except Refusal as refusal:
            raise Refusal(f"{path}: {refusal}") from None
        except (IndexError, ValueError, TypeError, KeyError):
            raise Refusal(f"{path}: not an export file, or a damaged one") from None
    return readers


def link(readers, packages):
    """The packages of export files, and those of others that none of the files has, with their classes in their places."""
    names = {reader.package.name for reader in readers}
    packages = [package for package in packages if package.name not in names] + [reader.package for reader in readers]
    depths = {name: len(above) for reader in readers for name, above in reader.above.items()}
    known = {name: info for package in packages for name, info in package.classes.items()}
    for reader in readers:
        for name, above in reader.above.items():
            for each in above:
                if each not in known:
                    raise Refusal(f"{class_name(reader.package.name)} needs the export file of {class_name(each.rpartition('/')[0])}")
            # The class right above is the one that has most classes above it.
            known[name].superclass = max(above, key=lambda each: depths.get(each, chain_length(known, each)), default=None)
    Classes(packages).set_ends()
    return packages


def chain_length(known, name):
    length = 0
    while known[name].superclass:
        name, length = known[name].superclass, length + 1
    return length
