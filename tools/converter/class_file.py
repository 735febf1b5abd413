"""Reads class files: what the converter asks of them, and no more."""
from .refusal import Refusal, types_of

MAGIC = 0xCAFEBABE
PUBLIC, PRIVATE, PROTECTED, STATIC, FINAL = 1, 2, 4, 8, 0x10
SYNCHRONIZED, NATIVE, INTERFACE, ABSTRACT = 0x20, 0x100, 0x200, 0x400
UTF8, INTEGER, FLOAT, LONG, DOUBLE, CLASS, STRING = 1, 3, 4, 5, 6, 7, 8
PAIRS = (9, 10, 11, 12, 17, 18)  # constants of two indices
HANDLE, MODULE, PACKAGE, METHOD_TYPE = 15, 19, 20, 16


class Bytes:
    """Bytes that are read one after the other, numbers with their high byte first."""

    def __init__(self, content, at=0):
        self.content, self.at = content, at

    def take(self, size):
        piece = self.content[self.at:self.at + size]
        if len(piece) != size:
            raise IndexError("the bytes end")
        self.at += size
        return piece

    def unsigned(self, size):
        return int.from_bytes(self.take(size), "big")

    def signed(self, size):
        return int.from_bytes(self.take(size), "big", signed=True)

    def is_at_end(self):
        return self.at == len(self.content)


class Constants:
    """The constant pool of a class file."""

    def __init__(self, source):
        self.entries = [None] * source.unsigned(2)
        at = 1
        while at < len(self.entries):
            tag = source.unsigned(1)
            self.entries[at] = (tag, self.value_of(tag, source))
            at += 2 if tag in (LONG, DOUBLE) else 1

    @staticmethod
    def value_of(tag, source):
        if tag == UTF8:
            return source.take(source.unsigned(2)).decode("utf-8", "surrogatepass")
        if tag == INTEGER:
            return source.signed(4)
        if tag == FLOAT:
            return source.take(4)
        if tag in (LONG, DOUBLE):
            return source.take(8)
        if tag in (CLASS, STRING, METHOD_TYPE, MODULE, PACKAGE):
            return source.unsigned(2)
        if tag in PAIRS:
            return source.unsigned(2), source.unsigned(2)
        if tag == HANDLE:
            return source.unsigned(1), source.unsigned(2)
        raise ValueError(f"constant {tag}")

    def tag(self, index):
        return self.entries[index][0]

    def value(self, index):
        return self.entries[index][1]

    def class_at(self, index):
        """A class's name, or the descriptor of an array."""
        return self.value(self.value(index))

    def member_at(self, index):
        """The class, the name and the descriptor of a field or a method."""
        owner, name_and_type = self.value(index)
        name, descriptor = self.value(name_and_type)
        return self.class_at(owner), self.value(name), self.value(descriptor)


class Member:
    """A field or a method."""

    def __init__(self, flags, name, descriptor, attributes):
        self.flags, self.name, self.descriptor, self.attributes = flags, name, descriptor, attributes

    @property
    def key(self):
        return self.name, self.descriptor

    @property
    def is_static(self):
        return bool(self.flags & STATIC)

    @property
    def is_private(self):
        return bool(self.flags & PRIVATE)

    @property
    def is_visible(self):
        """Whether other packages may see it, public or protected."""
        return bool(self.flags & (PUBLIC | PROTECTED))

    @property
    def is_final(self):
        return bool(self.flags & FINAL)

    @property
    def arguments(self):
        """How many cells its arguments take, the object among them."""
        return len(types_of(self.descriptor)[0]) + (0 if self.is_static else 1)


class Variable:
    """A local variable as the source declares it: from where and up to where of the code it is the local of a number."""

    def __init__(self, start, end, name, descriptor, number):
        self.start, self.end, self.name, self.descriptor, self.number = start, end, name, descriptor, number


class Handler:
    """An exception handler; `caught` is the index of a class, 0 for all."""

    def __init__(self, start, end, at, caught):
        self.start, self.end, self.at, self.caught = start, end, at, caught


class Code:
    """The Code attribute of a method."""

    def __init__(self, content, constants):
        source = Bytes(content)
        self.max_stack, self.max_locals = source.unsigned(2), source.unsigned(2)
        self.bytes = source.take(source.unsigned(4))
        self.handlers = [Handler(*(source.unsigned(2) for _ in range(4))) for _ in range(source.unsigned(2))]
        self.lines, self.variables = [], []
        for name, attribute in attributes_of(source, constants):
            table = Bytes(attribute)
            if name == "LineNumberTable":
                self.lines += [(table.unsigned(2), table.unsigned(2)) for _ in range(table.unsigned(2))]
            elif name == "LocalVariableTable":
                for _ in range(table.unsigned(2)):
                    start, length, name, descriptor, number = (table.unsigned(2) for _ in range(5))
                    self.variables.append(Variable(start, start + length, constants.value(name), constants.value(descriptor), number))
        self.lines.sort()

    def line(self, pc):
        """The line of the source; 0 where it is not known."""
        return max(((start, line) for start, line in self.lines if start <= pc), default=(0, 0))[1]


def attributes_of(source, constants):
    found = []
    for _ in range(source.unsigned(2)):
        name = constants.value(source.unsigned(2))
        found.append((name, source.take(source.unsigned(4))))
    return found


class ClassFile:
    """A class or an interface."""

    def __init__(self, content):
        source = Bytes(content)
        if source.unsigned(4) != MAGIC:
            raise ValueError("the magic number")
        source.take(4)
        self.constants = Constants(source)
        self.flags = source.unsigned(2)
        self.name = self.constants.class_at(source.unsigned(2))
        above = source.unsigned(2)
        self.superclass = self.constants.class_at(above) if above else None
        self.interfaces = [self.constants.class_at(source.unsigned(2)) for _ in range(source.unsigned(2))]
        self.fields = self.members_of(source)
        self.methods = self.members_of(source)
        attributes = dict(attributes_of(source, self.constants))
        self.codes = {
            method.key: Code(method.attributes["Code"], self.constants) for method in self.methods if "Code" in method.attributes
        }
        folder = self.name.rpartition("/")[0]
        file = self.name.rpartition("/")[2].partition("$")[0] + ".java"
        if "SourceFile" in attributes:
            file = self.constants.value(int.from_bytes(attributes["SourceFile"], "big"))
        self.source = f"{folder}/{file}" if folder else file

    def members_of(self, source):
        members = []
        for _ in range(source.unsigned(2)):
            flags, name, descriptor = source.unsigned(2), source.unsigned(2), source.unsigned(2)
            attributes = dict(attributes_of(source, self.constants))
            members.append(Member(flags, self.constants.value(name), self.constants.value(descriptor), attributes))
        return members

    @property
    def package(self):
        return self.name.rpartition("/")[0]

    @property
    def is_interface(self):
        return bool(self.flags & INTERFACE)

    @property
    def is_abstract(self):
        return bool(self.flags & ABSTRACT)

    @property
    def is_public(self):
        return bool(self.flags & PUBLIC)

    def method(self, key):
        return next((method for method in self.methods if method.key == key), None)

    def code(self, method):
        return self.codes.get(method.key)

    def place(self, method=None, pc=0):
        """Where the source has a method's instruction, a method or the class."""
        code = self.code(method) if method else None
        line = code.line(pc) if code else 0
        where = f"{self.source}:{line}" if line else self.source
        return f"{where}: {self.label(method)}" if method else where

    def label(self, method):
        if method.name == "<init>":
            return "the constructor"
        return "a static initialiser" if method.name == "<clinit>" else method.name

    def constant(self, field):
        """The value that stands for a field wherever the source names it: a number, or None."""
        content = field.attributes.get("ConstantValue")
        if content is None:
            return None
        index = int.from_bytes(content, "big")
        if self.constants.tag(index) != INTEGER:
            raise Refusal(f"{self.source}: {field.name}: a constant that is no byte, short or boolean")
        return self.constants.value(index)


def read_class(content, path):
    """The class of a file."""
    try:
        return ClassFile(content)
    except (IndexError, ValueError, TypeError, KeyError, AttributeError):
        raise Refusal(f"{path}: not a class file, or a damaged one") from None
