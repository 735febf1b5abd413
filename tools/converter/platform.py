"""The packages of the platform, with the numbers of a platform table.

The stubs tell what the classes and methods of packages but java.lang look like, and the table tells which of them a card has, and
by which numbers."""
import functools
import glob
import os
import re

from .library import APDU, CRYPTO, FRAMEWORK, LANG, SECURITY, Classes, ClassInfo, PackageInfo
from .refusal import Refusal, class_name

HERE = os.path.dirname(os.path.realpath(__file__))
STUBS = os.path.join(HERE, "stubs")
ABSENT = os.path.join(HERE, "absent")  # stubs of classes that no card has
NEEDED = os.path.join(HERE, "../../examples/platform.table")  # has the names that each table has
ALLOWED = os.path.join(HERE, "../../examples/extended.table")  # has all names that an extended table may have, as the usual card does
SHOWN = "examples/extended.table"  # as it is named to a user
EXTENDED = "extended"  # the first line of such a table
RANDOM = "random"  # the first word of a line of such a table: the bytes of which random data are made
RANDOM_DIGITS = re.compile("[0-9A-Fa-f]{64}")
LONGEST_TABLE = 16384  # bytes
LARGEST_NUMBER, LARGEST_VIRTUAL = 255, 127
NAMES = {"A0000000620001": LANG, "A0000000620101": FRAMEWORK, "A0000000620209": APDU, "A0000000620102": SECURITY, "A0000000620201": CRYPTO}
OPTIONAL = (APDU, SECURITY, CRYPTO)  # packages that an extended table may have
# Classes of the card that no kit exports: those of its keys.
OWN = (
    "KeyObject", "DESKeyObject", "AESKeyObject", "HMACKeyObject", "RSAKeyObject", "RSAPublicKeyObject", "RSAPrivateKeyObject", "RSAPrivateCrtKeyObject",
    "ECKeyObject", "ECPublicKeyObject", "ECPrivateKeyObject",
)
# The classes of java.lang that stand above others than RuntimeException.
ABOVE = {
    "Object": None, "Throwable": "Object", "Exception": "Throwable", "RuntimeException": "Exception",
    "ArrayIndexOutOfBoundsException": "IndexOutOfBoundsException",
}
LANG_METHODS = {"<init>": ("<init>", "()V"), "equals": ("equals", "(Ljava/lang/Object;)Z")}
# The words of a table for the second of two methods of one name.
ALIASES = {
    ("Applet", "registerBytes"): ("register", "([BSB)V"), ("AID", "equalsBytes"): ("equals", "([BSB)Z"),
    ("JCSystem", "getAvailableMemoryShorts"): ("getAvailableMemory", "([SSB)V"),
    ("UserException", "<init>WithoutReason"): ("<init>", "()V"),
    ("Cipher", "getInstanceOfCipherAndPadding"): ("getInstance", "(BBZ)Ljavacardx/crypto/Cipher;"),
    ("Cipher", "initWithVector"): ("init", "(Ljavacard/security/Key;B[BSS)V"),
    ("Signature", "getInstanceOfDigestCipherAndPadding"): ("getInstance", "(BBBZ)Ljavacard/security/Signature;"),
    ("Signature", "initWithVector"): ("init", "(Ljavacard/security/Key;B[BSS)V"),
    ("KeyPair", "<init>OfKeys"): ("<init>", "(Ljavacard/security/PublicKey;Ljavacard/security/PrivateKey;)V"),
    **{(owner, "setFieldF2MOfThree"): ("setFieldF2M", "(SSS)V") for owner in ("ECKey", "ECPublicKey", "ECPrivateKey", "ECKeyObject")},
}
LETTERS = {"void": "V", "byte": "B", "short": "S", "boolean": "Z"}
CLASS = re.compile(r"public (?:final |abstract )*(class|interface) (\w+)(?: extends ([\w, ]+?))?(?: implements (\w+))? \{")
METHOD = re.compile(r"^    ((?:public |protected |private |static |final |abstract )*)(?:([\w\[\]]+) )?(\w+)\(([^)]*)\)[^;{]*[;{]", re.M)


def stub_files():
    return sorted(glob.glob(os.path.join(STUBS, "*/*/*.java")))


@functools.cache
def stub_packages():
    """The packages of the stubs, by the words for their classes, of which no two have one."""
    return {os.path.basename(path)[:-len(".java")]: os.path.relpath(os.path.dirname(path), STUBS) for path in stub_files()}


def name_of(word):
    """A class's name as a stub calls it."""
    return f"{LANG if word in ABOVE else stub_packages()[word]}/{word}"


def descriptor_of(word):
    element = word.rstrip("[]")
    dimensions = word.count("[]")
    return "[" * dimensions + (LETTERS.get(element) or f"L{name_of(element)};")


class Stub:
    """A class of the API as its stub declares it."""

    def __init__(self, text):
        kind, self.word, above, interface = CLASS.search(text).groups()
        self.is_interface = kind == "interface"
        self.superclass = None if self.is_interface else name_of(above or "Object")
        self.interfaces = [name_of(word) for word in ((above if self.is_interface else interface) or "").split(", ") if word]
        self.methods = []  # keys, and whether the method is static
        for modifiers, result, name, parameters in METHOD.findall(text):
            if not self.is_interface and "public" not in modifiers and "protected" not in modifiers:
                continue
            types = [descriptor_of(parameter.split()[0]) for parameter in parameters.replace("\n", " ").split(",") if parameter.strip()]
            is_constructor = name == self.word and not result
            key = ("<init>" if is_constructor else name, f"({''.join(types)}){'V' if is_constructor else descriptor_of(result)}")
            self.methods.append((key, is_constructor or "static" in modifiers))


def read_stubs():
    """The stubs by the words for their classes."""
    stubs = {}
    for path in stub_files():
        with open(path, encoding="utf-8") as file:
            stub = Stub(file.read())
        stubs[stub.word] = stub
    return stubs


class Table:
    """Makes packages of the lines of a platform table. What the card refuses as a line raises ValueError or KeyError."""

    def __init__(self):
        self.stubs, self.packages, self.info = read_stubs(), [], None
        self.is_extended, self.tokens, self.random = False, set(), None
        self.free = set(names_of(NEEDED))  # the names that may stand in the lines to come

    def line(self, words):
        """Takes a line, and answers what it names."""
        if words == [EXTENDED] and not self.packages and not self.is_extended:
            self.is_extended, self.free = True, set(names_of(ALLOWED))
            return None
        if words[0] == RANDOM:
            return self.random_line(*words)
        if words[0] == "package":
            return self.package_line(*words)
        kind, number, word = words
        name, token = self.take(kind, word), number_of(number)
        if (*name[:3], token) in self.tokens or kind in ("virtual", "interface") and token > LARGEST_VIRTUAL:
            raise ValueError
        self.tokens.add((*name[:3], token))
        if kind == "class":
            self.add_class(token, word)
        else:
            self.add_method(kind, token, word)
        return name

    def random_line(self, _, digits):
        if not self.is_extended or self.random is not None or not RANDOM_DIGITS.fullmatch(digits):
            raise ValueError
        self.random = bytes.fromhex(digits)

    def package_line(self, kind, aid, major, minor):
        self.info, name = None, self.take(kind, aid)
        if NAMES[aid] in OPTIONAL and len(self.packages) < 2:  # they stand after both others
            raise ValueError
        self.packages.append(PackageInfo(NAMES[aid], bytes.fromhex(aid), (number_of(major), number_of(minor))))
        return name

    def take(self, kind, word):
        """A name, which may stand once."""
        home = self.packages[-1].name if kind != "package" and self.packages else None
        owner = self.info.name if kind not in ("package", "class") and self.info else None
        self.free.remove((home, owner, kind, word))
        return home, owner, kind, word

    def stands(self, name):
        """Whether a class is one that each table has, or stands above."""
        home, _, word = name.rpartition("/")
        return (home, None, "class", word) in names_of(NEEDED) or any(name in package.classes for package in self.packages)

    def add_class(self, token, word):
        package = self.packages[-1]
        name = f"{package.name}/{word}"
        if package.name == LANG:
            above = ABOVE.get(word, "RuntimeException")
            self.info = ClassInfo(name, package, above and f"{LANG}/{above}", token=token)
        else:
            stub = self.stubs[word]
            if not all(self.stands(above) for above in (stub.superclass, *stub.interfaces) if above):
                raise ValueError
            self.info = ClassInfo(name, package, stub.superclass, stub.interfaces, stub.is_interface, token)
        package.add(self.info)

    def add_method(self, kind, token, word):
        methods = {
            "static": self.info.static_methods, "virtual": self.info.virtual_methods, "interface": self.info.interface_methods}[kind]
        methods[self.key(kind, word)] = token

    def key(self, kind, word):
        """The name and the descriptor of a method of the class."""
        owner = self.info.name.rpartition("/")[2]
        if (owner, word) in ALIASES:
            return ALIASES[owner, word]
        if self.info.package.name == LANG:
            return LANG_METHODS[word]
        others = [key for (each, _), key in ALIASES.items() if each == owner]
        found = [
            key for key, is_static in self.stubs[owner].methods if key[0] == word and is_static == (kind == "static") and key not in others]
        return found[0]

    def missing(self):
        """The names that each table has and that do not stand."""
        return [name for name in names_of(NEEDED) if name in self.free]


def number_of(word):
    if not re.fullmatch("[0-9]+", word) or int(word) > LARGEST_NUMBER:
        raise ValueError
    return int(word)


def lines_of(path):
    """The lines of a text; the last one is empty, unless no line feed ends it."""
    try:
        with open(path, encoding="ascii", newline="") as file:
            return file.read().split("\n")
    except (OSError, UnicodeDecodeError) as error:
        raise Refusal(f"cannot read {path}: {getattr(error, 'strerror', 'it is no text')}") from None


@functools.cache
def names_of(path):
    """What the lines of a table name: each the package, the class, the keyword and the word; None where one does not count."""
    package = info = None
    found = []
    for kind, *words in (line.split() for line in lines_of(path) if line not in ("", EXTENDED) and not line.startswith(RANDOM)):
        if kind == "package":
            package, info = NAMES[words[0]], None
            found.append((None, None, kind, words[0]))
        elif kind == "class":
            info = f"{package}/{words[1]}"
            found.append((package, None, kind, words[1]))
        else:
            found.append((package, info, kind, words[1]))
    return found


def read_lines(path):
    """The lines of a platform table, and what they tell; one that the card refuses is refused."""
    *lines, rest = lines_of(path)
    if sum(len(line) + 1 for line in lines) + len(rest) > LONGEST_TABLE:
        raise Refusal(f"{path} is no platform table: it has more than {LONGEST_TABLE} bytes")
    table = Table()
    for number, line in enumerate(lines, 1):
        try:
            table.line(line.split(" "))
        except (KeyError, ValueError, TypeError):
            raise Refusal(f"{path}: line {number} is no line of a platform table") from None
    if rest:
        raise Refusal(f"{path}: line {len(lines) + 1} is ended by no line feed")
    missing = table.missing()
    if missing:
        more = f" and {len(missing) - 1} more" if len(missing) > 1 else ""
        raise Refusal(f"{path} is no platform table: it lacks the name {told_name(*missing[0])}{more}")
    return lines, table


def told_name(package, owner, kind, word):
    return f"{kind} {word}" + (f" of {class_name(owner or package)}" if owner or package else "")


def read_table(path):
    """The packages of a platform table."""
    table = read_lines(path)[1]
    Classes(table.packages).set_ends()
    return table.packages


@functools.cache
def classes_of(path):
    """All classes and methods of a platform table."""
    return Classes(read_table(path))


@functools.cache
def tables_of_classes():
    """By each class that an extended platform table can have: the example table that has it."""
    return dict.fromkeys(classes_of(ALLOWED).known, SHOWN)


def table_with(owner, key):
    """The example table that has a method, by its name and its descriptor; None where none has it."""
    return SHOWN if has_method(classes_of(ALLOWED), owner, key) else None


def has_method(classes, owner, key):
    """Whether one of some classes has a method. A constructor is not inherited."""
    info = classes.known.get(owner)
    return info is not None and any(
        key in methods for each in ([info] if key[0] == "<init>" else classes.chain(info))
        for methods in (each.static_methods, each.virtual_methods, each.interface_methods))
