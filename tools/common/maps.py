"""Maps of packages: where their methods and instructions stand, and what the Java source names. integrations/pages/README.md lists their lines."""

# The cells of the platform's classes that others stand above, by docs/FORMATS.md, Objects.
CELLS = {"java.lang.Object": 0, "javacard.framework.Applet": 0, "javacard.framework.OwnerPIN": 5, "javacard.framework.AID": 9}
WITH_REASON = ("CardException", "CardRuntimeException", "ISOException", "PINException", "SystemException", "TransactionException", "APDUException", "UserException")
CELLS.update((f"javacard.framework.{name}", 1) for name in WITH_REASON)


FLOW = ("branch", "jump", "switch", "end")


class WrongForm(Exception):
    """Why a file is not taken."""


class Method:
    """A method: where it begins, its name, the offsets of its instructions, with the line of the Java source that each begins, or None;
    the whole is None where the map does not tell them; and where instructions lead, by their offsets, each what it is and the targets."""

    def __init__(self, offset, name):
        self.offset, self.name, self.places, self.locals, self.flow = offset, name, None, [], {}

    def lines(self):
        """The line of the Java source of each instruction, by its offset; those in front of the first line have none."""
        found, line = {}, None
        for place, begun in self.places or ():
            line = begun or line
            if line:
                found[place] = line
        return found


class ClassLine:
    """A class: its name, that of the class above, its file, and its own fields by their cells, each a type and a name."""

    def __init__(self, name, above, file):
        self.name, self.above, self.file, self.fields, self.statics = name, above, file, {}, {}


class Package:
    """What a map tells of a package."""

    def __init__(self):
        self.methods, self.classes = [], {}

    def method_at(self, offset):
        """The method that has an offset."""
        return max((method for method in self.methods if method.offset <= offset), key=lambda method: method.offset, default=None)

    def class_of(self, method):
        """The class that a method stands in: the one of the longest name with which its name begins."""
        found = [each for each in self.classes.values() if method.name.startswith((f"{each.name}.", f"{each.name}("))]
        return max(found, key=lambda each: len(each.name), default=None)

    def place(self, offset):
        """The file and the line of the Java source of an instruction; None where the map does not tell them."""
        method = self.method_at(offset)
        owner, line = (self.class_of(method), method.lines().get(offset)) if method else (None, None)
        return (owner.file, line) if owner and line else None

    def cells_of(self, name):
        """How many cells an instance of a class has; None where that cannot be known."""
        if name in CELLS:
            return CELLS[name]
        own = next((each for each in self.classes.values() if each.name == name), None)
        above = self.cells_of(own.above) if own else None
        return None if above is None else above + len(own.fields)

    def field(self, number, cell):
        """The name of a cell of an instance, as CLASS.FIELD; None where the map does not tell it."""
        found = self.typed_field(number, cell)
        return found[1] if found else None

    def typed_field(self, number, cell):
        """The type and the name of a cell of an instance; None where the map does not tell them."""
        own = self.classes.get(number)
        while own:
            base = self.cells_of(own.above)
            if base is None or cell >= base:
                found = own.fields.get(cell - base) if base is not None else None
                return (found[0], f"{own.name}.{found[1]}") if found else None
            own = next((each for each in self.classes.values() if each.name == own.above), None)
        return None


def lines_of(path):
    try:
        with open(path, encoding="utf-8") as file:
            return file.read().splitlines()
    except OSError as error:
        raise WrongForm(f"cannot read {path}: {error.strerror}") from None
    except UnicodeDecodeError:
        raise WrongForm(f"cannot read {path}: it is no text") from None


def number(text):
    if not text.isascii() or not text.isdigit():
        raise ValueError
    return int(text)


def place_in(word):
    """The offset in a word OFFSET or OFFSET:LINE, and the line or None."""
    offset, colon, line = word.partition(":")
    return number(offset), number(line) if colon else None


class Reader:
    """Takes the lines of a map, one after the other."""

    def __init__(self):
        self.packages, self.package, self.last = {}, None, None

    def take(self, line):
        first, blank, rest = line.partition(" ")
        words = rest.split(" ")
        if first == "package" and rest:
            self.package, self.last = self.packages.setdefault(rest, Package()), None
        elif self.package is None or not blank:
            raise ValueError
        elif first == "entry":
            pass  # what an entry of the constant pool names in another package
        elif not first:
            self.package.methods[-1].places = [place_in(word) for word in rest.split()]
        elif first == "class":
            which, name, above, file = words
            self.last = self.package.classes[number(which)] = ClassLine(name, above, file)
        elif first in ("field", "static"):
            cell, kind, name = words
            (self.last.fields if first == "field" else self.last.statics)[number(cell)] = kind, name
        elif first == "local" and words[0] in FLOW:
            at, *targets = map(number, words[1:])
            self.package.methods[-1].flow[at] = words[0], targets
        elif first == "local":
            which, start, end, kind, name = words
            self.package.methods[-1].locals.append((number(which), number(start), number(end), kind, name))
        else:
            self.package.methods.append(Method(number(first), rest))


def read_map(path):
    """The packages of a map, by their AIDs."""
    reader = Reader()
    for at, line in enumerate(lines_of(path), 1):
        try:
            reader.take(line)
        except (ValueError, IndexError, AttributeError):
            raise WrongForm(f"{path}: line {at} has another form") from None
    return reader.packages


def read_cover(path):
    """Of each package the counts of its instructions by their offsets, and how many instructions were left out."""
    packages, left_out, counts = {}, 0, None
    for at, line in enumerate(lines_of(path), 1):
        words = line.split(" ")
        try:
            if words[0] == "package" and len(words) == 2:
                counts = packages.setdefault(words[1], {})
            elif words[:2] == ["left", "out"] and len(words) == 3:
                left_out = number(words[2])
            else:
                offset, count = words
                counts[number(offset)] = number(count)
        except (ValueError, TypeError):
            raise WrongForm(f"{path}: line {at} has another form") from None
    return packages, left_out
