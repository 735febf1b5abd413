"""The way from class files to a package's CAP file and export file."""
import os
from dataclasses import replace

from . import card_components as cap
from . import export_file
from .cap_file import cap_file
from .card_check import Names
from .class_file import ABSTRACT, CLASS, INTERFACE, read_class
from .code import TooManyFields
from .components import LONGEST_AID, METHOD, SHORTEST_AID, Components
from .library import APPLET
from .map_lines import entry_lines, map_text, told_method
from .package import INSTALL, NO_INSTALL, Package
from .platform import read_table
from .refusal import OF_API, Refusal, class_name
from .source_names import Record
from .style import SHORT

UNREGISTERED = b"\xF0"  # begins the AIDs that nobody has registered


class Converted:
    """What becomes of a package."""

    def __init__(self, request, files, packages, style=SHORT, minor=1):
        try:
            self.package = Package(request, files, packages, style)
            components = Components(self.package, minor)
        except TooManyFields:
            self.package = Package(request, files, packages, replace(style, this_forms=False))
            components = Components(self.package, minor)
        self.request, self.contents, self.methods, self.packages = request, components.contents, components.methods, packages
        self.java_lines, self.java_locals = components.java_lines, components.java_locals
        self.cap = cap_file(request.name, self.contents)

    def export(self):
        """The export file, or None where other packages can name nothing."""
        return export_file.Writer(self.package).content if self.package.exports else None

    def map(self):
        """Where the methods and their instructions stand in the Method component, and what the constant pool names, as tools/cap2script --map
        tells it."""
        names = {offset: told_method(*method) for method, offset in self.methods.items()}
        records = [(number, self.record(name)) for number, name in enumerate(self.package.order)]
        imports, pool = (reader(cap.source_of(tag, self.contents[tag])) for tag, reader in (
            (cap.IMPORT, cap.read_imports), (cap.CONSTANT_POOL, cap.read_pool)))
        text = map_text(self.request.aid, self.contents[METHOD][3:], names, self.java_lines, records, self.java_locals)
        return text + entry_lines(imports, pool, Names([], self.packages))

    def record(self, name):
        """What a map says of a class."""
        file, info, places = self.package.files[name], self.package.classes.known[name], self.package.statics.places
        descriptors = {each.name: each.descriptor for each in file.fields}
        fields = {cell: (descriptors[each], each) for each, cell in info.fields.items()}
        statics = {places[name, each]: (descriptors[each], each) for each in descriptors if (name, each) in places}
        return Record(name, file.superclass, file.source, fields, statics)


def read_classes(folder):
    """The class files of a folder and those below it: their packages, and in each the classes by their names."""
    packages = {}
    if not os.path.isdir(folder):
        raise Refusal(f"{folder} is no folder")
    for place, folders, names in os.walk(folder):
        folders.sort()
        for name in sorted(names):
            if name.endswith(".class"):
                path = os.path.join(place, name)
                with open(path, "rb") as file:
                    found = read_class(file.read(), path)
                if name != "package-info.class" and not found.name.startswith(OF_API):
                    packages.setdefault(found.package, {})[found.name] = found
    if not packages:
        raise Refusal(f"{folder} has no class files")
    if "" in packages:
        file = next(iter(packages[""].values()))
        raise Refusal(f"{file.place()}: a class of no package; a card has packages with names")
    return packages


def read_packages(table, exports):
    """The packages that can be imported: the platform's by a table, and those of export files, which go before it."""
    return export_file.link(export_file.read_exports(exports), read_table(table))


def superclasses(packages, imported):
    """The superclass of each class of some packages of class files, and of those that are imported."""
    found = {name: info.superclass for package in imported for name, info in package.classes.items()}
    found.update((name, file.superclass) for files in packages.values() for name, file in files.items())
    return found


def is_below_applet(file, above):
    """Whether a class can have instances that are applets."""
    name = file.name
    while name not in (APPLET, None):
        name = above.get(name)
    return name == APPLET and not file.flags & (ABSTRACT | INTERFACE)


def applets_of(files, above):
    """The names of the applets among classes: each class below Applet that has a method `install`. `above` has the superclass of each
    class. Where classes below Applet have none at all, that is refused, since no applet would come onto the card."""
    found = [name for name in sorted(files) if is_below_applet(files[name], above)]
    applets = [name for name in found if files[name].method(INSTALL) is not None]
    if found and not applets:
        raise Refusal(*(f"{files[name].place()}: {NO_INSTALL}" for name in found))
    return applets


def default_aid(package_name):
    """The AID that a package has where none is given: F0, and the last part of its name in ASCII, with bytes 00 up to five."""
    name = package_name.rpartition("/")[2].encode("ascii", "replace")[:LONGEST_AID - 2]
    return (UNREGISTERED + name).ljust(SHORTEST_AID, b"\0")


def applet_aids(package_aid, names):
    """The AIDs that the applets of a package have where none are given: the package's with a byte after it, from 01 on."""
    if len(package_aid) == LONGEST_AID and names:
        raise Refusal(f"the package's AID has {LONGEST_AID} bytes, so those of its applets have to be given: --applet CLASS=AID")
    return [(package_aid + bytes([number]), name) for number, name in enumerate(names, 1)]


def dependencies(files):
    """The packages that the classes of a package name."""
    found = set()
    for file in files.values():
        for entry in file.constants.entries:
            if entry and entry[0] == CLASS:
                name = file.constants.value(entry[1])
                name = name.lstrip("[").removeprefix("L").removesuffix(";") if name[0] == "[" else name
                found.add(name.rpartition("/")[0])
    return found


def in_order(packages):
    """The names of packages, each after those that it needs."""
    found = []

    def add(name, path):
        if name in path:
            raise Refusal("these packages need each other: " + ", ".join(map(class_name, path[path.index(name):])))
        if name in packages and name not in found:
            for other in sorted(dependencies(packages[name]) - {name}):
                add(other, path + [name])
            found.append(name)

    for name in sorted(packages):
        add(name, [])
    return found
