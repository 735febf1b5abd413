"""What a card refuses of a package, and why: all reasons, in the order in which the card would answer them."""
from . import card_components as cap
from .export_file import read_exports
from .library import Classes
from .platform import read_table
from .refusal import class_name, method_name

IMPORT_MISSING, IMPORT_VERSION, UNRESOLVED, AID_TAKEN, FULL = "6421", "6422", "6423", "6431", "6432"
MOST_PACKAGES = 32
MOST_VISIBLE = 128  # from here on the virtual tokens of entries are of methods that the package alone sees
LARGEST_TOKEN = 255


class CardClass:
    """A class or an interface on the card. Of one that is not known nothing is refused: what it stands in was refused before."""

    def __init__(self, package, is_interface):
        self.package, self.is_interface = package, is_interface
        self.token, self.superclass = None, None  # that by which other packages name it
        self.virtual, self.static = {}, {}  # the tokens that a class of the platform has
        self.public, self.hidden = (0, []), (0, [])  # the tables of a loaded one
        self.fields = 0  # how many a loaded one declares
        self.interfaces = []

    def chain(self):
        """The class and those above it."""
        each = self
        while each is not None:
            yield each
            each = each.superclass

    def has_method(self, token, package):
        """Whether a call by the virtual token of an entry, through a class of a package, finds a method."""
        if token < MOST_VISIBLE:
            return self.has_public(token)
        told = (each.hidden_told(token - MOST_VISIBLE) for each in self.chain() if each.package in (package, None))
        return next((is_there for is_there in told if is_there is not None), False)

    def has_public(self, token):
        told = (each.public_told(token) for each in self.chain())
        return next((is_there for is_there in told if is_there is not None), False)

    def public_told(self, token):
        """Whether there is a method, as the class itself tells it; None where it asks the class above."""
        if self is UNKNOWN or token in self.virtual:
            return True
        return in_table(token, *self.public) if self.package.is_loaded else None

    def hidden_told(self, token):
        return self is UNKNOWN or in_table(token, *self.hidden)


def in_table(token, base, offsets):
    """Whether a method table has a method; None where it is one of the class above."""
    if token >= base + len(offsets):
        return False
    return None if token < base or cap.is_inherited(offsets[token - base]) else True


UNKNOWN = CardClass(None, None)


class CardPackage:
    """A package on the card: its classes by the tokens by which others name them."""

    def __init__(self, aid, version, is_loaded):
        self.aid, self.version, self.is_loaded, self.exports = aid, version, is_loaded, {}
        self.statics = {}  # of a loaded one, by the same tokens, how many static fields and methods can be named


class Names:
    """The names of packages, classes and methods: those of export files, and of the table for packages that have none."""

    def __init__(self, platform, exported):
        self.packages = {package.aid: package for package in [*platform, *exported]}

    def package(self, aid):
        known = self.packages.get(aid)
        return f"{aid.hex().upper()} ({class_name(known.name)})" if known else aid.hex().upper()

    def class_info(self, aid, token):
        known = self.packages.get(aid)
        return next((info for info in known.classes.values() if info.token == token), None) if known and token is not None else None

    def class_(self, aid, token):
        info = self.class_info(aid, token)
        return class_name(info.name) if info else f"class {token} of {self.package(aid)}"

    def member(self, info, token, is_static):
        """A method by its token, as its class, its name and its descriptor; or None."""
        if info is None:
            return None
        tables = (info.static_methods,) if is_static else (info.virtual_methods, info.interface_methods)
        keys = [key for table in tables for key, each in table.items() if each == token]
        return (info.name, *keys[0]) if keys else None

    def virtual(self, card_class, token):
        """A virtual method as a call on a class means it, in the same form."""
        infos = (self.class_info(each.package.aid, each.token) for each in card_class.chain() if each is not UNKNOWN)
        return next(filter(None, (self.member(info, token, False) for info in infos)), None)


class Card:
    """The packages on a card."""

    def __init__(self, platform, names):
        self.names, self.packages, by_name = names, [], {}
        known = Classes(platform)
        for package in platform:
            self.packages.append(CardPackage(package.aid, package.version, False))
            made = {info.name: CardClass(self.packages[-1], info.is_interface) for info in package.classes.values()}
            for info in package.classes.values():
                each = made[info.name]
                each.token = info.token
                each.virtual, each.static = set(info.virtual_methods.values()), set(info.static_methods.values())
                self.packages[-1].exports[info.token] = each
            by_name.update(made)
        for name, each in by_name.items():
            above = known.above(known.known[name])
            each.superclass = by_name[above.name] if above else None

    def find(self, aid):
        return next((package for package in self.packages if package.aid == aid), None)

    def loaded(self):
        return sum(package.is_loaded for package in self.packages)


class Checked:
    """A package that is checked for a card. `reasons` are pairs of a status word and a text, of which the card answers the first."""

    def __init__(self, contents, card):
        self.card, self.names, self.reasons = card, card.names, []
        self.contents = contents
        self.read_components()
        self.need_components()
        self.compare_sizes()
        self.compare_offsets()
        self.link()

    def refuse(self, word, text):
        self.reasons.append((word, text))

    # The components, each for itself

    def read(self, tag, reader, *more):
        """What a component says, or None."""
        if tag not in self.contents:
            return None
        try:
            self.sizes[tag] = None
            source = cap.source_of(tag, self.contents[tag])
            self.sizes[tag] = len(source.content)
            return reader(source, *more)
        except cap.Fault as fault:
            self.refuse(fault.word, f"{cap.NAMES[tag]}.cap: {fault}")
            return None

    def read_components(self):
        faults, self.sizes = [], {}
        self.header = self.read(cap.HEADER, cap.Header, faults)
        self.reasons[:0] = [(fault.word, f"Header.cap: {fault}") for fault in faults]
        minor = self.header.format if self.header else None
        is_known = minor is not None
        self.directory = self.read(cap.DIRECTORY, cap.Directory, minor) if is_known else None
        self.applets = self.read(cap.APPLET, cap.read_applets)
        self.imports = self.read(cap.IMPORT, cap.read_imports)
        self.pool = self.read(cap.CONSTANT_POOL, cap.read_pool)
        self.records = self.read(cap.CLASSES, cap.read_classes, minor) if is_known else None
        self.methods = self.read(cap.METHOD, cap.Methods)
        self.statics = self.read(cap.STATIC_FIELDS, cap.Statics)
        self.exports = self.read(cap.EXPORT, cap.read_exports)

    # The components among each other

    def need_components(self):
        for tag, name in cap.NAMES.items():
            if tag not in self.contents and (self.header.asks(tag) if self.header else tag not in (cap.APPLET, cap.EXPORT)):
                self.refuse(cap.MISSING, f"{name}.cap is missing")

    def compare_sizes(self):
        said = self.directory
        if said is None:
            return
        for why in cap.wrong_sizes(said, self.sizes):
            self.refuse(cap.SIZES_DISAGREE, why)
        if self.statics:
            self.compare("the size of the static image", said.image_size, self.statics.image_size)
            self.compare("the initialised arrays", said.arrays, self.statics.arrays)
            self.compare("the size of the initialised arrays", said.array_bytes, self.statics.array_bytes)
        if self.imports is not None:
            self.compare("the imports", said.imports, len(self.imports))
        if cap.APPLET not in self.contents or self.applets is not None:
            self.compare("the applets", said.applets, len(self.applets or []))

    def compare(self, what, said, found):
        if said != found:
            self.refuse(cap.SIZES_DISAGREE, f"Directory.cap says {said} for {what}, not {found}")

    def need_method(self, offset, where):
        if self.methods and not self.methods.has_room(offset):
            self.refuse(cap.BAD_OFFSET, f"{where}: no method begins at {offset} of Method.cap")

    def need_record(self, offset, where):
        if self.records is not None and offset not in self.records:
            self.refuse(cap.BAD_OFFSET, f"{where}: no class begins at {offset} of Class.cap")

    def compare_offsets(self):
        for aid, offset in self.applets or []:
            self.need_method(offset, f"applet {aid.hex().upper()}")
        for number, entry in enumerate(self.pool or []):
            if entry.class_ref and not entry.class_ref.is_external:
                self.need_record(entry.class_ref.offset, f"entry {number}, {entry.kind}")
            if entry.tag == cap.STATIC_METHOD and entry.offset is not None:
                self.need_method(entry.offset, f"entry {number}, {entry.kind}")
        for record in (self.records or {}).values():
            for offset in record.public[1]:
                if not cap.is_inherited(offset):
                    self.need_method(offset, f"the class at {record.offset}")
            for offset in record.package[1]:
                self.need_method(offset, f"the class at {record.offset}")
        for token, export in enumerate(self.exports or []):
            self.need_record(export.offset, f"exported class {token}")
            for offset in export.methods:
                self.need_method(offset, f"exported class {token}")

    # The package among those on the card

    def link(self):
        if self.header is None:
            return
        if self.card.find(self.header.aid):
            self.refuse(AID_TAKEN, f"a package with the AID {self.names.package(self.header.aid)} is on the card")
        if self.card.loaded() >= MOST_PACKAGES:
            self.refuse(FULL, f"the card has {MOST_PACKAGES} packages")
        if self.imports is None:
            return
        self.package = CardPackage(self.header.aid, self.header.version, True)
        self.imported = [self.import_of(number, *each) for number, each in enumerate(self.imports)]
        self.make_classes()
        for number, entry in enumerate(self.pool or []):
            why = self.fault_of(entry)
            if why:
                self.refuse(UNRESOLVED, f"entry {number}, {entry.kind}: {why}")
        for offset in self.records or {}:
            self.complete(self.classes[offset], self.records[offset])

    def import_of(self, number, aid, version):
        """The imported package, or None."""
        found = self.card.find(aid)
        where = f"import {number}"
        if found is None:
            self.refuse(IMPORT_MISSING, f"{where}: the package {self.names.package(aid)} is not on the card")
        elif version[0] != found.version[0] or version[1] > found.version[1]:
            self.refuse(IMPORT_VERSION, "{}: the package {} has version {}.{} on the card, and {}.{} is imported".format(
                where, self.names.package(aid), *found.version, *version))
        return found

    def make_classes(self):
        """The package's own classes, by the offsets of their records."""
        tokens = {export.offset: token for token, export in enumerate(self.exports or [])}
        self.classes = {offset: CardClass(self.package, record.is_interface) for offset, record in (self.records or {}).items()}
        for offset, each in self.classes.items():
            record, each.token = self.records[offset], tokens.get(offset)
            each.public, each.hidden, each.fields = record.public, record.package, record.declared_cells
            each.superclass = self.class_of(record.superclass) if record.superclass else None
            each.interfaces = [(self.class_of(ref), ref, methods) for ref, methods in record.interfaces]
        for token, export in enumerate(self.exports or []):
            self.package.exports[token] = self.classes.get(export.offset, UNKNOWN)
            self.package.statics[token] = len(export.fields), len(export.methods)

    def class_of(self, ref):
        """The class that a reference names; None where there is none."""
        if not ref.is_external:
            return self.classes.get(ref.offset)
        if ref.package_token >= len(self.imported):
            return None
        package = self.imported[ref.package_token]
        return package.exports.get(ref.class_token) if package else UNKNOWN

    def name_of(self, ref):
        """What a reference names, as export files or the table tell it."""
        if not ref.is_external:
            return self.own_name(ref.offset)
        if ref.package_token >= len(self.imports):
            return f"class {ref.class_token} of import {ref.package_token}"
        return self.names.class_(self.imports[ref.package_token][0], ref.class_token)

    def own_name(self, offset):
        info = offset in self.classes and self.names.class_info(self.package.aid, self.classes[offset].token)
        return class_name(info.name) if info else f"the class at {offset}"

    def virtual_name(self, named, token, where):
        found = self.names.virtual(named, token)
        return method_name(*found) if found else f"virtual method {token} of {where}"

    def fault_of(self, entry):
        """Why an entry does not resolve, or None; an offset where no class begins was refused before."""
        ref = entry.class_ref
        if ref is None or not ref.is_external and ref.offset not in self.classes:
            return None
        if ref.is_external and ref.package_token >= len(self.imports):
            return f"the package has no import {ref.package_token}"
        named = self.class_of(ref)
        if named is UNKNOWN:
            return None
        return self.fault_of_member(entry, named, entry.token) if named else f"{self.name_of(ref)} is not on the card"

    def fault_of_member(self, entry, named, token):
        name = self.name_of(entry.class_ref)
        if entry.tag == cap.INSTANCE_FIELD and token >= named.fields:
            return f"{name} declares no field {token}"
        if entry.tag == cap.VIRTUAL_METHOD:
            if named.is_interface:
                return f"{name} is an interface"
            return None if named.has_method(token, named.package) else f"{self.virtual_name(named, token, name)} is not on the card"
        if entry.tag == cap.SUPER_METHOD:
            above = named.superclass
            if above is None:
                return f"{name} has no superclass on the card"
            where = f"the superclass of {name}"
            return None if above.has_method(token, named.package) else f"{self.virtual_name(above, token, where)} is not on the card"
        fields, methods = named.package.statics.get(entry.class_ref.class_token, (0, 0))
        if entry.tag == cap.STATIC_FIELD and token >= fields:
            return f"{name} has no static field {token}"
        if entry.tag == cap.STATIC_METHOD and not (token < methods or token in named.static):
            known = self.names.member(self.names.class_info(named.package.aid, named.token), token, True)
            return f"{method_name(*known) if known else f'static method {token} of {name}'} is not on the card"
        return None

    def complete(self, own, record):
        """Whether what a class names is there."""
        where, above = self.own_name(record.offset), own.superclass
        if not own.is_interface:
            name = self.name_of(record.superclass)
            if above is None:
                self.refuse(UNRESOLVED, f"{where}: its superclass {name} is not on the card")
            elif above.is_interface:
                self.refuse(UNRESOLVED, f"{where}: its superclass {name} is an interface")
        for listed, ref, methods in own.interfaces:
            name = self.name_of(ref)
            if listed is None or listed.is_interface is False:
                self.refuse(UNRESOLVED, f"{where}: its interface {name} {'is not on the card' if listed is None else 'is a class'}")
            for token in dict.fromkeys(methods):
                if not own.has_public(token):
                    self.refuse(UNRESOLVED, f"{where}: it has no virtual method {token}, which it names for {name}")
        base, offsets = record.public
        for token in (base + place for place, offset in enumerate(offsets) if cap.is_inherited(offset)):
            if above and (token > LARGEST_TOKEN or not above.has_public(token)):
                name = self.virtual_name(above, token, self.name_of(record.superclass))
                self.refuse(UNRESOLVED, f"{where}: it inherits {name}, which is not on the card")


def check(packages, table, exports):
    """The reasons for which a card with a platform table refuses the last of some packages, which come one after the other; where
    one before it is refused, the reasons are its own. Each package is the contents of its components by tag."""
    platform = read_table(table)
    exported = [reader.package for reader in read_exports(exports)]
    card = Card(platform, Names(platform, exported))
    for number, contents in enumerate(packages):
        checked = Checked(contents, card)
        if checked.reasons:
            return number, checked.reasons
        card.packages.append(checked.package)
    return len(packages) - 1, []
