"""The components of a package's CAP file."""
from .code import LARGEST_BYTE, two_bytes
from .package import CLASS, INSTALL, INSTANCE_FIELD, OWN, STATIC_FIELD, STATIC_METHOD, SUPER_METHOD, VIRTUAL_METHOD
from .refusal import Refusal, class_name
from .source_names import Local

MAGIC = bytes.fromhex("DECAFFED")
FLAG_EXPORT, FLAG_APPLET = 2, 4
SHORTEST_AID, LONGEST_AID = 5, 16
NAMES = {
    1: "Header", 2: "Directory", 3: "Applet", 4: "Import", 5: "ConstantPool", 6: "Class", 7: "Method", 8: "StaticField",
    9: "ReferenceLocation", 10: "Export"}
HEADER, DIRECTORY, APPLET, IMPORT, CONSTANT_POOL, CLASSES, METHOD, STATIC_FIELDS, REFERENCE_LOCATION, EXPORT = NAMES
SIZES_IN_DIRECTORY = {1: 11, 2: 12}  # by the minor version of the format
IS_INTERFACE, IS_SHAREABLE = 8, 4
ABSTRACT, EXTENDED = 4, 8
NO_REFERENCES = 0xFF
OF_ANOTHER_PACKAGE = 0xFFFF
EXTERNAL = 0x80
STOP = 0x8000
LONGEST_METHODS = 32767
# Fields come first, since their instructions may have an index of one byte, and classes last: a handler's index of a class is
# never 0.
RANKS = {INSTANCE_FIELD: 0, STATIC_METHOD: 1, VIRTUAL_METHOD: 2, SUPER_METHOD: 3, STATIC_FIELD: 4, CLASS: 5}


def identity(package):
    """Version and AID of a package."""
    major, minor = package.version
    return bytes([minor, major, len(package.aid)]) + package.aid


def distances(places):
    """A list of the ReferenceLocation component: of each place, how far it is from the one before."""
    content, before = b"", 0
    for place in sorted(places):
        steps, rest = divmod(place - before, 255)
        content += b"\xFF" * steps + bytes([rest])
        before = place
    return two_bytes(len(content)) + content


class Components:
    """The components, by their tags. `minor` is the minor version of the format 2.1 or 2.2."""

    def __init__(self, package, minor):
        self.package, self.minor = package, minor
        self.name_classes()
        entries = sorted(package.entries, key=lambda entry: RANKS[entry[0]])
        self.entries = entries
        self.indices = {entry: index for index, entry in enumerate(entries)}
        self.one_byte_places, self.two_byte_places = [], []
        self.methods = {}  # offsets in the Method component, by class and key
        self.java_lines = {}  # lines of the Java source, by the offsets of the instructions with which they begin
        self.java_locals = {}  # local variables of the Java source, by the offsets of their methods
        infos = {METHOD: self.method_component()}
        self.set_class_offsets()
        infos[CLASSES] = self.class_component()
        infos[CONSTANT_POOL] = two_bytes(len(entries)) + b"".join(map(self.entry, entries))
        infos[STATIC_FIELDS] = self.static_fields()
        infos[IMPORT] = bytes([len(package.imports)]) + b"".join(map(identity, package.imports))
        if package.request.applets:
            infos[APPLET] = bytes([len(package.request.applets)]) + b"".join(
                bytes([len(aid)]) + aid + two_bytes(self.methods[(name, *INSTALL)]) for aid, name in package.request.applets)
        if package.exports:
            infos[EXPORT] = bytes([len(package.exports)]) + b"".join(map(self.exported, package.exports))
        infos[REFERENCE_LOCATION] = distances(self.one_byte_places) + distances(self.two_byte_places)
        infos[HEADER] = self.header()
        infos[DIRECTORY] = self.directory(infos)
        for tag, info in infos.items():
            if len(info) > 65535:
                raise Refusal(f"the {NAMES[tag]} component has more than 65535 bytes")
        self.contents = {tag: bytes([tag]) + two_bytes(len(infos[tag])) + infos[tag] for tag in sorted(infos)}

    def own(self):
        """What is known of the package's classes, in order."""
        return [self.package.classes.known[name] for name in self.package.order]

    def name_classes(self):
        """Lets the package import what its classes alone name."""
        for info in self.own():
            where = class_name(info.name)
            for each in ([] if info.is_interface else [self.package.above(info)]) + self.package.classes.interfaces(info):
                self.package.reference(each, where)

    # Method

    def method_component(self):
        bodies = [((name, *key), body, arguments) for name, key, body, arguments in self.package.bodies]
        contents = {id(body): body.lay_out(self.indices) for _, body, _ in bodies if body is not None}
        rows = {id(body): body.handler_rows() for _, body, _ in bodies if body is not None}
        count = sum(map(len, rows.values()))
        if count > LARGEST_BYTE:
            raise Refusal(f"the package has more than {LARGEST_BYTE} exception handlers")
        at, handlers, methods = 1 + 8 * count, b"", b""
        for key, body, arguments in bodies:
            self.methods[key] = at
            header = self.method_header(body, arguments)
            start = at + len(header)
            methods += header
            if body is not None:
                methods += contents[id(body)]
                self.java_lines.update((start + offset, line) for offset, line in body.java_lines())
                self.java_locals[at] = [Local(number, start + first, start + end, *more) for number, first, end, *more in body.locals_of_source()]
                handlers += b"".join(self.handler(start, *row) for row in rows[id(body)])
                for offset, size in body.layout.index_places:
                    (self.one_byte_places if size == 1 else self.two_byte_places).append(start + offset)
            at = 1 + 8 * count + len(methods)
        if at > LONGEST_METHODS:
            raise Refusal(f"the methods of the package take {at} bytes, and at most {LONGEST_METHODS} can be named")
        return bytes([count]) + handlers + methods

    def method_header(self, body, arguments):
        if body is None:
            if arguments <= 15:
                return bytes([ABSTRACT << 4, arguments << 4])
            return bytes([(EXTENDED | ABSTRACT) << 4, 0, arguments, 0])
        if self.package.style.short_headers and max(body.max_stack, arguments, body.locals) <= 15:
            return bytes([body.max_stack, arguments << 4 | body.locals])
        return bytes([EXTENDED << 4, body.max_stack, arguments, body.locals])

    def handler(self, method, start, end, at, caught, is_last):
        index = 0 if caught is None else self.indices[caught]
        return two_bytes(method + start) + two_bytes((STOP if is_last else 0) | end - start) + two_bytes(method + at) + two_bytes(index)

    # Class

    def set_class_offsets(self):
        self.offsets, self.tables = {}, {}
        at = 0 if self.minor == 1 else 2
        for info in self.own():
            self.offsets[info.name] = at
            interfaces = self.package.classes.interfaces(info)
            if info.is_interface:
                at += 1 + 2 * len(interfaces)
            else:
                self.tables[info.name] = self.table(info, "virtual_methods", info.virtual_end), self.table(
                    info, "package_methods", info.package_end)
                at += 10 + sum(2 * len(offsets) for _, offsets in self.tables[info.name])
                at += sum(3 + len(interface.interface_methods) for interface in interfaces)

    def table(self, info, name, end):
        """A table of virtual methods: its first token, and the offsets of its methods up to the last one, inherited ones too."""
        base = min(getattr(info, name).values(), default=end)
        return base, [self.method_offset(info, name, token) for token in range(base, end)]

    def method_offset(self, info, table, token):
        for each in self.package.classes.chain(info):
            key = next((key for key, number in getattr(each, table).items() if number == token), None)
            if key is not None:
                return self.methods[(each.name, *key)] if self.package.is_own(each) else OF_ANOTHER_PACKAGE
        return OF_ANOTHER_PACKAGE

    def reference(self, reference):
        owner, named = reference
        if owner == OWN:
            return two_bytes(self.offsets[named])
        number = [package.name for package in self.package.imports].index(owner)
        return bytes([EXTERNAL | number, named])

    def reference_to(self, info):
        return self.reference(self.package.reference(info))

    def class_component(self):
        content = b"" if self.minor == 1 else two_bytes(0)
        for info in self.own():
            interfaces = self.package.classes.interfaces(info)
            if len(interfaces) > 15:
                raise Refusal(f"{class_name(info.name)}: more than 15 interfaces")
            flags = (IS_INTERFACE if info.is_interface else 0) | (IS_SHAREABLE if self.package.classes.is_shareable(info) else 0)
            content += bytes([flags << 4 | len(interfaces)])
            if info.is_interface:
                content += b"".join(map(self.reference_to, interfaces))
            else:
                content += self.class_record(info, interfaces)
        return content

    def class_record(self, info, interfaces):
        (base, offsets), (package_base, package_offsets) = self.tables[info.name]
        content = self.reference_to(self.package.above(info))
        content += bytes([info.cells, min(info.references, default=NO_REFERENCES), len(info.references)])
        content += bytes([base, len(offsets), package_base, len(package_offsets)])
        content += b"".join(map(two_bytes, offsets + package_offsets))
        for interface in interfaces:
            keys = sorted(interface.interface_methods, key=interface.interface_methods.get)
            content += self.reference_to(interface) + bytes([len(keys)])
            content += bytes(self.package.lookup(info, key, "virtual_methods")[1] for key in keys)
        return content

    # The others

    def entry(self, entry):
        tag, owner, *rest = entry
        if tag == CLASS:
            return bytes([tag]) + self.reference(owner) + b"\0"
        if owner == OWN:
            place = self.package.statics.places[tuple(rest)] if tag == STATIC_FIELD else self.methods[tuple(rest)]
            return bytes([tag, 0]) + two_bytes(place)
        return bytes([tag]) + self.reference(owner) + bytes(rest)

    def exported(self, info):
        fields = [name for name, token in info.static_fields.items() if token is not None]
        methods = sorted(info.static_methods, key=info.static_methods.get)
        content = two_bytes(self.offsets[info.name]) + bytes([len(fields), len(methods)])
        content += b"".join(two_bytes(self.package.statics.places[info.name, name]) for name in fields)
        return content + b"".join(two_bytes(self.methods[(info.name, *key)]) for key in methods)

    def static_fields(self):
        statics = self.package.statics
        content = two_bytes(statics.size) + two_bytes(statics.references) + two_bytes(len(statics.arrays))
        content += b"".join(bytes([kind]) + two_bytes(len(array)) + array for kind, array in statics.arrays)
        return content + two_bytes(statics.zeros) + two_bytes(len(statics.values)) + statics.values

    def header(self):
        package = self.package
        flags = (FLAG_APPLET if package.request.applets else 0) | (FLAG_EXPORT if package.exports else 0)
        content = MAGIC + bytes([self.minor, 2, flags]) + identity(package.info)
        if self.minor > 1:
            name = package.info.name.encode()
            content += bytes([len(name)]) + name
        return content

    def directory(self, infos):
        count, statics = SIZES_IN_DIRECTORY[self.minor], self.package.statics
        sizes = {tag: len(info) for tag, info in infos.items()}
        sizes[DIRECTORY] = 2 * count + 9
        content = b"".join(two_bytes(sizes.get(tag, 0)) for tag in range(1, count + 1))
        content += two_bytes(statics.size) + two_bytes(len(statics.arrays)) + two_bytes(sum(len(array) for _, array in statics.arrays))
        return content + bytes([len(self.package.imports), len(self.package.request.applets), 0])
