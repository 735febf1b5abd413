"""Where the methods of a package stand, and their names: from the Descriptor and the Debug component of its CAP file.

What they are taken to be, of formats 2.1 and 2.2 (u1, u2, u4 are numbers of 1, 2 and 4 bytes):

  Descriptor: u1 class_count; classes; then types, which are not looked at
    class: u1 token, u1 flags, u2 this_class_ref, u1 interface_count, u2 field_count, u2 method_count; u2 interfaces; fields; methods
    field: 7 bytes
    method: u1 token, u1 flags, u2 method_offset, u2 type_offset, u2 bytecode_count, u2 handler_count, u2 handler_index
  Debug: u2 string_count; strings, each u2 length and its bytes; u2 package_name_index; u2 class_count; classes
    class: u2 name_index, u2 flags, u2 location, u2 superclass_name_index, u2 source_file_index, u1 interface_count, u2 field_count,
      u2 method_count; u2 interface_name_indices; fields; methods
    field: u2 name_index, u2 descriptor_index, u2 flags, u4 contents: the token of an instance field, the place in the static image of a
      static one, or its value where it is final and a number
    method: u2 name_index, u2 descriptor_index, u2 flags, u2 location, u1 header_size, u2 body_size, u2 variable_count, u2 line_count;
      variables
    variable: u1 index, u2 name_index, u2 descriptor_index, u2 start, u2 length, of the method's code from 0
    line: u2 start, u2 end, of the method's code from 0, u2 line of the source

A method of an interface is at no offset, which is stated by 0.
"""
from . import card_components as cap
from .card_check import MOST_VISIBLE, Card, Checked, Names
from .components import METHOD
from .export_file import link, read_exports
from .map_lines import entry_lines, map_text, told_method
from .refusal import Refusal, class_name
from .source_names import Local, Record

ACC_STATIC, ACC_FINAL, ACC_INIT = 0x08, 0x10, 0x80
FIELD_IN_DESCRIPTOR = 7
NO_METHOD = (0, 0xFFFF)


class Debug:
    """The names of methods and their local variables, by the offsets of the methods; and the classes with their places."""

    def __init__(self, source):
        self.source, self.methods, self.java_lines, self.java_locals, self.classes = source, {}, {}, {}, []
        self.strings = [source.take(source.number(2)).decode("utf-8", "replace") for _ in range(source.number(2))]
        source.take(2)
        for _ in range(source.number(2)):
            self.class_info()

    def string(self):
        index = self.source.number(2)
        if index >= len(self.strings):
            raise cap.Fault(cap.BAD_OFFSET, f"it has no string {index}")
        return self.strings[index]

    def class_info(self):
        source, name = self.source, self.string()
        source.take(2)
        place = source.number(2)
        above, file = self.string(), self.string()
        folder = name.rpartition("/")[0]
        record = Record(name, above, f"{folder}/{file}" if folder and "/" not in file else file, {}, {})
        self.classes.append((place, record))
        interfaces, fields, methods = source.number(1), source.number(2), source.number(2)
        source.take(2 * interfaces)
        for _ in range(fields):
            self.field_info(record)
        for _ in range(methods):
            self.method_info(name)

    def field_info(self, record):
        name, descriptor, flags, contents = self.string(), self.string(), self.source.number(2), self.source.number(4)
        if not flags & ACC_STATIC:
            record.fields[contents] = descriptor, name
        elif not flags & ACC_FINAL or descriptor[:1] == "[":
            record.statics[contents] = descriptor, name

    def method_info(self, owner):
        source, name, descriptor = self.source, self.string(), self.string()
        source.take(2)
        offset = source.number(2)
        start = offset + source.number(1)
        source.take(2)
        variables, lines = source.numbers(2)
        found = [self.variable_info(start) for _ in range(variables)]
        self.line_infos(start, lines)
        if offset not in NO_METHOD:
            self.java_locals[offset] = found
            self.methods[offset] = told_method(owner, name, descriptor)

    def variable_info(self, method):
        number, name, descriptor = self.source.number(1), self.string(), self.string()
        start, length = self.source.numbers(2)
        return Local(number, method + start, method + start + length, descriptor, name)

    def records(self):
        """The classes by the numbers of their records, which stand in the order of their places."""
        return list(enumerate(record for _, record in sorted(self.classes, key=lambda each: each[0])))

    def line_infos(self, start, count):
        for _ in range(count):
            begin, _, line = (self.source.number(2) for _ in range(3))
            if line:
                self.java_lines[start + begin] = line


class Descriptor:
    """Of each method its offset, the offset of its class, its token and its flags."""

    def __init__(self, source):
        self.methods = []
        for _ in range(source.number(1)):
            source.take(2)
            place, interfaces, fields, methods = source.number(2), source.number(1), source.number(2), source.number(2)
            source.take(2 * interfaces + FIELD_IN_DESCRIPTOR * fields)
            for _ in range(methods):
                token, flags, offset = source.number(1), source.number(1), source.number(2)
                source.take(8)
                if offset not in NO_METHOD:
                    self.methods.append((offset, place, token, flags))


class ExportedNames:
    """The names of methods that have none in a Debug component: of those that export files name, in the package or above it."""

    def __init__(self, contents, exports):
        packages = link(read_exports(exports), [])
        self.names = Names([], packages)
        self.checked = Checked(contents, Card(packages, self.names))
        self.installs = {offset for _, offset in self.checked.applets or []}

    def name(self, offset, place, token, flags):
        own = self.checked.classes.get(place)
        info = own and self.names.class_info(self.checked.package.aid, own.token)
        owner = info.name if info else f"class_{place}"
        if flags & ACC_STATIC or flags & ACC_INIT:
            found = self.names.member(info, token, True)
        else:
            found = self.names.virtual(own, token) if own and token < MOST_VISIBLE else None
        if found:
            return told_method(owner, *found[1:])
        if flags & ACC_INIT:
            return f"{class_name(owner)}.<init>"
        return f"{class_name(owner)}.{'install' if offset in self.installs else f'method_{offset}'}"


def component(contents, tag, name, reader):
    """What a component says, or None where the package has none."""
    if tag not in contents:
        return None
    try:
        return reader(cap.source_of(tag, contents[tag]))
    except cap.Fault as fault:
        raise Refusal(f"{name}.cap: {fault}") from None


def map_of(aid, contents, exports):
    """The lines of the map of a package: its AID, for each method an offset in the Method component, a name, and its instructions, and what its
    constant pool names of other packages, where export files tell the names."""
    debug, descriptor = component(contents, cap.DEBUG, "Debug", Debug), component(contents, cap.DESCRIPTOR, "Descriptor", Descriptor)
    if debug is None and descriptor is None:
        raise Refusal("the CAP file has neither a Descriptor nor a Debug component; of Java source tools/convert --map writes a map")
    names = ExportedNames(contents, exports)
    found = {offset: names.name(offset, *more) for offset, *more in descriptor.methods} if descriptor else {}
    found.update(debug.methods if debug else {})
    more = (debug.java_lines, debug.records(), debug.java_locals) if debug else ({},)
    text = map_text(aid, contents[METHOD][3:], found, *more)
    return text + entry_lines(names.checked.imports, names.checked.pool, names.names)
