"""One package: the tokens of its classes, and the entries of its constant pool that its code names."""
from dataclasses import dataclass, field

from .class_file import NATIVE, SYNCHRONIZED
from .library import OBJECT, Classes, ClassInfo, PackageInfo
from .platform import table_with, tables_of_classes
from .refusal import Reasons, Refusal, class_name, fault_of_type, is_reference, lacking, method_name, types_of
from .statics import StaticImage
from .translation import Translation

# Tags of the constant pool.
CLASS, INSTANCE_FIELD, VIRTUAL_METHOD, SUPER_METHOD, STATIC_FIELD, STATIC_METHOD = 1, 2, 3, 4, 5, 6
OWN = "own"
INSTALL = ("install", "([BSB)V")
NO_INSTALL = "the applet has no method public static void install(byte[], short, byte)"
OF_PACKAGE = 0x80  # set in the token of a method that the package alone may call
LARGEST_TOKEN = 127


@dataclass
class Request:
    """What is to be converted: a package by its Java name, with a slash between its parts."""

    name: str
    aid: bytes
    version: tuple = (1, 0)
    applets: list = field(default_factory=list)  # pairs of an AID and a class's name


class Package:
    """The package of some class files.

    An entry of the constant pool is a tuple of its tag, the reference to its class or OWN, and what names the member; the
    reference to a class is OWN and its name, or the name of its package and its token."""

    def __init__(self, request, files, imported, style):
        self.request, self.files, self.style = request, files, style
        self.info = PackageInfo(request.name, request.aid, request.version)
        self.classes = Classes(imported, tables_of_classes())
        self.imports = []  # packages in the order of their tokens
        self.entries = {}  # of the constant pool, in the order in which they are met
        self.missing = {}  # the abstract methods that a class has of its interfaces without a declaration
        self.refused = set()  # the methods whose head is refused, by class and key: nothing is said of their code
        self.order = self.ordered()
        reasons = Reasons()
        for name in self.order:
            with reasons:
                self.declare(self.files[name])
        reasons.end()
        for name in self.order:
            self.check_members(self.files[name], reasons)
        self.give_all_tokens(reasons)
        self.exports = self.exported()
        with reasons:
            self.check_applets()
        with reasons:
            self.statics = StaticImage(self)
        self.bodies = []  # the class's name, the method's key, its translation or None, and the number of its arguments
        for name in self.order:
            self.translate(self.files[name], reasons)
        reasons.end()

    # Classes

    def ordered(self):
        """The names of the classes, interfaces first, and each after those that it stands on."""
        found = []

        def add(name):
            if name in self.files and name not in found:
                for above in self.files[name].interfaces + [self.files[name].superclass]:
                    add(above)
                found.append(name)

        for name in sorted(self.files, key=lambda name: (not self.files[name].is_interface, name)):
            add(name)
        return found

    def declare(self, file):
        above = None if file.is_interface else file.superclass
        info = ClassInfo(file.name, self.info, above, file.interfaces, file.is_interface)
        for name in ([file.superclass] if file.superclass else []) + info.interfaces:
            self.classes.find(name, file.place())
        self.info.add(info)
        self.classes.known[file.name] = info

    def check_members(self, file, reasons):
        for each in file.fields:
            with reasons:
                if each.name == "$assertionsDisabled":
                    raise Refusal(f"{file.place()}: assert, which the card does not have")
                self.check_type(each.descriptor, file.place(), f"the field {each.name} has ")
        for method in file.methods:
            before = len(reasons.reasons)
            with reasons:
                self.check_method(file, method)
            if len(reasons.reasons) > before:
                self.refused.add((file.name, method.key))

    def check_type(self, descriptor, where, what):
        """That the card has the type, and its class is known."""
        fault = fault_of_type(descriptor)
        if fault:
            raise Refusal(f"{where}: {what}{fault}, which the card does not have")
        element = descriptor.lstrip("[")
        if element[0] == "L":
            self.classes.find(element[1:-1], f"{where}: {what.strip()} a type that is not there")

    def check_method(self, file, method):
        where = file.place(method)
        if method.flags & NATIVE:
            raise Refusal(f"{where}: a native method, which the card does not have")
        if method.flags & SYNCHRONIZED:
            raise Refusal(f"{where}: synchronized, which the card does not have")
        if file.is_interface and file.code(method):
            raise Refusal(f"{where}: an interface has code, which the card does not have")
        parameters, result = types_of(method.descriptor)
        for descriptor in parameters + [result]:
            self.check_type(descriptor, where, "a parameter or the result has ")

    def is_own(self, info):
        return info.package is self.info

    def above(self, info):
        return self.classes.above(info)

    def lookup(self, info, key, table):
        """The first class from this one up whose table has the key, and the token."""
        for each in self.classes.chain(info):
            if key in getattr(each, table):
                return each, getattr(each, table)[key]
        return None, None

    # Tokens

    def give_all_tokens(self, reasons):
        """Gives the tokens of all classes, without which no code can be made."""
        lacking_tokens = Reasons()
        for name in self.order:
            with lacking_tokens:
                self.give_tokens(self.files[name])
        if lacking_tokens.reasons:
            raise Refusal(*reasons.reasons, *lacking_tokens.reasons)

    def give_tokens(self, file):
        info = self.classes.known[file.name]
        if file.is_interface:
            for interface in self.classes.interfaces(info):
                for key in interface.interface_methods:
                    info.interface_methods.setdefault(key, len(info.interface_methods))
            for method in file.methods:
                if method.name != "<clinit>":
                    info.interface_methods.setdefault(method.key, len(info.interface_methods))
            return
        above = self.above(info)
        info.virtual_end = above.virtual_end
        info.package_end = above.package_end if self.is_own(above) else 0
        for method in file.methods:
            if not (method.is_static or method.is_private or method.name[0] == "<"):
                self.give_virtual_token(info, above, method)
        self.add_missing(file, info)
        if max(info.virtual_end, info.package_end) > LARGEST_TOKEN + 1:
            raise Refusal(f"{file.place()}: more than {LARGEST_TOKEN + 1} methods")
        fields = [each for each in file.fields if not each.is_static]
        fields.sort(key=lambda each: is_reference(each.descriptor))
        info.fields = {each.name: token for token, each in enumerate(fields)}
        info.cells, info.references = len(fields), [
            token for token, each in enumerate(fields) if is_reference(each.descriptor)]
        if info.cells > 255:
            raise Refusal(f"{file.place()}: more than 255 fields")

    def give_virtual_token(self, info, above, method):
        """The token of a method: that of the method which it overrides, or a new one."""
        _, token = self.lookup(above, method.key, "virtual_methods")
        overridden, package_token = self.lookup(above, method.key, "package_methods")
        if overridden is not None and self.is_own(overridden):
            info.package_methods[method.key] = package_token
        if method.is_visible:
            if token is None:
                token = info.virtual_end
                info.virtual_end += 1
            info.virtual_methods[method.key] = token
        elif method.key not in info.package_methods:
            info.package_methods[method.key] = info.package_end
            info.package_end += 1

    def add_missing(self, file, info):
        """Gives an abstract class the methods of its interfaces that it leaves open."""
        self.missing[file.name] = []
        for interface in self.classes.interfaces(info):
            for key in interface.interface_methods:
                if self.lookup(info, key, "virtual_methods")[0] is None:
                    if not file.is_abstract:
                        raise Refusal(f"{file.place()}: {method_name(interface.name, *key)} is missing")
                    info.virtual_methods[key] = info.virtual_end
                    info.virtual_end += 1
                    self.missing[file.name].append(key)

    def exported(self):
        """The classes that other packages may name, in the order of their tokens: of a package with applets its shareable
        interfaces, of another one its public classes."""
        found = []
        for name in self.order:
            file, info = self.files[name], self.classes.known[name]
            if not file.is_public or (self.request.applets and not (file.is_interface and self.classes.is_shareable(info))):
                continue
            info.token = len(found)
            found.append(info)
            for method in file.methods:
                if not file.is_interface and method.is_visible and (method.is_static or method.name == "<init>"):
                    info.static_methods[method.key] = len(info.static_methods)
        if len(found) > 255:
            raise Refusal("more than 255 public classes")
        return found

    def check_applets(self):
        reasons = Reasons()
        for _, name in self.request.applets:
            with reasons:
                if name not in self.files:
                    raise Refusal(f"the package has no class {class_name(name)}")
                method = self.files[name].method(INSTALL)
                if method is None or not method.is_static or not method.is_visible:
                    raise Refusal(f"{self.files[name].place()}: {NO_INSTALL}")
        reasons.end()

    def translate(self, file, reasons):
        if file.is_interface:
            return
        for method in file.methods:
            if method.name == "<clinit>":
                continue
            translation = None
            with reasons:
                if file.code(method) and (file.name, method.key) not in self.refused:
                    translation = Translation(self, file, method, self.style)
            self.bodies.append((file.name, method.key, translation, method.arguments))
        for key in self.missing[file.name]:
            self.bodies.append((file.name, key, None, 1 + len(types_of(key[1])[0])))

    # What code names

    def reference(self, info, where=""):
        if self.is_own(info):
            return OWN, info.name
        if info.token is None:
            raise Refusal(f"{where}: class {class_name(info.name)} is not exported by its package")
        if info.package not in self.imports:
            self.imports.append(info.package)
        return info.package.name, info.token

    def entry(self, *entry):
        self.entries.setdefault(entry)
        return entry

    def class_entry(self, name, where):
        return self.entry(CLASS, self.reference(self.classes.find(name, where), where))

    def field_entry(self, owner, name, where):
        info, token = self.lookup(self.classes.find(owner, where), name, "fields")
        if info is None:
            raise Refusal(f"{where}: {class_name(owner)}.{name} is not there")
        return self.entry(INSTANCE_FIELD, self.reference(info, where), token)

    def static_field_entry(self, owner, name, where):
        info, token = self.lookup(self.classes.find(owner, where), name, "static_fields")
        if info is None:
            raise Refusal(f"{where}: {class_name(owner)}.{name} is not there")
        if self.is_own(info):
            return self.entry(STATIC_FIELD, OWN, info.name, name)
        return self.entry(STATIC_FIELD, self.reference(info, where), token)

    def static_method_entry(self, owner, name, descriptor, where):
        """Of a static method, which may stand in a class above the one that is named, or of a constructor, which may not."""
        info = self.classes.find(owner, where)
        for each in [info] if name == "<init>" else self.classes.chain(info):
            if self.is_own(each):
                if self.files[each.name].method((name, descriptor)):
                    return self.entry(STATIC_METHOD, OWN, each.name, name, descriptor)
            elif (name, descriptor) in each.static_methods:
                return self.entry(STATIC_METHOD, self.reference(each, where), each.static_methods[name, descriptor])
        raise Refusal(f"{where}: {lacking(owner, name, descriptor, table_with(owner, (name, descriptor)))}")

    def private_method_entry(self, owner, name, descriptor):
        """Of a private method of the package; None where the method is another one."""
        method = self.files[owner].method((name, descriptor)) if owner in self.files else None
        if method is None or not method.is_private:
            return None
        return self.entry(STATIC_METHOD, OWN, owner, name, descriptor)

    def special_method_entry(self, caller, owner, name, descriptor, where):
        """Of a constructor, a private method, or a method of a class above the caller's."""
        if name == "<init>":
            return self.static_method_entry(owner, name, descriptor, where)
        private = self.private_method_entry(owner, name, descriptor)
        if private is not None:
            return private
        info = self.classes.known[caller.name]
        token = self.virtual_token(self.above(info), name, descriptor, where)
        return self.entry(SUPER_METHOD, self.reference(info, where), token)

    def virtual_token(self, info, name, descriptor, where):
        found, token = self.lookup(info, (name, descriptor), "virtual_methods")
        if found is not None:
            return token
        found, token = self.lookup(info, (name, descriptor), "package_methods")
        if found is not None and self.is_own(found):
            return token | OF_PACKAGE
        raise Refusal(f"{where}: {lacking(info.name, name, descriptor, table_with(info.name, (name, descriptor)))}")

    def virtual_method_entry(self, owner, name, descriptor, where):
        info = self.classes.find(OBJECT if owner[0] == "[" else owner, where)
        return self.entry(VIRTUAL_METHOD, self.reference(info, where), self.virtual_token(info, name, descriptor, where))

    def interface_method_entry(self, owner, name, descriptor, where):
        info = self.classes.find(owner, where)
        token = info.interface_methods.get((name, descriptor))
        if token is None:
            raise Refusal(f"{where}: {lacking(owner, name, descriptor, table_with(owner, (name, descriptor)))}")
        return self.entry(CLASS, self.reference(info, where)), token
