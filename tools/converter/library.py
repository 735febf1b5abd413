"""What is known of packages and their classes: those of the platform, those that are imported, and the one in work."""
from .refusal import Refusal, class_name, unknown_class

OBJECT = "java/lang/Object"
APPLET = "javacard/framework/Applet"
SHAREABLE = "javacard/framework/Shareable"
LANG, FRAMEWORK, APDU, SECURITY, CRYPTO = "java/lang", "javacard/framework", "javacardx/apdu", "javacard/security", "javacardx/crypto"
CONSTANTS_ALONE = "javacard/framework/ISO7816"  # an interface of which nothing is left in the code that is made


class PackageInfo:
    """A package's name, AID, version and classes. `version` is a pair, major and minor."""

    def __init__(self, name, aid, version):
        self.name, self.aid, self.version = name, aid, version
        self.classes = {}

    def add(self, info):
        self.classes[info.name] = info


class ClassInfo:
    """A class or an interface, with the tokens by which code names its members.

    A method's key is its name and its descriptor. The token of the class is None where other packages cannot name it."""

    def __init__(self, name, package, superclass=None, interfaces=(), is_interface=False, token=None):
        self.name, self.package, self.superclass, self.token = name, package, superclass, token
        self.interfaces = [interface for interface in interfaces if interface != CONSTANTS_ALONE]
        self.is_interface = is_interface
        self.static_methods = {}  # keys to tokens, constructors among them
        self.virtual_methods = {}
        self.package_methods = {}  # those that the package alone may call and override
        self.interface_methods = {}
        self.fields = {}  # names to tokens
        self.static_fields = {}
        self.virtual_end = self.package_end = 0  # the tokens after the last ones
        self.cells = 0  # fields that the class itself declares


class Classes:
    """All classes that a package can name. `extended` has, by its name, for each that an extended platform table can have the table with it."""

    def __init__(self, packages, extended=None):
        self.packages, self.extended = list(packages), extended or {}
        self.known = {name: info for package in self.packages for name, info in package.classes.items()}

    def find(self, name, where):
        info = self.known.get(name)
        if info is None:
            raise Refusal(f"{where}: {unknown_class(name, self.extended.get(name))}")
        return info

    def above(self, info):
        """The superclass, or None."""
        return self.find(info.superclass, class_name(info.name)) if info.superclass else None

    def chain(self, info):
        """The class and those above it."""
        while info is not None:
            yield info
            info = self.above(info)

    def interfaces(self, info):
        """The interfaces that a class or an interface lists, and those that they extend: each once, the uppermost first."""
        found = []

        def add(name):
            interface = self.find(name, class_name(info.name))
            for above in interface.interfaces:
                add(above)
            if interface not in found:
                found.append(interface)

        for name in info.interfaces:
            add(name)
        return found

    def is_shareable(self, info):
        """Whether it is, extends or has an interface that is shareable."""
        return any(
            each.name == SHAREABLE or any(interface.name == SHAREABLE for interface in self.interfaces(each))
            for each in self.chain(info))

    def set_ends(self):
        """Finds for each class of the packages the first virtual token that is free."""
        for info in self.known.values():
            tokens = [token for each in self.chain(info) for token in each.virtual_methods.values()]
            info.virtual_end = max(tokens, default=-1) + 1
