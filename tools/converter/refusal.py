"""What is refused, and how types and methods are called in Java."""

PRIMITIVE = {"B": "byte", "S": "short", "Z": "boolean", "V": "void", "I": "int", "J": "long", "F": "float", "D": "double", "C": "char"}
CARD_TYPES = ("B", "S", "Z")
OF_API = ("java/", "javacard/", "javacardx/")
CRYPTOGRAPHY = ("javacard/security/", "javacardx/crypto/", "javacardx/security/")


class Refusal(Exception):
    """Why something is not converted, a line for each reason."""

    def __init__(self, *reasons):
        super().__init__("\n".join(reasons))
        self.reasons = list(reasons)


class Reasons:
    """Gathers refusals, so that all of a package are reported at once."""

    def __init__(self):
        self.reasons = []

    def __enter__(self):
        return self

    def __exit__(self, kind, error, trace):
        if kind is not None and issubclass(kind, Refusal):
            self.reasons += [reason for reason in error.reasons if reason not in self.reasons]
            return True
        return False

    def end(self):
        if self.reasons:
            raise Refusal(*self.reasons)


def class_name(name):
    return name.replace("/", ".")


def type_name(descriptor):
    """A type as Java writes it."""
    dimensions = len(descriptor) - len(descriptor.lstrip("["))
    element = descriptor[dimensions:]
    name = class_name(element[1:-1]) if element[0] == "L" else PRIMITIVE[element]
    return name + "[]" * dimensions


def types_of(descriptor):
    """The types of a method's parameters, and its result."""
    parameters, at = [], 1
    while descriptor[at] != ")":
        end = at
        while descriptor[end] == "[":
            end += 1
        end = descriptor.index(";", end) + 1 if descriptor[end] == "L" else end + 1
        parameters.append(descriptor[at:end])
        at = end
    return parameters, descriptor[at + 1:]


def is_reference(descriptor):
    return descriptor[0] in "L["


def method_name(owner, name, descriptor):
    """A method as Java names it, with its parameters."""
    parameters = ", ".join(map(type_name, types_of(descriptor)[0]))
    called = class_name(owner) if name == "<init>" else f"{class_name(owner)}.{name}"
    return f"{called}({parameters})"


def lacking(owner, name, descriptor, table=None):
    """That the card has no such method, and the example table that has it, or where those of the API are listed."""
    if table:
        listed = f" of this platform table; {table} has it"
    else:
        listed = " (docs/api.table lists what can be)" if owner.startswith(OF_API) else ""
    return f"{method_name(owner, name, descriptor)} is not on the card{listed}"


def unknown_class(name, table=None):
    """That no package has the class, and the example table that has it."""
    called = f"class {class_name(name)}"
    if table:
        return f"{called} is not on the card of this platform table; {table} has it"
    if name.startswith(CRYPTOGRAPHY):
        return f"{called} is not on the card (docs/api.table lists what can be)"
    return f"{called} is neither on the card nor in an export file"


def fault_of_type(descriptor):
    """Why a card cannot have the type; None where it can."""
    element = descriptor.lstrip("[")
    if len(descriptor) - len(element) > 1:
        return f"type {type_name(descriptor)}, an array of arrays"
    if element[0] == "L" or element in CARD_TYPES or descriptor == "V":
        return None
    return f"type {type_name(descriptor)}"
