"""The static fields of a package, and their first values."""
from .bytecode import decode
from .code import two_bytes
from .refusal import Reasons, Refusal, fault_of_type, is_reference

SIZES = {"S": 2, "B": 1, "Z": 1}
ELEMENTS = {4: 2, 8: 3, 9: 4}  # of newarray: boolean, byte and short, and their numbers in the StaticField component
SHORTS = 4
LONGEST_ARRAY = 32767


class Array:
    """An array that a static field has from the start."""

    def __init__(self, kind, length):
        self.kind, self.elements, self.is_stored = kind, [0] * length, False

    def content(self):
        if self.kind == SHORTS:
            return b"".join(map(two_bytes, self.elements))
        return bytes(element & 0xFF for element in self.elements)


def first_values(file):
    """What the static initialiser of a class sets: the names of fields to a number, None or an array. It may have nothing but
    numbers, null, and arrays of numbers."""
    method = next((method for method in file.methods if method.name == "<clinit>"), None)
    if method is None:
        return {}
    values, stack = {}, []
    for instruction in decode(file.code(method).bytes):
        if instruction.name == "return":
            return values
        try:
            initialise(file, instruction, stack, values)
        except (ValueError, IndexError, TypeError, AttributeError):
            where = file.place(method, instruction.pc)
            raise Refusal(f"{where}: a static field begins as a number, null, or an array of numbers") from None
    return values


def initialise(file, instruction, stack, values):
    """Carries out one instruction of a static initialiser."""
    name, operand = instruction.name, instruction.operand
    if name == "constant":
        stack.append(operand)
    elif name == "aconst_null":
        stack.append(None)
    elif name == "newarray":
        length = stack.pop()
        if operand not in ELEMENTS or not 0 <= length <= LONGEST_ARRAY:
            raise ValueError
        stack.append(Array(ELEMENTS[operand], length))
    elif name == "dup":
        stack.append(stack[-1])
    elif name in ("bastore", "sastore"):
        value, index, array = stack.pop(), stack.pop(), stack.pop()
        if index < 0 or not isinstance(value, int):
            raise ValueError
        array.elements[index] = value
    elif name == "putstatic":
        owner, field, _ = file.constants.member_at(operand)
        value = stack.pop()
        if owner != file.name or isinstance(value, Array) and value.is_stored:
            raise ValueError
        if isinstance(value, Array):
            value.is_stored = True
        values[field] = value
    else:
        raise ValueError


class StaticImage:
    """The places of the static fields: references to arrays that are there from the start, other references, numbers that begin
    as 0, and others."""

    def __init__(self, package):
        arrays, nulls, zeros, numbers = [], [], [], []
        reasons = Reasons()
        for name in package.order:
            with reasons:
                self.sort(package, package.files[name], arrays, nulls, zeros, numbers)
        reasons.end()
        self.places, at = {}, 0  # of a field by its class and its name
        for key, size, _ in arrays + nulls + zeros + numbers:
            self.places[key] = at
            at += size
        self.size = at
        self.references = len(arrays) + len(nulls)
        self.zeros = sum(size for _, size, _ in zeros)
        self.arrays = [(array.kind, array.content()) for _, _, array in arrays]
        self.values = b"".join((value & (1 << 8 * size) - 1).to_bytes(size, "big") for _, size, value in numbers)
        if self.size > 32767:
            raise Refusal("the static fields take more than 32767 bytes")

    @staticmethod
    def sort(package, file, arrays, nulls, zeros, numbers):
        """Gives tokens to the fields of a class that other packages may name, and sorts its fields by how they begin."""
        info, found = package.classes.known[file.name], []
        for each in file.fields:
            if each.is_static and fault_of_type(each.descriptor):
                info.static_fields[each.name] = None  # Package refuses its type
                continue
            constant = file.constant(each) if each.is_static else None
            if not each.is_static or constant is not None and each.is_final:
                continue  # javac puts the value of a constant wherever it is named
            tokens = [token for token in info.static_fields.values() if token is not None]
            info.static_fields[each.name] = len(tokens) if each.is_visible else None
            found.append((each, constant))
        values = first_values(file)
        for each, constant in found:
            key, value = (file.name, each.name), values.get(each.name, constant)
            if isinstance(value, Array):
                arrays.append((key, 2, value))
            elif is_reference(each.descriptor):
                nulls.append((key, 2, 0))
            else:
                (numbers if value else zeros).append((key, SIZES[each.descriptor], value or 0))
