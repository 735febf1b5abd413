"""Follows the values through a method's code, and refuses what the card cannot do."""
from . import arithmetic
from .arithmetic import BOOLEAN, REFERENCE, SHORT, between, value_of_type
from .bytecode import ENDS, decode
from .class_file import FLOAT, INTEGER, STRING, CLASS
from .refusal import Reasons, Refusal, class_name, fault_of_type, is_reference, types_of

ELEMENTS = {4: "Z", 8: "B", 9: "S", 5: "C", 6: "F", 7: "D", 10: "I", 11: "J"}  # of newarray
CONSTANTS = {STRING: "a string", CLASS: "a class literal", FLOAT: "a float"}
OFTEN = 8  # visits after which a bound that moves is given up
DUPLICATES = {"dup": (1, 1), "dup_x1": (1, 2), "dup_x2": (1, 3), "dup2": (2, 2), "dup2_x1": (2, 3), "dup2_x2": (2, 4)}
NOT_THERE = {
    "invokedynamic": "a lambda, a joined string or a pattern (invokedynamic)", "multianewarray": "an array of arrays",
    "monitorenter": "synchronized", "monitorexit": "synchronized", "jsr": "a subroutine of old class files (jsr)",
    "ret": "a subroutine of old class files (ret)", "i2c": "type char", "caload": "type char[]", "castore": "type char[]",
    "iaload": "type int[]", "iastore": "type int[]", "ldc2_w": "a long or double",
}
FIELD_ACCESSES = ("getstatic", "putstatic", "getfield", "putfield")
CALLS = ("invokevirtual", "invokespecial", "invokestatic", "invokeinterface")
TYPE_USES = {"anewarray": ("[", ""), "checkcast": ("", "a cast to "), "instanceof": ("", "instanceof of ")}
OPPOSITES = {"eq": "ne", "ne": "eq", "lt": "ge", "ge": "lt", "gt": "le", "le": "gt"}
LETTERS = {"l": "long", "f": "float", "d": "double"}


def what_is_not_there(name):
    """What the source has where the code has an instruction that no card has."""
    if name in NOT_THERE:
        return NOT_THERE[name]
    if name.startswith("i2"):
        return f"type {LETTERS[name[2]]}"
    return f"type {LETTERS[name[0]]}"


class Walk:
    """The instructions of a method, and what is known before each that is reached. What is refused goes to the reasons; values are followed
    up to an instruction that is refused, unless the card's values are known after it all the same."""

    def __init__(self, owner, method, code, reasons):
        self.owner, self.method, self.code, self.constants = owner, method, code, owner.constants
        parameters, _ = types_of(method.descriptor)
        self.types = ([] if method.is_static else [f"L{owner.name};"]) + parameters
        self.instructions = decode(code.bytes)
        self.at = {instruction.pc: instruction for instruction in self.instructions}
        self.reasons = reasons
        self.refused_lines, self.ends = set(), set()  # the lines, and the instructions after which no values are known
        self.refused_variables = set()  # the numbers of variables whose type is refused
        self.check_names()
        self.states, self.visits, self.waiting = {}, {}, []
        self.uses = {}  # where a loaded `this` is used
        self.objects = {}  # the loads of `this` that an access to a field may take its object from
        self.mixed = set()  # loads of `this` that also go another way
        self.keeps_this = not method.is_static and not any(
            instruction.name == "astore" and instruction.operand == 0 for instruction in self.instructions)
        with reasons:
            self.follow()

    def follow(self):
        """Follows the values from the first instruction on."""
        self.go(0, [value_of_type(descriptor) for descriptor in self.types] + [None] * (self.code.max_locals - len(self.types)), [])
        while self.waiting:
            pc = self.waiting.pop()
            variables, stack = self.states[pc]
            self.step(self.at[pc], list(variables), list(stack))

    def refuse(self, what, pc=0):
        raise Refusal(f"{self.owner.place(self.method, pc)}: {what}")

    def refuse_value(self, what, pc):
        """Refuses a value, after which the others are followed as if it were a short; unless its line is refused already."""
        if self.code.line(pc) not in self.refused_lines:
            with self.reasons:
                self.refuse(what, pc)

    def check_type(self, descriptor, what="", pc=0):
        fault = fault_of_type(descriptor)
        if fault:
            self.refuse(f"{what}{fault}, which the card does not have", pc)

    def check_names(self):
        """That the card has the types and the instructions that the code names, whatever values they meet. Of instructions one a
        line is refused, and none where a variable of the line is."""
        for variable in self.code.variables:
            if variable.start and fault_of_type(variable.descriptor):  # at 0 stand parameters
                pc = variable.start - 1  # in the instruction that first stores it
                self.refused_lines.add(self.code.line(pc))
                self.refused_variables.add(variable.number)
                with self.reasons:
                    self.check_type(variable.descriptor, f"the variable {variable.name} has ", pc)
        for instruction in self.instructions:
            line, found = self.code.line(instruction.pc), Reasons()
            with found:
                self.check_instruction(instruction.name, instruction.operand, instruction.pc)
            if found.reasons and not self.is_followed(instruction):
                self.ends.add(instruction.pc)
            if found.reasons and line not in self.refused_lines:
                self.refused_lines.add(line)
                with self.reasons:
                    found.end()

    def is_followed(self, instruction):
        """Whether the values after an instruction that is refused are known: of text and classes, and where it names an object's type."""
        if instruction.name == "ldc":
            return self.constants.entries[instruction.operand][0] in (STRING, CLASS)
        return instruction.name == "newarray" or instruction.name in TYPE_USES

    def check_instruction(self, name, operand, pc):
        if name == "ldc":
            tag, _ = self.constants.entries[operand]
            if tag != INTEGER:
                self.refuse(f"{CONSTANTS.get(tag, 'a constant')}, which the card does not have", pc)
        elif name in FIELD_ACCESSES:
            owner, field, descriptor = self.constants.member_at(operand)
            self.check_type(descriptor, f"{class_name(owner)}.{field} has ", pc)
        elif name in CALLS:
            owner, method, descriptor = self.constants.member_at(operand)
            parameters, result = types_of(descriptor)
            called = class_name(owner) if method == "<init>" else f"{class_name(owner)}.{method}"
            for each in parameters + [result]:
                self.check_type(each, f"a parameter or the result of {called} has ", pc)
        elif name == "newarray":
            self.check_type("[" + ELEMENTS[operand], "", pc)
        elif name in TYPE_USES:
            self.check_type(TYPE_USES[name][0] + self.type_named(operand), TYPE_USES[name][1], pc)
        elif not (name in GROUPS or name in arithmetic.OPERATIONS or name in DUPLICATES or name.startswith("if") or name == "monitorexit"):
            self.refuse(f"{what_is_not_there(name)}, which the card does not have", pc)

    def type_named(self, operand):
        """The type whose class the operand names."""
        name = self.constants.class_at(operand)
        return name if name[0] == "[" else f"L{name};"

    def go(self, pc, variables, stack):
        """Goes to an instruction with these values."""
        if pc not in self.at:
            self.refuse("a jump leads out of the code")
        if pc not in self.states:
            self.states[pc] = (variables, stack)
            self.waiting.append(pc)
            return
        before = self.states[pc]
        if len(before[1]) != len(stack):
            self.refuse("two ways meet with stacks of different depths", pc)
        self.visits[pc] = self.visits.get(pc, 0) + 1
        old, new = before[0] + before[1], variables + stack
        values = [self.merge(a, b, self.visits[pc] > OFTEN) for a, b in zip(old, new)]
        if values != old:
            self.states[pc] = (values[:len(variables)], values[len(variables):])
            self.waiting.append(pc)

    def merge(self, a, b, is_wide):
        if a and b and a.is_reference and b.is_reference and a != b:
            self.mixed |= {a.origin, b.origin}
        return arithmetic.merged(a, b, is_wide)

    def step(self, instruction, variables, stack):
        """Carries out one instruction, and goes on to those that may come next."""
        if instruction.pc in self.ends:
            return
        for handler in self.code.handlers:
            if handler.start <= instruction.pc < handler.end:
                self.go(handler.at, list(variables), [REFERENCE])
        step = Step(self, instruction, variables, stack)
        step.carry_out()
        for target in instruction.targets():
            self.go(target, step.narrowed(step.condition), list(stack))
        if instruction.name not in ENDS:
            self.go(instruction.next_pc, step.narrowed(OPPOSITES.get(step.condition)), stack)


class Step:
    """One instruction with the values that it meets."""

    def __init__(self, walk, instruction, variables, stack):
        self.walk, self.instruction, self.variables, self.stack = walk, instruction, variables, stack
        self.name, self.operand, self.pc = instruction.name, instruction.operand, instruction.pc
        self.condition, self.compared = None, None  # of a branch: what is compared, and how

    def narrowed(self, condition):
        """The variables where a comparison holds."""
        variables = list(self.variables)
        if condition:
            for value in arithmetic.narrowed(condition, *self.compared):
                if value.variable is not None:
                    variables[value.variable] = value.of_variable(None)
        return variables

    def refuse(self, what):
        self.walk.refuse(what, self.pc)

    def push(self, value):
        self.stack.append(value)

    def take(self, wants_reference):
        if not self.stack:
            self.refuse("the stack is empty")
        value = self.stack.pop()
        if value is None or value.is_reference != wants_reference:
            self.refuse("a value of another kind")
        if value.origin is not None:
            self.walk.uses.setdefault(value.origin, set()).add(self.pc)
        return value

    def reference(self):
        return self.take(True)

    def integer(self):
        return self.take(False)

    def exact(self, use):
        value = self.integer()
        if value.is_exact:
            return value
        self.walk.refuse_value(f"{use} may leave 16 bits; cast the intermediate value to short or byte", self.pc)
        return SHORT

    def of_type(self, descriptor, use):
        return self.reference() if is_reference(descriptor) else self.exact(use)

    def carry_out(self):
        name, group = self.name, GROUPS.get(self.name)
        if group is not None:
            group(self)
        elif name in arithmetic.OPERATIONS:
            operation, first, second = arithmetic.OPERATIONS[name]
            b = self.exact(second) if second else self.integer()
            a = self.exact(first) if first else self.integer()
            self.push(operation(a, b))
        elif name in DUPLICATES:
            count, depth = DUPLICATES[name]
            values = self.top(depth)
            self.stack[len(self.stack) - depth:len(self.stack) - depth] = values[-count:]
        elif name.startswith("if_icmp"):
            b = self.exact("an operand of a comparison")
            self.condition, self.compared = name[-2:], (self.exact("an operand of a comparison"), b)
        elif name.startswith("if_acmp"):
            self.reference()
            self.reference()
        elif name in ("ifnull", "ifnonnull"):
            self.reference()
        else:  # if and a condition
            self.condition, self.compared = name[-2:], (self.exact("a condition"), between(0, 0))

    def top(self, depth):
        """The values on the top, which from now on stand in several places."""
        if len(self.stack) < depth:
            self.refuse("the stack is empty")
        self.walk.mixed |= {value.origin for value in self.stack[-depth:] if value}
        return self.stack[-depth:]

    def nothing(self):
        pass

    def null(self):
        self.push(REFERENCE)

    def constant(self):
        self.push(between(self.operand, self.operand))

    def loaded_constant(self):
        tag, value = self.walk.constants.entries[self.operand]
        self.push(between(value, value) if tag == INTEGER else REFERENCE)

    def load(self):
        value = self.variables[self.operand]
        if value is None or value.is_reference != (self.name == "aload"):
            self.refuse("a variable of another kind")
        if value.is_reference:
            self.push(arithmetic.Value(True, origin=self.pc if self.operand == 0 and self.walk.keeps_this else None))
        else:
            self.push(value.of_variable(self.operand))

    def set(self, number, value):
        """Changes a variable; values that were loaded from it before no longer are what it has."""
        self.variables[number] = value
        self.stack[:] = [each.of_variable(None) if each and each.variable == number else each for each in self.stack]

    def store_integer(self):
        is_refused = self.operand in self.walk.refused_variables
        value = arithmetic.cast(self.integer(), SHORT) if is_refused else self.exact("the value of a variable")
        self.set(self.operand, value.of_variable(None))

    def store_reference(self):
        self.walk.mixed.add(self.reference().origin)
        self.set(self.operand, REFERENCE)

    def load_element(self):
        self.exact("an index")
        self.reference()
        self.push({"aaload": REFERENCE, "baload": arithmetic.BYTE, "saload": SHORT}[self.name])

    def store_element(self):
        self.of_type("L" if self.name == "aastore" else "S", "an element")
        self.exact("an index")
        self.reference()

    def pop(self):
        count = 2 if self.name == "pop2" else 1
        self.top(count)
        del self.stack[-count:]

    def swap(self):
        self.stack[-2:] = reversed(self.top(2))

    def negate(self):
        self.push(arithmetic.negated(self.integer()))

    def cast(self):
        self.push(arithmetic.cast(self.integer(), arithmetic.BYTE if self.name == "i2b" else SHORT))

    def increment(self):
        """Of an int variable. javac makes them for a loop over an array, and these stay within the array's length."""
        number, difference = self.operand
        value = self.variables[number]
        result = between(value.low + difference, value.high + difference) if value and value.is_exact else arithmetic.INEXACT
        if not result.is_exact:
            if number not in self.walk.refused_variables:
                self.walk.refuse_value("an int variable is counted beyond 16 bits, and the card does not have int", self.pc)
            result = SHORT
        self.set(number, result)

    def switch(self):
        self.exact("the value of a switch")
        for value, _ in self.operand[1]:
            if not arithmetic.LOWEST <= value <= arithmetic.HIGHEST:
                self.walk.refuse_value(f"the case {value} is no short", self.pc)

    def give_back(self):
        if self.name == "ireturn":
            self.exact("a result")
        elif self.name == "areturn":
            self.reference()

    def access_field(self):
        descriptor = self.walk.constants.member_at(self.operand)[2]
        if self.name.startswith("put"):
            self.of_type(descriptor, "the value of a field")
        if self.name.endswith("field"):
            self.walk.objects.setdefault(self.pc, set()).add(self.reference().origin)
        if self.name.startswith("get"):
            self.push(value_of_type(descriptor))

    def invoke(self):
        parameters, result = types_of(self.walk.constants.member_at(self.operand)[2])
        for parameter in reversed(parameters):
            self.of_type(parameter, "an argument")
        if self.name != "invokestatic":
            self.reference()
        if result != "V":
            self.push(value_of_type(result))

    def make_object(self):
        self.push(REFERENCE)

    def make_array(self):
        self.exact("the length of an array")
        self.push(REFERENCE)

    def length(self):
        self.reference()
        self.push(between(0, arithmetic.HIGHEST))

    def throw(self):
        self.reference()

    def check_cast(self):
        self.reference()
        self.push(REFERENCE)

    def is_instance(self):
        self.reference()
        self.push(BOOLEAN)


GROUPS = {
    name: group
    for names, group in (
        ("nop goto", Step.nothing), ("aconst_null", Step.null), ("constant", Step.constant), ("ldc", Step.loaded_constant),
        ("iload aload", Step.load), ("istore", Step.store_integer), ("astore", Step.store_reference),
        ("aaload baload saload", Step.load_element), ("aastore bastore sastore", Step.store_element), ("pop pop2", Step.pop),
        ("swap", Step.swap), ("ineg", Step.negate), ("i2b i2s", Step.cast), ("iinc", Step.increment),
        ("tableswitch lookupswitch", Step.switch), ("ireturn areturn return", Step.give_back),
        (" ".join(FIELD_ACCESSES), Step.access_field), (" ".join(CALLS), Step.invoke), ("new", Step.make_object),
        ("newarray anewarray", Step.make_array), ("arraylength", Step.length), ("athrow", Step.throw),
        ("checkcast", Step.check_cast), ("instanceof", Step.is_instance),
    )
    for name in names.split()
}
