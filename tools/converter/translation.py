"""Makes the card's instructions of a method from those of its class file."""
from . import code
from .bytecode import BRANCHES, SWITCHES
from .refusal import Reasons, types_of
from .walk import CALLS, FIELD_ACCESSES, TYPE_USES, Walk

PLAIN = {
    "nop": "nop", "aconst_null": "aconst_null", "aaload": "aaload", "baload": "baload", "saload": "saload", "aastore": "aastore",
    "bastore": "bastore", "sastore": "sastore", "pop": "pop", "pop2": "pop2", "dup": "dup", "dup2": "dup2", "ireturn": "sreturn",
    "areturn": "areturn", "return": "return", "arraylength": "arraylength", "athrow": "athrow", "i2b": "s2b",
    "iadd": "sadd", "isub": "ssub", "imul": "smul", "idiv": "sdiv", "irem": "srem", "ineg": "sneg", "ishl": "sshl",
    "ishr": "sshr", "iushr": "sushr", "iand": "sand", "ior": "sor", "ixor": "sxor",
}
LOCALS = {"iload": "sload", "aload": "aload", "istore": "sstore", "astore": "astore"}
DUP_X = {"dup_x1": (1, 2), "dup_x2": (1, 3), "dup2_x1": (2, 3), "dup2_x2": (2, 4)}
SWAP = 0x11
ELEMENTS = {4: 10, 8: 11, 9: 12}  # of newarray: the class file's number, and the card's
ARRAYS = {"[Z": 10, "[B": 11, "[S": 12}  # of checkcast and instanceof
ARRAY_OF_REFERENCES, CLASS = 14, 0
LETTERS = {"Z": "b", "B": "b", "S": "s"}
REQUIRE_NON_NULL = ("java/util/Objects", "requireNonNull", "(Ljava/lang/Object;)Ljava/lang/Object;")
NAMING = (*FIELD_ACCESSES, *CALLS, *TYPE_USES, "new")  # the instructions that name what may not be there
GET_CLASS = ("getClass", "()Ljava/lang/Class;")


class Translation:
    """The code of one method. `package` tells what its code names: see package.Package."""

    def __init__(self, package, owner, method, style):
        self.package, self.owner, self.method, self.style = package, owner, method, style
        reasons = Reasons()
        self.walk = Walk(owner, method, owner.code(method), reasons)
        self.constants, self.handlers = owner.constants, self.walk.code.handlers
        self.arguments = method.arguments
        self.locals = max(0, self.walk.code.max_locals - self.arguments)
        with reasons:
            if self.arguments + self.locals > code.LARGEST_BYTE:
                self.walk.refuse(f"more than {code.LARGEST_BYTE} variables")
        self.instructions = []
        if reasons.reasons:
            self.tell_names(reasons)
        else:
            self.translate(reasons)
        self.caught = []
        for handler in self.handlers:
            with reasons:
                self.caught.append(
                    package.class_entry(self.constants.class_at(handler.caught), self.place(handler.at)) if handler.caught else None)
        reasons.end()
        self.first = self.first_instructions()
        self.max_stack = self.deepest_stack()
        if self.max_stack > code.LARGEST_BYTE:
            self.walk.refuse(f"more than {code.LARGEST_BYTE} values on the stack")

    def place(self, pc):
        return self.owner.place(self.method, pc)

    def is_reached(self, pc):
        return pc in self.walk.states

    def targets(self):
        """Where something else than the instruction before may lead, or a handler begins or ends."""
        found = {pc for handler in self.handlers for pc in (handler.start, handler.end, handler.at)}
        return found.union(*(instruction.targets() for instruction in self.walk.instructions if self.is_reached(instruction.pc)))

    def this_accesses(self):
        """The accesses to fields of the object whose method runs, each with its load of the object."""
        if not (self.style.this_forms and self.walk.keeps_this):
            return {}
        found = {}
        for pc, loads in self.walk.objects.items():
            if len(loads) == 1:
                load = next(iter(loads))
                if load is not None and load not in self.walk.mixed and self.walk.uses[load] == {pc}:
                    found[pc] = load
        return found

    def tell_names(self, reasons):
        """Refuses what the code names and is not there, of a method that is refused already: on other lines than its types and instructions."""
        self.this = {}
        for instruction in self.walk.instructions:
            if instruction.name in NAMING and self.walk.code.line(instruction.pc) not in self.walk.refused_lines:
                with reasons:
                    self.one(instruction)

    def translate(self, reasons):
        reached = [instruction for instruction in self.walk.instructions if self.is_reached(instruction.pc)]
        self.this = self.this_accesses()
        targets, left_out, at = self.targets(), set(self.this.values()), 0
        while at < len(reached):
            taken = self.increment(reached[at:at + 6], targets) if self.style.increments else 0
            if taken == 0 and reached[at].pc not in left_out:
                with reasons:
                    self.one(reached[at])
            at += taken or 1

    def increment(self, begin, targets):
        """Makes sinc of a variable that is loaded, changed by a constant, cut to a short and stored; how many were taken."""
        names = [instruction.name for instruction in begin]
        is_kept = names[1:2] == ["dup"]
        count = 6 if is_kept else 5
        if names[0] != "iload" or len(begin) < count:
            return 0
        load, (value, change, cut, store) = begin[0], begin[count - 4:count]
        if (value.name, cut.name, store.name) != ("constant", "i2s", "istore") or change.name not in ("iadd", "isub"):
            return 0
        difference = value.operand if change.name == "iadd" else -value.operand
        if store.operand != load.operand or difference > 32767 or any(each.pc in targets for each in begin[1:count]):
            return 0
        if is_kept:
            self.one(load)
        self.instructions.append(code.increment(load.pc, load.operand, difference))
        return count

    def one(self, instruction):
        name, operand, pc = instruction.name, instruction.operand, instruction.pc
        if name in PLAIN:
            self.put(code.plain(pc, PLAIN[name]))
        elif name == "constant":
            self.put(code.constant(pc, operand))
        elif name == "ldc":
            value = self.constants.value(operand) & 0xFFFF
            self.put(code.constant(pc, value - 0x10000 if value > 32767 else value))
        elif name in LOCALS:
            self.put(code.local(pc, LOCALS[name], operand, self.style.short_locals))
        elif name in DUP_X:
            count, depth = DUP_X[name]
            self.put(code.Fixed(pc, "dup_x", depth, depth + count, code.DUP_X, count << 4 | depth))
        elif name == "swap":
            self.put(code.Fixed(pc, "swap_x", 2, 2, code.SWAP_X, SWAP))
        elif name in BRANCHES:
            self.put(code.Branch(pc, name.replace("icmp", "scmp"), 0 if name == "goto" else 2 if "cmp" in name else 1, operand))
        elif name == "iinc":
            self.put(code.increment(pc, *operand))
        elif name in SWITCHES:
            self.switch(instruction)
        elif self.is_check_for_null(instruction):
            self.check_for_null(instruction)
        elif name != "i2s":
            getattr(self, name)(pc, operand)

    def put(self, instruction):
        self.instructions.append(instruction)

    def put_of_pool(self, pc, name, entry, taken, put):
        self.put(code.OfPool(pc, name, taken, put, entry, bytes([code.OF_POOL[name]])))

    def switch(self, instruction):
        default, cases = instruction.operand
        if instruction.name == "tableswitch" and self.style.tables:
            self.put(code.Table(instruction.pc, default, cases))
        else:
            self.put(code.Lookup(instruction.pc, default, [(value, target) for value, target in cases if target != default]))

    def getstatic(self, pc, operand):
        owner, name, descriptor = self.constants.member_at(operand)
        entry = self.package.static_field_entry(owner, name, self.place(pc))
        self.put_of_pool(pc, "getstatic_" + LETTERS.get(descriptor, "a"), entry, 0, 1)

    def putstatic(self, pc, operand):
        owner, name, descriptor = self.constants.member_at(operand)
        entry = self.package.static_field_entry(owner, name, self.place(pc))
        self.put_of_pool(pc, "putstatic_" + LETTERS.get(descriptor, "a"), entry, 1, 0)

    def field(self, pc, operand, form, taken, put):
        owner, name, descriptor = self.constants.member_at(operand)
        entry, is_this = self.package.field_entry(owner, name, self.place(pc)), pc in self.this
        called = form + LETTERS.get(descriptor, "a")
        self.put(code.OfField(pc, called, taken - is_this, put, entry, is_this))

    def getfield(self, pc, operand):
        self.field(pc, operand, "getfield_", 1, 1)

    def putfield(self, pc, operand):
        self.field(pc, operand, "putfield_", 2, 0)

    def effect(self, operand):
        """Of a call without its object: the cells that it takes, and those that it puts."""
        parameters, result = types_of(self.constants.member_at(operand)[2])
        return len(parameters), 0 if result == "V" else 1

    def check_for_null(self, instruction):
        """Throws a NullPointerException where the reference on the stack is null, and leaves it there. Throwing null does so."""
        pc = instruction.pc
        self.put(code.plain(pc, "dup"))
        self.put(code.Branch(pc, "ifnonnull", 1, instruction.next_pc))
        self.put(code.plain(pc, "aconst_null"))
        self.put(code.plain(pc, "athrow"))

    def is_check_for_null(self, instruction):
        """Whether a call is a check that javac writes where an object is named and not used."""
        if instruction.name not in ("invokestatic", "invokevirtual"):
            return False
        owner, *key = self.constants.member_at(instruction.operand)
        after = self.walk.at.get(instruction.next_pc)
        return (owner, *key) == REQUIRE_NON_NULL or tuple(key) == GET_CLASS and after is not None and after.name == "pop"

    def invokestatic(self, pc, operand):
        taken, put = self.effect(operand)
        entry = self.package.static_method_entry(*self.constants.member_at(operand), self.place(pc))
        self.put_of_pool(pc, "invokestatic", entry, taken, put)

    def invokespecial(self, pc, operand):
        taken, put = self.effect(operand)
        entry = self.package.special_method_entry(self.owner, *self.constants.member_at(operand), self.place(pc))
        self.put_of_pool(pc, "invokespecial", entry, taken + 1, put)

    def invokevirtual(self, pc, operand):
        taken, put = self.effect(operand)
        member = self.constants.member_at(operand)
        private = self.package.private_method_entry(*member)
        if private is not None:
            self.put_of_pool(pc, "invokespecial", private, taken + 1, put)
        else:
            self.put_of_pool(pc, "invokevirtual", self.package.virtual_method_entry(*member, self.place(pc)), taken + 1, put)

    def invokeinterface(self, pc, operand):
        taken, put = self.effect(operand)
        entry, token = self.package.interface_method_entry(*self.constants.member_at(operand), self.place(pc))
        before = bytes([code.INVOKEINTERFACE, taken + 1])
        self.put(code.OfPool(pc, "invokeinterface", taken + 1, put, entry, before, bytes([token])))

    def new(self, pc, operand):
        self.put_of_pool(pc, "new", self.package.class_entry(self.constants.class_at(operand), self.place(pc)), 0, 1)

    def newarray(self, pc, operand):
        self.put(code.Fixed(pc, "newarray", 1, 1, code.NEWARRAY, ELEMENTS[operand]))

    def anewarray(self, pc, operand):
        self.put_of_pool(pc, "anewarray", self.package.class_entry(self.constants.class_at(operand), self.place(pc)), 1, 1)

    def of_type(self, pc, operand, name, opcode):
        """checkcast and instanceof."""
        called = self.constants.class_at(operand)
        if called in ARRAYS:
            self.put(code.Fixed(pc, name, 1, 1, opcode, ARRAYS[called], 0, 0))
            return
        kind = ARRAY_OF_REFERENCES if called[0] == "[" else CLASS
        entry = self.package.class_entry(called[2:-1] if kind else called, self.place(pc))
        self.put(code.OfPool(pc, name, 1, 1, entry, bytes([opcode, kind])))

    def checkcast(self, pc, operand):
        self.of_type(pc, operand, "checkcast", code.CHECKCAST)

    def instanceof(self, pc, operand):
        self.of_type(pc, operand, "instanceof", code.INSTANCEOF)

    def first_instructions(self):
        """For each place in the class file's code, the number of the first instruction that comes from there or from after."""
        own = {}
        for number, instruction in enumerate(self.instructions):
            own.setdefault(instruction.pc, number)
        first, number = {}, len(self.instructions)
        for instruction in reversed(self.walk.instructions):
            number = own.get(instruction.pc, number)
            first[instruction.pc] = number
        return first

    def deepest_stack(self):
        """The most cells on the stack before or after an instruction."""
        depths, deepest = {}, 0
        waiting = [(0, 0)] + [(self.first[handler.at], 1) for handler in self.handlers if self.is_reached(handler.at)]
        while waiting:
            number, depth = waiting.pop()
            if number in depths:
                continue
            depths[number] = depth
            instruction = self.instructions[number]
            after = depth - instruction.taken + instruction.put
            deepest = max(deepest, depth, after)
            waiting += [(self.first[target], after) for target in instruction.targets()]
            if instruction.name not in code.ENDS:
                waiting.append((number + 1, after))
        return deepest

    def lay_out(self, indices):
        self.layout = code.Layout(self.instructions, self.first, indices, self.style)
        return self.layout.content

    def java_lines(self):
        """The offset of each instruction with which another line of the Java source begins, and the line."""
        last = 0
        for instruction in self.instructions:
            line = self.walk.code.line(instruction.pc)
            if line not in (0, last):
                last = line
                yield instruction.offset, line

    def locals_of_source(self):
        """Of each local variable of the Java source its number, from where and up to where it has it, its descriptor and its name."""
        offset = self.layout.offset
        for each in self.walk.code.variables:
            yield each.number, offset(each.start), offset(each.end), each.descriptor, each.name

    def handler_rows(self):
        """The handlers that can be reached, in their order: where each begins, ends and goes on, what it catches, and whether
        no later one of the method covers a part of it."""
        offset, rows = self.layout.offset, []
        for handler, caught in zip(self.handlers, self.caught):
            if offset(handler.start) < offset(handler.end) and self.is_reached(handler.at):
                rows.append((offset(handler.start), offset(handler.end), offset(handler.at), caught))
        return [
            (start, end, at, caught, not any(s < end and start < e for s, e, _, _ in rows[number + 1:]))
            for number, (start, end, at, caught) in enumerate(rows)]
