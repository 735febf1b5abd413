"""The instructions of the Java virtual machine, decoded from the code of a method.

Short forms are decoded as the long ones that mean the same: iload_2 as iload 2, bipush 7 and iconst_5 as a constant."""
from .class_file import Bytes

# The opcodes 0 to 201 in order. After a colon stands the form of the operands, 'b', 's' and 'i' being one, two and four bytes
# with a sign, 'B' and 'S' one and two without, 'j' and 'J' a jump.
OPCODES = """nop aconst_null constant=-1 constant=0 constant=1 constant=2 constant=3 constant=4 constant=5 lconst_0 lconst_1 fconst_0
fconst_1 fconst_2 dconst_0 dconst_1 constant:b constant:s ldc:B ldc:S ldc2_w:S iload:B lload:B fload:B dload:B aload:B iload=0
iload=1 iload=2 iload=3 lload=0 lload=1 lload=2 lload=3 fload=0 fload=1 fload=2 fload=3 dload=0 dload=1 dload=2 dload=3 aload=0
aload=1 aload=2 aload=3 iaload laload faload daload aaload baload caload saload istore:B lstore:B fstore:B dstore:B astore:B istore=0
istore=1 istore=2 istore=3 lstore=0 lstore=1 lstore=2 lstore=3 fstore=0 fstore=1 fstore=2 fstore=3 dstore=0 dstore=1 dstore=2
dstore=3 astore=0 astore=1 astore=2 astore=3 iastore lastore fastore dastore aastore bastore castore sastore pop pop2 dup dup_x1
dup_x2 dup2 dup2_x1 dup2_x2 swap iadd ladd fadd dadd isub lsub fsub dsub imul lmul fmul dmul idiv ldiv fdiv ddiv irem lrem frem
drem ineg lneg fneg dneg ishl lshl ishr lshr iushr lushr iand land ior lor ixor lxor iinc:Bb i2l i2f i2d l2i l2f l2d f2i f2l f2d
d2i d2l d2f i2b i2c i2s lcmp fcmpl fcmpg dcmpl dcmpg ifeq:j ifne:j iflt:j ifge:j ifgt:j ifle:j if_icmpeq:j if_icmpne:j if_icmplt:j
if_icmpge:j if_icmpgt:j if_icmple:j if_acmpeq:j if_acmpne:j goto:j jsr:j ret:B tableswitch lookupswitch ireturn lreturn freturn
dreturn areturn return getstatic:S putstatic:S getfield:S putfield:S invokevirtual:S invokespecial:S invokestatic:S
invokeinterface:SS invokedynamic:SS new:S newarray:B anewarray:S arraylength athrow checkcast:S instanceof:S monitorenter monitorexit
wide multianewarray:SB ifnull:j ifnonnull:j goto:J jsr:J""".split()
SIZES = {"b": 1, "s": 2, "i": 4, "B": 1, "S": 2, "j": 2, "J": 4}
WIDE = {"B": "S", "Bb": "Ss"}

CONDITIONS = ("eq", "ne", "lt", "ge", "gt", "le")
BRANCHES = {f"if{c}" for c in CONDITIONS} | {f"if_icmp{c}" for c in CONDITIONS} | {
    "if_acmpeq", "if_acmpne", "ifnull", "ifnonnull", "goto"}
SWITCHES = ("tableswitch", "lookupswitch")
ENDS = ("goto", "tableswitch", "lookupswitch", "ireturn", "areturn", "return", "athrow")


class Instruction:
    """One instruction. `operand` is a number, a pair of them, or of a switch its default and its cases."""

    def __init__(self, pc, name, operand, next_pc):
        self.pc, self.name, self.operand, self.next_pc = pc, name, operand, next_pc

    def targets(self):
        if self.name in BRANCHES:
            return [self.operand]
        if self.name in SWITCHES:
            default, cases = self.operand
            return [default] + [target for _, target in cases]
        return []


def operands_of(form, pc, source):
    values = []
    for letter in form:
        if letter.isupper() and letter != "J":
            values.append(source.unsigned(SIZES[letter]))
        else:
            values.append(source.signed(SIZES[letter]) + (pc if letter in "jJ" else 0))
    return values[0] if len(values) == 1 else tuple(values)


def switch_of(name, pc, source):
    source.take(-source.at % 4)
    default = pc + source.signed(4)
    if name == "tableswitch":
        low, high = source.signed(4), source.signed(4)
        return default, [(value, pc + source.signed(4)) for value in range(low, high + 1)]
    return default, [(source.signed(4), pc + source.signed(4)) for _ in range(source.signed(4))]


def decode(code):
    """The instructions of a method in their order."""
    source, instructions = Bytes(code), []
    while not source.is_at_end():
        pc = source.at
        name, _, form = OPCODES[source.unsigned(1)].partition(":")
        if name == "wide":
            name, _, form = OPCODES[source.unsigned(1)].partition(":")
            form = WIDE[form]
        name, _, number = name.partition("=")
        if number:
            operand = int(number)
        elif name in SWITCHES:
            operand = switch_of(name, pc, source)
        else:
            operand = operands_of(form, pc, source) if form else None
        if name == "invokeinterface":
            operand = operand[0]
        instructions.append(Instruction(pc, name, operand, source.at))
    return instructions
