"""Random Java that a card and a Java virtual machine can both run: tools/tests/convert_test compares their answers.

A seed makes a package with a class Core, whose methods have random statements, a small hierarchy of classes, an applet Subject
that calls Core on the card, and a class Machine that calls it elsewhere. A call answers how it ended, its result, and what it left
in fields and arrays."""
import random

INDENT = "    "
CONSTANTS = (0, 1, -1, 2, 3, 5, 7, 8, 15, 16, 31, 100, 127, -128, 128, 255, 256, 1000, 32767, -32768, -32767)
ARGUMENTS = (0, 1, -1, 2, 7, 100, 255, 256, 32767, -32768, -129, 4660)
STATES = 16  # shorts that a call leaves

FACE = """interface Face {
    short mix(short v, boolean way);
}
"""
NODE = """abstract class Node implements Face {
    short p = 3;
    byte q = -4;
    boolean r;

    abstract short f(short v);

    static short twist(short v) {
        return (short) (v << 8 | v >> 8 & 0xFF);
    }

    short own(short v) {
        return (short) (v + p);
    }
}
"""
LEAF = """class Leaf extends Node {
    short f(short v) {
        p += 1;
        return own(v);
    }

    public short mix(short v, boolean way) {
        return way ? own(v) : q;
    }
}
"""
TWIG = """class Twig extends Leaf {
    short p;

    short f(short v) {
        p ^= v;
        return (short) (super.f(v) * 2);
    }

    short own(short v) {
        return (short) (super.own(v) - p);
    }
}
"""
STATE = """class State {
    static short at(Core c, byte k) {
        switch (k) {
        case 0:
            return c.g;
        case 1:
            return c.h;
        case 2:
            return Core.stat;
        case 3:
            return Core.bstat;
        case 4:
            return c.nodes[0].p;
        case 5:
            return c.nodes[1].q;
        case 6:
            return (short) ((c.F[0] ? 1 : 0) + (c.F[1] ? 2 : 0) + (c.F[2] ? 4 : 0)
                    + (c.F[3] ? 8 : 0) + (c.nodes[0].r ? 16 : 0) + (c.nodes[1].r ? 32 : 0));
        case 7:
            return ((Twig) c.nodes[1]).p;
        default:
            return k < 12 ? Core.S[(byte) (k - 8)] : c.T[(byte) (k - 12)];
        }
    }
}
"""
ENDINGS = """        } catch (ArithmeticException e) {
            how = 1;
        } catch (ArrayIndexOutOfBoundsException e) {
            how = 2;
        } catch (NullPointerException e) {
            how = 3;
        } catch (ClassCastException e) {
            how = 4;
        }
"""
SUBJECT = """import javacard.framework.*;

public class Subject extends Applet {
    private final Core core = new Core();

    public static void install(byte[] bArray, short bOffset, byte bLength) {
        new Subject().register();
    }

    public void process(APDU apdu) {
        if (selectingApplet()) {
            return;
        }
        byte[] buffer = apdu.getBuffer();
        apdu.setIncomingAndReceive();
        short result = 0;
        byte how = 0;
        try {
            result = core.call(buffer[1], Util.getShort(buffer, (short) 5), Util.getShort(buffer, (short) 7), buffer[9]);
%s        buffer[0] = how;
        short end = Util.setShort(buffer, (short) 1, result);
        for (byte k = 0; k < %d; k++) {
            end = Util.setShort(buffer, end, State.at(core, k));
        }
        apdu.setOutgoingAndSend((short) 0, end);
    }
}
""" % (ENDINGS, STATES)
MACHINE = """public class Machine implements java.util.function.Function<String, String> {
    private final Core core = new Core();

    public String apply(String line) {
        String[] words = line.split(" ");
        short result = 0;
        int how = 0;
        try {
            result = core.call(Byte.parseByte(words[0]), Short.parseShort(words[1]), Short.parseShort(words[2]),
                    Byte.parseByte(words[3]));
%s        StringBuilder out = new StringBuilder(String.format("%%02X%%04X", how, result & 0xFFFF));
        for (byte k = 0; k < %d; k++) {
            out.append(String.format("%%04X", State.at(core, k) & 0xFFFF));
        }
        return out + "9000";
    }
}
""" % (ENDINGS, STATES)


class Generator:
    """Random methods, in which an int that may leave the shorts is cast before its high bits count."""

    def __init__(self, seed):
        self.random = random.Random(f"java {seed}")
        self.loops = 0
        self.methods = []  # those that may be called

    def pick(self, *choices):
        return self.random.choice(choices)

    def is_one_in(self, count):
        return self.random.randrange(count) == 0

    # Expressions of type short or byte

    def constant(self):
        value = self.random.choice((*CONSTANTS, self.random.randrange(-32768, 32768)))
        return f"(short) ({value})"

    def index(self, depth):
        mask = "% 5" if self.is_one_in(25) else "& 3"
        return f"(short) ({self.expression(depth - 1)} {mask})"

    def variable(self, depth):
        """Something that can be assigned, and whether it is a byte."""
        which = self.random.randrange(20)
        if which < 9:
            return self.pick("x", "y", "a", "b"), False
        if which < 11:
            return self.pick("z", "c"), True
        if which < 13:
            return self.pick("g", "o.p", "stat"), False
        if which < 15:
            return self.pick("h", "o.q", "bstat"), True
        if which < 18:
            return f"S[{self.index(depth)}]", False
        return f"T[{self.index(depth)}]", True

    def expression(self, depth):
        if depth <= 0:
            return self.pick("a", "b", "c", "x", "y", "z", "g", "h", "stat", "o.p", "o.q", self.constant(), self.constant())
        return self.random.choice(self.EXPRESSIONS)(self, depth)

    def sum(self, depth):
        return f"(short) ({self.expression(depth - 1)} {self.pick('+', '-', '*', '&', '|', '^')} {self.expression(depth - 1)})"

    def cast(self, depth):
        return f"({self.pick('short', 'byte')}) ({self.chain(depth)})"

    def quotient(self, depth):
        return f"(short) ({self.expression(depth - 1)} {self.pick('/', '%')} {self.expression(depth - 1)})"

    def shift(self, depth):
        count = self.pick(self.expression(depth - 1), str(self.random.randrange(34)))
        return f"(short) ({self.expression(depth - 1)} {self.pick('<<', '>>', '>>>')} {count})"

    def negation(self, depth):
        return f"(short) {self.pick('-', '~')}({self.expression(depth - 1)})"

    def byte_of(self, depth):
        return f"(byte) ({self.expression(depth - 1)})"

    def choice(self, depth):
        return f"(short) ({self.condition(depth - 1)} ? {self.expression(depth - 1)} : {self.expression(depth - 1)})"

    def masked(self, depth):
        operator, operand = self.pick("/", "%", "*", ">>", "<<"), self.pick(2, 3, 7)
        return f"(short) (({self.expression(depth - 1)} & {self.pick(15, 127, 255)}) {operator} {operand})"

    def element(self, depth):
        return f"{self.pick('S', 'T')}[{self.index(depth)}]"

    def counted(self, depth):
        return self.pick("%s++", "%s--", "++%s", "--%s") % self.variable(depth - 1)[0]

    def compound(self, depth):
        operator = self.pick("+=", "-=", "*=", "&=", "|=", "^=", "<<=", ">>=", ">>>=")
        return f"({self.variable(depth - 1)[0]} {operator} {self.expression(depth - 1)})"

    def assigned(self, depth):
        variable, is_byte = self.variable(depth - 1)
        return f"({variable} = {'(byte) ' if is_byte else ''}({self.expression(depth - 1)}))"

    def call(self, depth):
        if not self.methods or self.loops:
            return self.expression(0)
        arguments = f"{self.expression(depth - 1)}, {self.expression(depth - 1)}, (byte) ({self.expression(depth - 1)})"
        return f"{self.pick(*self.methods)}({arguments})"

    def method_of_object(self, depth):
        return self.pick(
            f"o.f({self.expression(depth - 1)})", f"face.mix({self.expression(depth - 1)}, {self.condition(depth - 1)})",
            f"Node.twist({self.expression(depth - 1)})")

    EXPRESSIONS = (
        sum, sum, sum, sum, cast, cast, quotient, shift, negation, byte_of, choice, masked, element, element, counted, compound,
        assigned, call, call, method_of_object, method_of_object)

    def chain(self, depth):
        """An int whose low 16 bits hang on the low 16 bits of its parts alone."""
        if depth <= 0:
            return self.expression(0)
        kind = self.random.randrange(5)
        if kind < 3:
            return f"({self.chain(depth - 1)} {self.pick('+', '-', '*', '&', '|', '^')} {self.chain(depth - 2)})"
        if kind == 3:
            return f"({self.chain(depth - 1)} << {self.expression(depth - 2)})"
        return f"({self.pick('-', '~')}{self.chain(depth - 1)})"

    def condition(self, depth):
        if depth <= 0:
            return self.pick("w", "F[1]", "o.r", "(a < b)", "(x == y)", "(c != z)")
        kind = self.random.randrange(9)
        if kind < 4:
            right = self.pick(self.expression(depth - 1), "0")
            return f"({self.expression(depth - 1)} {self.pick('<', '<=', '>', '>=', '==', '!=')} {right})"
        if kind < 6:
            operator = self.pick("&&", "||", "&", "|", "^", "==", "!=")
            return f"({self.condition(depth - 1)} {operator} {self.condition(depth - 1)})"
        if kind == 6:
            return f"!({self.condition(depth - 1)})"
        if kind == 7:
            return f"F[{self.index(depth)}]"
        return f"(o instanceof {self.pick('Leaf', 'Twig', 'Node', 'Face')})"

    # Statements, as lists of lines

    def block(self, depth):
        return [INDENT + line for _ in range(self.random.randrange(1, 4)) for line in self.statement(depth)]

    def statement(self, depth):
        if depth <= 0:
            return self.random.choice(self.SIMPLE)(self)
        return self.random.choice(self.STATEMENTS)(self, depth)

    def assign(self, depth=0):
        variable, is_byte = self.variable(2)
        return [f"{variable} = {'(byte) ' if is_byte else ''}({self.expression(3)});"]

    def change(self, depth=0):
        operator = self.pick("+=", "-=", "*=", "/=", "%=", "&=", "|=", "^=", "<<=", ">>=", ">>>=")
        return [f"{self.variable(2)[0]} {operator} {self.expression(2)};"]

    def decide(self, depth=0):
        return [f"{self.pick('w', f'F[{self.index(2)}]', 'o.r')} = {self.condition(3)};"]

    def turn(self, depth=0):
        return [f"o = nodes[(short) ({self.expression(1)} & 1)];", f"face = {self.pick('this', '(Face) o', 'o')};"]

    SIMPLE = (assign, assign, assign, change, decide, turn)

    def branch(self, depth):
        lines = [f"if ({self.condition(2)}) {{", *self.block(depth - 1)]
        if self.is_one_in(2):
            lines += ["} else {", *self.block(depth - 1)]
        return [*lines, "}"]

    def leave(self, depth):
        return [f"if ({self.condition(2)}) {{", f"{INDENT}return {self.expression(2)};", "}"]

    def loop(self, depth):
        if self.loops == 2:
            return self.assign()
        self.loops += 1
        name, kind, most = f"i{self.loops}", self.pick("byte", "short"), self.random.randrange(1, 5)
        head = self.pick(
            f"for ({kind} {name} = 0; {name} < {most}; {name}++) {{", f"for ({kind} {name} = {most}; {name} > 0; {name} -= 1) {{")
        lines = [head, *self.block(depth - 1)]
        if self.is_one_in(3):
            lines += [f"{INDENT}if ({self.condition(1)}) {{", f"{INDENT * 2}{self.pick('break', 'continue')};", INDENT + "}"]
        self.loops -= 1
        return [*lines, "}"]

    def switch(self, depth):
        low, step = self.pick((0, 1), (-2, 1), (0, 50), (-30000, 9999))
        value = f"(short) ({self.expression(2)})" if step > 1 else f"(short) (({self.expression(2)} & 7) + {low})"
        lines = [f"switch ({value}) {{"]
        for number in range(self.random.randrange(2, 6)):
            lines += [f"case {low + step * number}:", *self.block(depth - 1)]
            if not self.is_one_in(3):
                lines.append(INDENT + "break;")
        if self.is_one_in(2):
            lines += ["default:", *self.block(depth - 1)]
        return [*lines, "}"]

    def attempt(self, depth):
        lines = ["try {", *self.block(depth - 1)]
        kinds = ("ArithmeticException", "ArrayIndexOutOfBoundsException", "RuntimeException")
        caught = [kind for kind in kinds if not self.is_one_in(2)]
        for kind in caught:
            lines += [f"}} catch ({kind} e{depth}) {{", *self.block(depth - 1)]
        if not caught or self.is_one_in(2):
            lines += ["} finally {", *self.block(depth - 1)]
        return [*lines, "}"]

    def throw(self, depth):
        return [
            f"if ({self.condition(2)}) {{", f"{INDENT}throw new {self.pick('ArithmeticException', 'NullPointerException')}();", "}"]

    STATEMENTS = (
        assign, assign, change, decide, turn, branch, branch, branch, leave, loop, loop, loop, switch, attempt, attempt, throw)

    # Classes

    def method(self, name):
        lines = [
            f"{self.pick('', 'private ', 'public ', 'final ')}short {name}(short a, short b, byte c) {{",
            INDENT + "short x = a, y = " + self.constant() + ";", INDENT + "byte z = c;", INDENT + "boolean w = a > b;",
            INDENT + "Node o = nodes[0];", INDENT + "Face face = this;"]
        lines += self.block(3) + [f"{INDENT}return {self.expression(2)};", "}", ""]
        return [INDENT + line for line in lines]

    def numbers(self, low, high):
        return ", ".join(str(self.random.randrange(low, high)) for _ in range(4))

    def core(self):
        lines = [
            "class Core implements Face {", f"    short g = {self.constant()};", f"    byte h = {self.random.randrange(-128, 128)};",
            f"    static short stat = {self.constant()};", f"    static byte bstat = {self.random.randrange(-128, 128)};",
            f"    static final short[] S = {{{self.numbers(-32768, 32768)}}};",
            f"    final byte[] T = {{{self.numbers(-128, 128)}}};", "    final boolean[] F = {true, false, true, false};",
            "    final Node[] nodes = {new Leaf(), new Twig()};", "",
            "    public short mix(short v, boolean way) {", "        return way ? (short) (v - g) : (short) (v ^ h);", "    }", ""]
        for level in range(3):
            made = [f"m{level}{number}" for number in range(self.random.randrange(1, 3))]
            for name in made:
                lines += self.method(name)
            self.methods = self.methods + made
        lines += ["    short call(byte which, short a, short b, byte c) {", "        switch (which) {"]
        for number, name in enumerate(self.methods):
            lines += [f"        case {number}:", f"            return {name}(a, b, c);"]
        lines += ["        default:", "            return -1;", "        }", "    }", "}"]
        return "\n".join(lines) + "\n"

    def sources(self, package):
        """The sources of a package by their names."""
        texts = {
            "Core": self.core(), "Face": FACE, "Node": NODE, "Leaf": LEAF, "Twig": TWIG, "State": STATE, "Subject": SUBJECT,
            "Machine": MACHINE}
        return {f"{package}/{name}.java": f"package {package};\n\n{text}" for name, text in texts.items()}

    def calls(self, count):
        """Arguments of Core.call."""
        return [
            (self.random.randrange(len(self.methods)), self.argument(), self.argument(), self.random.randrange(-128, 128))
            for _ in range(count)]

    def argument(self):
        return self.random.choice(ARGUMENTS) if not self.is_one_in(3) else self.random.randrange(-32768, 32768)
