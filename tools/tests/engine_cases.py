"""Random steps for the engines of a card, cut into commands with resets and cuts of the power between them, by a Java applet."""
import os
import shutil

import engines
from engines import BUFFER, KEPT, NULL, PASSING, SIZE, Card, encoded, put
from harness import TESTS, TOOLS, TOP, run  # before what stands in tools
from converter.compiling import compile_sources

CASES = os.path.join(TESTS, "cases")
PACKAGES = ("engines", "lending")
APPLET = "F06C656E64696E6701"
MANAGER = "F04A434D4752"
ARRAY_WORDS, INSTANCE_WORDS = 5, 6  # of the record of a transient array, and of an instance with two cells
TOP_WORD = 5  # of an image
COMMANDS = 60  # of a session


class NoCard(Exception):
    """There is no card with the applet; why."""


def have(what, *words, **options):
    status, out, said = run(*words, **options)
    if status:
        raise NoCard(f"{what}: {out}{said}")
    return out


def made_card(program, folder, seed):
    """An image with the applet, over a table whose random data come from a seed; its path."""
    classes, table, image = (os.path.join(folder, name) for name in ("classes", "random.table", "made.img"))
    os.mkdir(classes)
    compile_sources("javac", [os.path.join(CASES, name, file) for name in PACKAGES for file in sorted(os.listdir(os.path.join(CASES, name)))], classes)
    with open(os.path.join(TOP, "examples/extended.table"), encoding="ascii") as file:
        text = file.read()
    with open(table, "w", encoding="ascii") as file:
        file.write(f"{text}random {seed.hex()}\n")
    script = ""
    for name, more in (("engines", ()), ("lending", (APPLET,))):
        have("convert", os.path.join(TOOLS, "convert"), "classes", "--package", name, *(
            ("--export", "engines.exp") if name == "engines" else ("--import", "engines.exp")), "--out", f"{name}.cap", folder=folder)
        script += have("cap2script", os.path.join(TOOLS, "cap2script"), f"{name}.cap", *more, folder=folder)
    put_text(os.path.join(folder, "load.script"), script)
    have("new", program, "new", image, "--words", "16384", "--table", table)
    answers = have("load", program, "run", image, "load.script", folder=folder).splitlines()
    if set(answers) != {"9000"}:
        raise NoCard(f"the load is answered {answers[-1]}")
    return image


def put_text(path, text):
    with open(path, "w", encoding="ascii") as file:
        file.write(text)


def top_of(image):
    """The first free word of an image's heap."""
    with open(image, "rb") as file:
        return int.from_bytes(file.read(2 * TOP_WORD + 2)[2 * TOP_WORD:], "big")


class Heap:
    """Where the next objects stand: an engine is an array and an instance."""

    def __init__(self, top):
        self.top = top

    def engine(self):
        self.top += ARRAY_WORDS + INSTANCE_WORDS
        return self.top - INSTANCE_WORDS


class Session:
    """Lines of a script, and what a card has to answer."""

    def __init__(self, chance, seed, top):
        self.chance, self.heap = chance, Heap(top)
        self.card = Card(seed, self.heap.engine)
        self.lines, self.wanted = [], []
        self.add(f"00A40400{len(APPLET) // 2:02X}{APPLET}", "9000")
        self.make()
        for _ in range(COMMANDS):
            chance.choice((self.steps, self.steps, self.steps, self.steps, self.steps, self.reset, self.deselect, self.transaction, self.cut))()

    def add(self, line, answer):
        self.lines.append(line)
        self.wanted.append(answer)

    def command(self, *steps):
        data = b"".join(map(encoded, steps))
        self.add(f"00000000{len(data):02X}{data.hex().upper()}", self.card.command(*steps))

    def make(self):
        """An engine in each slot; the references of all depend on how many objects stand below them."""
        chance = self.chance
        for slot in range(engines.SLOTS):
            self.made(chance.choice(("digest", "initialized")), slot, chance.choice(list(engines.DIGESTS)), chance.randrange(2))
            self.made("checksum", slot, chance.choice(list(engines.CHECKSUMS)), chance.randrange(2))
            self.made("random", slot, chance.choice(engines.RANDOMS))

    def made(self, kind, *operands):
        """Objects that are no random data take place too."""
        before = self.heap.top
        self.command((kind, *operands))
        if self.heap.top == before:
            self.heap.engine()

    def stretch(self, length=None):
        """An array with an offset and a length; seldom one that is refused."""
        chance = self.chance
        if chance.random() < 0.03:
            return chance.choice(((NULL, 0, 1), (KEPT, SIZE - 3, 4), (PASSING, -1, 2), (KEPT, 0, -1), (PASSING, SIZE + 1, 0), (NULL, -1, -1)))
        place = chance.choice((KEPT, PASSING, PASSING, BUFFER))
        most = 261 if place == BUFFER else SIZE
        if length is None:
            length = chance.choice((0, 1, 55, 56, 63, 64, 65, 111, 112, 127, 128, 129, chance.randrange(most), chance.randrange(20)))
        return place, chance.randrange(most - length + 1), length

    def steps(self):
        """A few steps in one command; what an exception stops is not lost to the card, and no step comes after it."""
        steps = []
        for _ in range(self.chance.randrange(1, 6)):
            steps += self.step()
        self.send(steps)

    def send(self, steps):
        """Steps that fit a command: the answer may not be longer than the applet has place for."""
        while sum(len(encoded(step)) for step in steps) > 250:
            steps.pop()
        self.command(*steps)

    def step(self):
        chance, slot = self.chance, self.chance.randrange(engines.SLOTS)
        kind = chance.choice(("update", "update", "update", "final", "final", "reset", "asked", "begin", "begin", "add", "add", "sum", "init", "generate",
                              "next", "seed", "put"))
        if kind in ("update", "add", "seed", "generate", "next"):
            return [(kind, slot, *self.stretch())]
        if kind in ("final", "sum"):
            return self.ended(kind, slot)
        if kind == "begin":
            return self.begin_after(slot)
        if kind == "init":
            return [(kind, slot, *self.stretch(self.chance.choice((2, 4))))]
        if kind == "put":
            data = chance.randbytes(chance.randrange(1, 60))
            return [put(chance.choice((KEPT, PASSING)), chance.randrange(SIZE - len(data)), data)]
        return [(kind if kind == "reset" else chance.choice(("algorithm", "length")), slot)]

    def ended(self, kind, slot):
        """What a digest or a checksum ends with is put into an array, and shown."""
        place, offset, _ = to = self.stretch(64)
        return [(kind, slot, *self.stretch(), place, offset), *([("show", *to)] if place != NULL and 0 <= offset <= SIZE - 64 else [])]

    def begin_after(self, slot):
        """Puts a hash value and a count into arrays, and has a message begin after them; seldom what is refused, or another digest."""
        chance = self.chance
        if chance.random() < 0.1:
            return [("begin_after", slot, *self.stretch(), *self.stretch())]
        able = [at for at, engine in enumerate(self.card.slots["digest"]) if isinstance(engine, engines.InitializedDigest)]
        if able and chance.random() < 0.95:
            slot = chance.choice(able)
        before = chance.randbytes(self.hash_length(slot))
        count = self.count_before(slot)
        count = bytes(chance.choice((0, 0, 0, 1, 5))) + count.to_bytes((count.bit_length() + 7) // 8, "big")
        place, offset = chance.choice((KEPT, PASSING)), chance.randrange(SIZE - 80)
        other, other_offset = chance.choice((KEPT, PASSING)), chance.randrange(SIZE - 20)
        return [put(place, offset, before), put(other, other_offset, count),
                ("begin_after", slot, place, offset, len(before), other, other_offset, len(count)),
                *chance.choice(([], [("update", slot, *self.stretch(self.block(slot)))], self.ended("final", slot)))]

    def hash_length(self, slot):
        """Bytes of a hash value; seldom of another one, or of the digest."""
        if self.chance.random() < 0.1:
            return self.chance.choice((0, 15, 16, 17, 20, 28, 32, 48, 64))
        return engines.hash_length(self.card.slots["digest"][slot].number)

    def block(self, slot):
        return engines.block_length(self.card.slots["digest"][slot].number)

    def count_before(self, slot):
        """How many bytes are hashed: whole blocks; seldom none, other bytes, or about as many as a length counts."""
        chance, block = self.chance, self.block(slot)
        return chance.choice((block, block * chance.randrange(1, 2 ** 20), block * chance.randrange(1, 2 ** 20), 2 ** 61 - block, 2 ** 64 - block,
                              chance.choice((0, 1, block - 1, block + 1, 2 ** 61, 2 ** 64, chance.randrange(2 ** 64)))))

    def reset(self):
        self.add("reset", "ready")
        self.card.power_up()
        self.add(f"00A40400{len(APPLET) // 2:02X}{APPLET}", "9000")

    def deselect(self):
        """The manager is selected, and the applet again: engines keep what came."""
        self.add(f"00A40400{len(MANAGER) // 2:02X}{MANAGER}", "9000")
        self.add(f"00A40400{len(APPLET) // 2:02X}{APPLET}", "9000")

    def transaction(self):
        """Steps in a transaction, which is committed, aborted, or left open. What they put into the kept array goes back, but no engine's state."""
        steps = [("begin",)]
        for _ in range(self.chance.randrange(1, 4)):
            steps += self.step()
        ends = self.chance.choice(([("commit",)], [("abort",)], []))
        while sum(len(encoded(step)) for step in steps) > 240:
            steps.pop()
        self.command(*steps, *ends, *([("show", KEPT, 0, 64)] if ends else []))

    def cut(self):
        """A checksum is put into the kept array by one change, which a cut takes back."""
        slot = self.chance.randrange(engines.SLOTS)
        size = self.card.slots["checksum"][slot].size
        offset = self.chance.randrange(SIZE - size)
        places = (offset + size + 1) // 2 - offset // 2
        self.add(f"stop {self.chance.randrange(writes_of(places))}", None)
        data = encoded(("sum", slot, PASSING, 0, 10, KEPT, offset))
        self.add(f"00000000{len(data):02X}{data.hex().upper()}", "down")
        self.reset()


def writes_of(places):
    """The word writes of a change outside of a transaction."""
    return 1 if places == 1 else 3 * places + 2


def try_card(program, folder, chance, sessions, check):
    """Tries sessions on a card. `check` gets for each answer what was asked, and whether it is the right one."""
    seed = chance.randbytes(32)
    made = made_card(program, folder, seed)
    image = os.path.join(folder, "card.img")
    for number in range(sessions):
        shutil.copyfile(made, image)
        session = Session(chance, seed, top_of(made))
        put_text(os.path.join(folder, "session.script"), "".join(f"{line}\n" for line in session.lines))
        _, out, said = run(program, "run", image, "session.script", folder=folder)
        answers = out.splitlines()
        for at, (line, wanted) in enumerate(zip(session.lines, session.wanted)):
            wanted = f"armed {line.split()[1]}" if wanted is None else wanted
            answer = answers[at] if at < len(answers) else f"nothing: {said}"
            if not check(f"session {number}, line {at + 1}: {line} = {wanted}, but is {answer}", answer == wanted):
                break
