"""Random steps for the keys and ciphers of a card, cut into commands with resets and cuts of the power between them, by a Java applet."""
import os
import shutil

import ciphers
from ciphers import ALGORITHMS, BLOCKS, DECRYPT, ENCRYPT, KEY_LENGTHS, KEY_TYPES, NAMED, CipherCard
from engines import BUFFER, KEPT, NULL, PASSING, SIZE, SLOTS, encoded, put
from engine_cases import CASES, MANAGER, NoCard, have, put_text, writes_of
from harness import TOOLS, TOP, run  # before what stands in tools
from converter.compiling import compile_sources

APPLET = "F0686F737401"
COMMANDS = 60  # of a session
INIT_CELLS = 10  # key, mode and vector
OUTPUT = KEPT, 200  # where output is put
ROOM = SIZE - 200


def made_card(program, folder):
    """An image with the applet; its path."""
    classes, image = os.path.join(folder, "cipher_classes"), os.path.join(folder, "made_ciphers.img")
    os.mkdir(classes)
    compile_sources("javac", [os.path.join(CASES, name, file) for name in ("ciphers", "host") for file in sorted(os.listdir(os.path.join(CASES, name)))],
                    classes)
    script = ""
    for name, words in (("ciphers", ("--export", "ciphers.exp")), ("host", ("--import", "ciphers.exp"))):
        have("convert", os.path.join(TOOLS, "convert"), "cipher_classes", "--package", name, *words, "--out", f"{name}.cap", folder=folder)
        script += have("cap2script", os.path.join(TOOLS, "cap2script"), f"{name}.cap", *([APPLET] if name == "host" else []), folder=folder)
    put_text(os.path.join(folder, "load_ciphers.script"), script)
    have("new", program, "new", image, "--words", "32768", "--table", os.path.join(TOP, "examples/extended.table"))
    answers = have("load", program, "run", image, "load_ciphers.script", folder=folder).splitlines()
    if set(answers) != {"9000"}:
        raise NoCard(f"the load of ciphers is answered {answers[-1]}")
    return image


class Session:
    """Lines of a script, and what a card has to answer."""

    def __init__(self, chance):
        self.chance, self.card = chance, CipherCard()
        self.lines, self.wanted = [], []
        self.select()
        for slot in range(SLOTS):
            self.command(*self.keys(slot))
            self.command(*self.cipher(slot))
            self.command(self.init(slot))
        for _ in range(COMMANDS):
            chance.choice((*[self.steps] * 7, self.reset, self.deselect, self.transaction, self.cut, self.renew))()

    def add(self, line, answer):
        self.lines.append(line)
        self.wanted.append(answer)

    def select(self):
        self.add(f"00A40400{len(APPLET) // 2:02X}{APPLET}", "9000")

    def command(self, *steps):
        data = b"".join(encoded(step, self.card.forms) for step in steps)
        self.add(f"00000000{len(data):02X}{data.hex().upper()}", self.card.command(*steps))

    def keys(self, slot):
        """A key that is made and set; one in each second slot serves DES, the others AES."""
        chance = self.chance
        number = chance.choice([number for number, (kind, _) in KEY_TYPES.items() if kind == ("des", "aes")[slot % 2]])
        kind = KEY_TYPES[number][0]
        length = chance.choice(KEY_LENGTHS[kind])
        return [("build", slot, number, length), put(PASSING, 0, chance.randbytes(length // 8)), (f"set_{kind}", slot, PASSING, 0)]

    def cipher(self, slot):
        chance = self.chance
        parts = chance.choice([parts for parts in ALGORITHMS if parts[0] == ("des", "aes")[slot % 2]])
        number = ALGORITHMS[parts]
        if chance.random() < 0.5:
            return [("make", slot, number, chance.randrange(2))]
        return [("make_by_two", slot, ciphers.MODES[parts[:2]], ciphers.PADDINGS[parts[2]], chance.randrange(2))]

    def init(self, slot):
        """Seldom one that is refused."""
        chance, engine = self.chance, self.card.slots["cipher"][slot]
        key = chance.choice([at for at in range(SLOTS) if at % 2 == slot % 2])
        way = chance.choice((DECRYPT, ENCRYPT, ENCRYPT))
        if chance.random() < 0.05:
            return chance.choice((("init", slot, (key + 1) % SLOTS, way), ("init", slot, key, 3), ("init_with", slot, key, way, KEPT, 0, 7)))
        if engine.mode == "cbc" and chance.random() < 0.8:
            return ("init_with", slot, key, way, *self.stretch(engine.size))
        return ("init", slot, key, way)

    def stretch(self, length):
        """Bytes of an array; seldom such as are refused."""
        chance = self.chance
        if chance.random() < 0.02:
            return chance.choice(((NULL, 0, length), (KEPT, SIZE - 3, length + 4), (PASSING, -1, length), (KEPT, 0, -1)))
        place = chance.choice((KEPT, PASSING, BUFFER))
        return place, chance.randrange((261 if place == BUFFER else SIZE) - length + 1), length

    def output(self):
        """Where output is put; seldom where no place is left."""
        chance = self.chance
        if chance.random() < 0.03:
            return chance.choice(((NULL, 0), (KEPT, SIZE), (PASSING, -1), (KEPT, SIZE - 9)))
        return chance.choice((KEPT, PASSING)), chance.randrange(SIZE - 140)

    def piece(self, engine):
        chance, size = self.chance, engine.size
        return chance.choice((0, 1, size - 1, size, size + 1, 2 * size, chance.randrange(100), 96))

    def step(self):
        chance, slot = self.chance, self.chance.randrange(SLOTS)
        engine = self.card.slots["cipher"][slot]
        kind = chance.choice(("update", "update", "update", "final", "final", "init", "whole", "there_and_back", "asked", "put"))
        if kind in ("update", "final"):
            place, offset = self.output()
            return [(kind, slot, *self.stretch(self.piece(engine)), place, offset), ("show", place, offset, 32) if place != NULL and 0 <= offset <= SIZE - 32
                    else ("algorithm", slot)]
        if kind == "whole":
            rest = -len(engine.open) % engine.size
            return [("final", slot, *self.stretch(rest), *OUTPUT), ("show", *OUTPUT, 32)]
        if kind == "there_and_back":
            return self.there_and_back(slot, engine)
        if kind == "init":
            return [self.init(slot)]
        if kind == "asked":
            return [(chance.choice(("algorithm", "cipher_algorithm", "padding_algorithm")), slot)]
        data = chance.randbytes(chance.randrange(1, 60))
        return [put(chance.choice((KEPT, PASSING)), chance.randrange(SIZE - len(data)), data)]

    def there_and_back(self, slot, engine):
        """A message is enciphered, and deciphered in two pieces."""
        chance, size = self.chance, engine.size
        length = chance.randrange(0, 60) if engine.padding != "none" else size * chance.randrange(0, 4)
        key = chance.choice([at for at in range(SLOTS) if at % 2 == slot % 2])
        whole = length + len(ciphers.padding_after(engine.padding, size, length))
        middle = chance.randrange(whole + 1)
        return [("init", slot, key, ENCRYPT), ("final", slot, KEPT, chance.randrange(60), length, *OUTPUT), ("init", slot, key, DECRYPT),
                ("update", slot, *OUTPUT, middle, PASSING, 0), ("final", slot, KEPT, OUTPUT[1] + middle, whole - middle, PASSING, 100),
                ("show", PASSING, 0, 48), ("show", PASSING, 100, 16)]

    def steps(self):
        """A few steps in one command, each with how it ends."""
        steps = []
        for _ in range(self.chance.randrange(1, 4)):
            steps += [part for step in self.step() for part in (("attempt",), step)]
        self.send(steps)

    def send(self, steps):
        while sum(len(encoded(step, self.card.forms)) for step in steps) > 240:
            del steps[-2:]
        self.command(*steps)

    def reset(self):
        self.add("reset", "ready")
        self.card.power_up()
        self.select()
        self.set_again()

    def deselect(self):
        """The manager is selected, and the applet again: ciphers keep what came, and keys of a type are cleared."""
        self.add(f"00A40400{len(MANAGER) // 2:02X}{MANAGER}", "9000")
        self.card.deselect()
        self.select()
        self.set_again()

    def set_again(self):
        """Most of the keys that are cleared are set again."""
        for slot, key in enumerate(self.card.slots["key"]):
            if key.value is None and self.chance.random() < 0.8:
                self.command(put(PASSING, 0, self.chance.randbytes(key.length // 8)), (f"set_{key.kind}", slot, PASSING, 0))

    def renew(self):
        """A key is made anew or set anew, or a cipher is made."""
        slot = self.chance.randrange(SLOTS)
        steps = self.chance.choice((self.keys, self.cipher))(slot)
        self.command(*(steps[1:] if len(steps) > 1 and self.same(steps[0]) else steps))
        self.command(("attempt",), self.init(slot))

    def same(self, build):
        key = self.card.slots["key"][build[1]]
        return (key.number, key.length) == build[2:]

    def transaction(self):
        """Steps in a transaction, which is committed, aborted, or left open. What they put into the kept array and what init sets go back; what came
        stays."""
        steps = [("begin",)]
        for _ in range(self.chance.randrange(1, 3)):
            steps += [part for step in self.step() for part in (("attempt",), step)]
        ends = self.chance.choice(([("commit",)], [("abort",)], []))
        while sum(len(encoded(step, self.card.forms)) for step in steps) > 230:
            del steps[-2:]
        self.command(*steps, *ends, *([("show", KEPT, 0, 32)] if ends else []))

    def cut(self):
        """An init that a cut takes back: the cipher is as it was, and nothing came."""
        able = [(slot, key) for slot in range(SLOTS) for key in range(SLOTS) if slot % 2 == key % 2 and self.card.slots["key"][key].value]
        if not able:
            return
        slot, key = self.chance.choice(able)
        self.add(f"stop {self.chance.randrange(writes_of(INIT_CELLS))}", None)
        data = encoded(("init", slot, key, self.chance.choice((DECRYPT, ENCRYPT))), self.card.forms)
        self.add(f"00000000{len(data):02X}{data.hex().upper()}", "down")
        self.reset()


def try_ciphers(program, folder, chance, sessions, check):
    """Tries sessions on a card. `check` gets for each answer what was asked, and whether it is the right one."""
    made = made_card(program, folder)
    image = os.path.join(folder, "ciphers.img")
    for number in range(sessions):
        shutil.copyfile(made, image)
        session = Session(chance)
        put_text(os.path.join(folder, "ciphers.script"), "".join(f"{line}\n" for line in session.lines))
        _, out, said = run(program, "run", image, "ciphers.script", folder=folder)
        answers = out.splitlines()
        for at, (line, wanted) in enumerate(zip(session.lines, session.wanted)):
            wanted = f"armed {line.split()[1]}" if wanted is None else wanted
            answer = answers[at] if at < len(answers) else f"nothing: {said}"
            if not check(f"session {number} of ciphers, line {at + 1}: {line} = {wanted}, but is {answer}", answer == wanted):
                break
