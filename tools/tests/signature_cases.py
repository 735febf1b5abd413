"""Random steps for the keys and signatures of a card, cut into commands with resets and cuts of the power between them, by a Java applet."""
import os
import shutil

from cipher_cases import COMMANDS, INIT_CELLS, Session as CipherSession
from ciphers import KEY_LENGTHS, KEY_TYPES
from engines import KEPT, PASSING, SIZE, SLOTS, encoded, put
from engine_cases import CASES, MANAGER, NoCard, have, put_text, writes_of
from harness import TOOLS, TOP, run  # before what stands in tools
from converter.compiling import compile_sources
from signatures import NUMBERS, SIGN, VERIFY, SignatureCard, kind_of

APPLET = "F07369676E657201"
KINDS = "des", "aes", "hmac", "des"  # of the keys and the signatures, by their slots
OUTPUT = KEPT, 200  # where a signature is put


def made_card(program, folder):
    """An image with the applet; its path."""
    classes, image = os.path.join(folder, "signature_classes"), os.path.join(folder, "made_signatures.img")
    os.mkdir(classes)
    compile_sources("javac", [os.path.join(CASES, name, file) for name in ("signatures", "signer") for file in sorted(os.listdir(os.path.join(CASES, name)))],
                    classes)
    script = ""
    for name, words in (("signatures", ("--export", "signatures.exp")), ("signer", ("--import", "signatures.exp"))):
        have("convert", os.path.join(TOOLS, "convert"), "signature_classes", "--package", name, *words, "--out", f"{name}.cap", folder=folder)
        script += have("cap2script", os.path.join(TOOLS, "cap2script"), f"{name}.cap", *([APPLET] if name == "signer" else []), folder=folder)
    put_text(os.path.join(folder, "load_signatures.script"), script)
    have("new", program, "new", image, "--words", "32768", "--table", os.path.join(TOP, "examples/extended.table"))
    answers = have("load", program, "run", image, "load_signatures.script", folder=folder).splitlines()
    if set(answers) != {"9000"}:
        raise NoCard(f"the load of signatures is answered {answers[-1]}")
    return image


class Session(CipherSession):
    """Lines of a script, and what a card has to answer."""

    def __init__(self, chance):
        self.chance, self.card, self.made = chance, SignatureCard(), 0
        self.lines, self.wanted = [], []
        self.select()
        for slot in range(SLOTS):
            self.command(*self.keys(slot))
            self.command(*self.signature(slot))
            self.command(self.init(slot))
        for _ in range(COMMANDS):
            chance.choice((*[self.steps] * 7, self.reset, self.deselect, self.transaction, self.cut, self.renew))()

    def select(self):
        self.add(f"00A40400{len(APPLET) // 2:02X}{APPLET}", "9000")

    def setting(self, slot, length):
        """What sets a key of a length in bits to any bytes; an HMAC key has as many as it is given."""
        kind, few = KINDS[slot], self.chance.choice((1, 20, 64, 65, 128))
        if kind == "hmac":
            return [put(PASSING, 0, self.chance.randbytes(few)), ("set_hmac", slot, PASSING, 0, few)]
        return [put(PASSING, 0, self.chance.randbytes(length // 8)), (f"set_{kind}", slot, PASSING, 0)]

    def keys(self, slot):
        """A key that is made and set."""
        chance, kind = self.chance, KINDS[slot]
        number = chance.choice([number for number, (of, _) in KEY_TYPES.items() if of == kind])
        length = 1024 if kind == "hmac" else chance.choice(KEY_LENGTHS[kind])
        return [("build", slot, number, length), *self.setting(slot, length)]

    def signature(self, slot):
        number = self.chance.choice([number for number in NUMBERS if kind_of(number) == KINDS[slot]])
        self.made += 1
        return [("make", slot, number)] if self.chance.random() < 0.5 else [("make_by_three", slot, *NUMBERS[number])]

    def init(self, slot):
        """Seldom one that is refused."""
        chance, engine = self.chance, self.card.slots["signature"][slot]
        key = chance.choice([at for at in range(SLOTS) if KINDS[at] == KINDS[slot]])
        way = chance.choice((SIGN, SIGN, VERIFY))
        if chance.random() < 0.05:
            return chance.choice((("init", slot, (slot + 1) % 3, way), ("init", slot, key, 3), ("init_with", slot, key, way, KEPT, 0, 7)))
        if engine.of.kind != "hmac" and chance.random() < 0.6:
            return ("init_with", slot, key, way, *self.stretch(engine.of.block))
        return ("init", slot, key, way)

    def piece(self, engine):
        size = getattr(engine.of, "block", 64)
        return self.chance.choice((0, 1, size - 1, size, size + 1, 2 * size, self.chance.randrange(100), 96))

    def step(self):
        chance, slot = self.chance, self.chance.randrange(SLOTS)
        engine = self.card.slots["signature"][slot]
        size = engine.of.size
        kind = chance.choice(("update", "update", "update", "sign", "verify", "init", "whole", "there_and_back", "asked", "put"))
        if kind == "update":
            return [("update", slot, *self.stretch(self.piece(engine)))]
        if kind == "sign":
            place, offset = self.output()
            shown = [("show", place, offset, size)] if place in (KEPT, PASSING) and 0 <= offset <= SIZE - size else []
            return [("sign", slot, *self.stretch(self.piece(engine)), place, offset), *shown]
        if kind == "verify":
            return [("verify", slot, *self.stretch(self.piece(engine)), *self.stretch(chance.choice((0, size - 1, size, size, size + 1))))]
        if kind == "whole":  # to a whole block
            rest = -len(getattr(engine.of, "open", b"")) % getattr(engine.of, "block", 1)
            return [("sign", slot, *self.stretch(rest), *OUTPUT), ("show", *OUTPUT, size)]
        if kind == "there_and_back":
            return self.there_and_back(slot, engine)
        if kind == "init":
            return [self.init(slot)]
        if kind == "asked":
            return [(chance.choice(("algorithm", "length", "digest_algorithm", "cipher_algorithm", "padding_algorithm")), slot)]
        data = chance.randbytes(chance.randrange(1, 60))
        return [put(chance.choice((KEPT, PASSING)), chance.randrange(SIZE - len(data)), data)]

    def there_and_back(self, slot, engine):
        """A message is signed, and its signature verified, of the message in two pieces; sometimes of another message."""
        chance = self.chance
        block = getattr(engine.of, "block", 1)
        length = block * chance.randrange(1, 4) if getattr(engine.of, "padding", "") == "none" else chance.randrange(0, 90)
        key = chance.choice([at for at in range(SLOTS) if KINDS[at] == KINDS[slot]])
        start, middle = chance.randrange(60), chance.randrange(length + 1)
        return [("init", slot, key, SIGN), ("sign", slot, KEPT, start, length, *OUTPUT), ("init", slot, key, VERIFY),
                ("update", slot, KEPT, start, middle), ("verify", slot, KEPT, start + middle + chance.choice((0, 0, 1)), length - middle, *OUTPUT, engine.of.size)]

    def set_again(self):
        """Most of the keys that are cleared are set again."""
        for slot, key in enumerate(self.card.slots["key"]):
            if key.value is None and self.chance.random() < 0.8:
                self.command(*self.setting(slot, key.length))

    def renew(self):
        """A key is set anew, or a signature is made, of which the card has room for some."""
        slot = self.chance.randrange(SLOTS)
        if self.made > 8 or self.chance.random() < 0.5:
            self.command(*self.setting(slot, self.card.slots["key"][slot].length))
        else:
            self.command(*self.signature(slot))
        self.command(("attempt",), self.init(slot))

    def cut(self):
        """An init that a cut takes back: the signature is as it was, and nothing came."""
        able = [(slot, key) for slot in range(SLOTS) for key in range(SLOTS) if KINDS[slot] == KINDS[key] and self.card.slots["key"][key].value
                and self.card.slots["signature"][slot].of.takes(self.card.slots["key"][key])]
        if not able:
            return
        slot, key = self.chance.choice(able)
        self.add(f"stop {self.chance.randrange(writes_of(INIT_CELLS))}", None)
        data = encoded(("init", slot, key, self.chance.choice((SIGN, VERIFY))), self.card.forms)
        self.add(f"00000000{len(data):02X}{data.hex().upper()}", "down")
        self.reset()


def try_signatures(program, folder, chance, sessions, check):
    """Tries sessions on a card. `check` gets for each answer what was asked, and whether it is the right one."""
    made = made_card(program, folder)
    image = os.path.join(folder, "signatures.img")
    for number in range(sessions):
        shutil.copyfile(made, image)
        session = Session(chance)
        put_text(os.path.join(folder, "signatures.script"), "".join(f"{line}\n" for line in session.lines))
        _, out, said = run(program, "run", image, "signatures.script", folder=folder)
        answers = out.splitlines()
        for at, (line, wanted) in enumerate(zip(session.lines, session.wanted)):
            wanted = f"armed {line.split()[1]}" if wanted is None else wanted
            answer = answers[at] if at < len(answers) else f"nothing: {said}"
            if not check(f"session {number} of signatures, line {at + 1}: {line} = {wanted}, but is {answer}", answer == wanted):
                break
