"""Rows about cards: lines of scripts on the card of an image, and lines that make images, cut the power, and read or change words."""
import re

from . import image as images
from .cuts import Cuts, EMPTY_COMMAND, Left
from .program import bytes_of, in_words, put
from .randoms import lines_from

USUAL_WORDS, USUAL_CAPACITY = 8192, 256
IMAGE, SCRIPT, TABLE = "card.img", "script", "card.table"
NO_SUCH_WORD = "no such word"
REFUSED = {"jcard: words must be 4096 to 65535": "BadSize", "jcard: journal must be 16 to 1024": "BadCapacity",
           "jcard: image too small": "TooSmall", f"jcard: cannot write {IMAGE}": "down"}
# What a line does that is none of a script.
FORMS = {name: re.compile(form) for name, form in {
    "card": r"card (\d+)(?: journal (\d+))?(?: apdu (\d+))?", "table": "table (.*)", "zeros": r"zeros (\d+)", "random": r"random (\d+) (\d+)",
    "noted": "noted (.*)", "moves": "moves (.*)", "tear": "tear all-or-nothing", "cut": r"cut (\d+)", "recoveries": "recoveries",
    "format": r"format(?: (\d+))?(?: journal (\d+))?", "power": r"power(?: (\d+))?", "word": r"word (\d+)", "words": r"words (\d+) (\d+)",
    "put": r"put (\d+) (.*)", "append": "append (.*)", "copy": "copy", "undo": "undo", "changed": "changed( outside the journal)?",
    "passed": "passed"}.items()}
ASK_NOTHING = {"new", "noted", "table", "moves", "tear", "card", "zeros"}
BEGINS_COUNT = {"card", "zeros", "put", "append", "undo"}  # of word writes
BEGINS_FUSE = {*BEGINS_COUNT, "format", "power"}  # one that the last line of a script armed is there no more


class Wrong(Exception):
    """A row that is not answered as it says."""

    def __init__(self, number, command, wanted, told):
        super().__init__(f"line {number}: {command} = {wanted}, but is {told}")


def read_form(command):
    """The name and the words of a form; a line of a script has none."""
    form = FORMS.get(command.split(" ", 1)[0])
    match = form and form.fullmatch(command)
    return (command.split(" ", 1)[0], match.groups()) if match else (None, ())


def size_of_row(row):
    """How many answers of the card a row asks for."""
    name, words = read_form(row.command) if row.command else ("new", ())
    return int(words[1]) if name == "random" else 0 if name in ASK_NOTHING else 1


class Piece:
    """Lines of a script, those that a run gets that notes what happens, the answers that are wanted to the first of them, and the number of
    the line in the file of each."""

    def __init__(self):
        self.script, self.noted, self.wanted, self.numbers, self.moves = [], [], [], [], ""
        self.torn = []  # the places of lines that are torn
        self.is_told, self.tear = False, None

    def add(self, row):
        if self.tear:
            self.torn.append(len(self.script))
            self.tear = None
        self.script.append(row.command)
        if not self.is_told:
            self.noted.append(row.command)
        self.is_told = False
        self.wanted.append("9000" if row.answer is None else row.answer)
        self.numbers.append(row.number)

    def add_random(self, number, lines):
        """Adds lines for which no answer is wanted. Rows do not follow them."""
        self.script += lines
        self.noted += lines
        self.numbers += [number] * len(lines)

    def last_fuse(self):
        """The word writes that pass after the lines, where the last of them arms the fuse."""
        form = re.fullmatch(r"stop (\d+)", self.script[-1])
        return form and int(form[1])

    def first_wrong(self, told, wanted, count):
        """Looks that the first lines that are printed are those that are wanted."""
        told, wanted = told.split("\n"), wanted.split("\n")
        for at in range(count):
            is_there = at < len(told) and (at < len(told) - 1 or told[at])
            if not is_there or told[at] != wanted[at]:
                number, command = (self.numbers[at], self.script[at]) if at < len(self.numbers) else (0, "")
                raise Wrong(number, command, wanted[at], told[at] if at < len(told) else "")


class Cards:
    """A card, and the rows of a file about it."""

    def __init__(self, program, example):
        self.program, self.example = program, example
        self.table, self.made = "", {}  # the lines of a table: none of the example, None of the usual one
        self.piece, self.cuts, self.rows = Piece(), None, 0
        self.on_file = None  # what the file of the image holds
        self.is_counted, self.fuse = False, None
        self.image = self.kept = self.format_new(USUAL_WORDS, USUAL_CAPACITY)
        self.writes = 0

    def answer(self, rows):
        """Answers the rows of a file: how many there are."""
        rows = list(rows)
        counted = counted_rows(rows)
        for row, self.is_counted in zip(rows, counted):
            if row.command is not None:
                self.take(row)
        self.is_counted = False
        self.refuse_tear_alone()
        self.run_piece()
        return self.rows

    def refuse_tear_alone(self):
        """Refuses a line `tear` that stands before no line of a script."""
        if self.piece.tear:
            raise Wrong(self.piece.tear.number, self.piece.tear.command, "9000", "not answered")

    def take(self, row):
        name, words = read_form(row.command)
        if name is None:
            self.piece.add(row)
        elif name == "noted":
            self.piece.noted.append(words[0])
            self.piece.is_told = True
        elif name == "table":
            self.table = None if words[0] == "usual" else (self.table or "") + words[0] + "\n"
        elif name == "tear":
            self.refuse_tear_alone()
            self.piece.tear = row
        elif name == "moves":
            self.piece.moves += words[0] + ","
        else:
            self.carry_out(row, name, words)

    def carry_out(self, row, name, words):
        """Carries out an order after the lines of a script before it."""
        self.refuse_tear_alone()
        if name == "cut":
            self.cuts = Cuts(self, self.image, "".join(f"{line}\n" for line in self.piece.script), self.piece.moves)
        self.run_piece()
        if name in BEGINS_FUSE:
            self.fuse = None
        told = getattr(self, name)(row, *words)
        if told is None:
            return
        self.rows += 1
        wanted = "ok" if row.answer is None else row.answer
        if told != wanted:
            raise Wrong(row.number, row.command, wanted, told)

    # Runs of the program.

    def put_image(self, image):
        if self.on_file != image:
            put(IMAGE, image)
        self.on_file = None

    def run(self, image, script, *options, fuse=None, is_counted=False):
        """What a script did on the card of an image."""
        self.put_image(image)
        put(SCRIPT, script.encode("ascii"))
        watched = IMAGE if is_counted or fuse is not None else None
        ended = self.program.run(["run", IMAGE, SCRIPT, *options], image=watched, fuse=fuse)
        self.on_file = bytes_of(IMAGE)
        return Left(self.on_file, ended.writes, in_words(ended))

    def run_cut(self, image, script, fuse):
        return self.run(image, script, fuse=fuse, is_counted=True)

    def run_piece(self):
        """Runs the lines that were not run yet. A run that notes what happens, which has a loop of its own, has to answer them alike, and to leave
        the same words."""
        if not self.piece.numbers:
            return
        piece, self.piece = self.piece, Piece()
        fuse, self.fuse = self.fuse, piece.last_fuse()
        left = self.run(self.image, "".join(f"{line}\n" for line in piece.script), fuse=fuse, is_counted=self.is_counted)
        wanted = "".join(f"{line}\n" for line in piece.wanted)
        piece.first_wrong(left.printed, wanted, len(piece.wanted))
        noted = self.run(self.image, "".join(f"{line}\n" for line in piece.noted), "--why", fuse=fuse)
        if noted.printed != left.printed:
            piece.first_wrong(noted.printed, left.printed, left.printed.count("\n"))
            raise Wrong(piece.numbers[-1], piece.script[-1], "no more lines", "more")
        if noted.image != left.image:
            raise Wrong(piece.numbers[0], piece.script[0], "the words of a plain run", "other words")
        for at in piece.torn:
            self.tear(piece, at)
        self.image = left.image
        self.writes += left.writes
        self.rows += len(piece.numbers)

    def tear(self, piece, at):
        """Cuts a line of a script that was answered after each of its word writes: it has to be all or nothing, but for PIN tries."""
        self.put_image(self.image)
        put(SCRIPT, "".join(f"{line}\n" for line in piece.script).encode("ascii"))
        ended = self.program.run(["tear", IMAGE, SCRIPT, "--line", str(at + 1)])
        if ended.status != 0:
            last = ended.printed.splitlines()[-1]
            raise Wrong(piece.numbers[at], piece.script[at], "all or nothing", "not cut" if ended.status == 1 else last)

    def new(self, count, capacity, fuse=None, buffer=None):
        """Makes an image: its words, what was printed, and how many words were written."""
        words = ["new", IMAGE, "--words", str(count), "--journal", str(capacity)]
        if buffer is not None:
            words += ["--apdu", str(buffer)]
        if self.table is not None:
            put(TABLE, self.table.encode("ascii") or self.example)
            words += ["--table", TABLE]
        before = bytes(2 * count)
        self.put_image(before)
        ended = self.program.run(words, image=IMAGE, fuse=fuse)
        told = "ok" if ended.status == 0 else REFUSED.get(ended.printed.rstrip("\n"), ended.printed)
        self.on_file = bytes_of(IMAGE)
        return Left(self.on_file, ended.writes, told)

    def format_new(self, count, capacity, buffer=None):
        """A new image; each is made once."""
        key = count, capacity, buffer, self.table
        if key not in self.made:
            self.made[key] = self.new(count, capacity, buffer=buffer).image
        return self.made[key]

    # Orders.

    def begin(self, image):
        self.image = self.kept = image
        self.writes = 0

    def card(self, _row, count, capacity, buffer):
        self.begin(self.format_new(int(count), int(capacity or USUAL_CAPACITY), buffer and int(buffer)))

    def zeros(self, _row, count):
        self.begin(bytes(2 * int(count)))

    def random(self, row, seed, count):
        self.piece.add_random(row.number, lines_from(int(seed), int(count)))

    def cut(self, _row, depth):
        return self.cuts.cut(int(depth))

    def recoveries(self, _row):
        return " ".join(str(writes) for writes in self.cuts.recoveries)

    def format(self, _row, fuse, capacity):
        left = self.new(len(self.image) // 2, int(capacity or USUAL_CAPACITY), None if fuse is None else int(fuse))
        self.image = left.image
        self.writes += left.writes
        return left.printed

    def power(self, _row, fuse):
        """Powers the card up: `ready`, `down`, or a fault, which a run that notes what happens has to find too."""
        left = self.run(self.image, EMPTY_COMMAND, fuse=None if fuse is None else int(fuse), is_counted=self.is_counted)
        told = {"6700\n": "ready", "down\n": "down"}.get(left.printed, left.printed.rstrip("\n"))
        if told not in ("ready", "down"):
            noted = self.run(self.image, EMPTY_COMMAND, "--why").printed.rstrip("\n")
            told = told if noted == told else f"{told}, but {noted} where notes are taken"
        self.image = left.image
        self.writes += left.writes
        return told

    def word(self, row, first):
        return self.words(row, first, 1)

    def words(self, _row, first, count):
        words = images.words_of(self.image)[int(first):int(first) + int(count)]
        return " ".join(f"{word:04X}" for word in words)

    def put(self, _row, first, digits):
        image = bytearray(self.image)
        if images.put_words(image, int(first), digits) is None:
            return NO_SUCH_WORD
        self.image, self.writes = bytes(image), 0
        return "ok"

    def append(self, _row, digits):
        image = bytearray(self.image)
        end = images.put_words(image, images.end_of_heap(image), digits)
        if end is None:
            return NO_SUCH_WORD
        image[2 * images.TOP:2 * images.TOP + 2] = end.to_bytes(2, "big")
        self.image, self.writes = bytes(image), 0
        return "ok"

    def copy(self, _row):
        self.kept = self.image
        return "ok"

    def undo(self, _row):
        self.image, self.writes = self.kept, 0
        return "ok"

    def changed(self, _row, outside):
        journal = (images.COUNT, *images.journal_of(self.kept)) if outside else ()
        places = [place for place in images.differing(self.kept, self.image) if place not in journal]
        return " ".join(f"{place}:{images.word_at(self.image, place):04X}" for place in places) or "nothing"

    def passed(self, _row):
        return str(self.writes)


def counted_rows(rows):
    """For each row, whether it or one after it asks how many words were written, before the count begins again."""
    counted, asked = [], False
    for row in reversed(rows):
        name = (row.command or "").split(" ", 1)[0]
        asked = name == "passed" or (asked and name not in BEGINS_COUNT)
        counted.append(asked)
    return reversed(counted)
