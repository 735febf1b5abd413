"""Rows about the program: command lines over files of its folder, and scripts over streams that are slow or fail.

`jcard WORDS`                 the program with these words: its exit status, and after `: ` the lines that it printed, those on
                              standard error last. A row may leave out remarks there: all of a bad command line, and lines that begin by `jcard: `
`script TEXT`                 a script on a new card: how it ended, and what it printed
`conversation`                a script of which each line is asked when the one before is answered
`reader MANNER`, `writer MANNER`
                              how scripts come and answers go from now on: `is in memory`, `is steady`, `hesitates`, `is broken`,
                              `is interrupted`, `is idle`, `fails at call N`
`room N`                      how many bytes of answers there is room for
`file NAME TEXT`, `table NAME [SIZE]`, `table NAME of FILE`, `fill NAME COUNT WORD`, `copy NAME OTHER`, `put NAME PLACE WORDS`
                              a file of a text, of the example of a platform table, of the table of a file of rows, of words; a copy; words that
                              are changed
`memory ..`                   the same in a folder with no other files: `memory script TEXT`, whose file `table` is the example of a platform
                              table; `memory jcard WORDS`; `memory writes NAME`, how many words were written to that image since it was made
`load IMAGE FILE`             loads the package of a file of rows: `ok` where each answer is 9000, else what `run --why` tells
`same NAME OTHER`, `there NAME`
                              whether two files have the same bytes, and whether one is there

A text is one piece in double quotes or several, each so often as `N times` before it says, with `\\n`, `\\r`, `\\t`, `\\q`, `\\s`.
"""
import os
import re
import subprocess

from .cards import Wrong
from .program import SECONDS, bytes_of, in_words, put

USUAL_ROOM = "10000"
SCRIPT_WORDS = 4096  # of the card of a script
SCRIPT, SCRIPT_TABLE, COMMANDS = "asked.script", "asked.table", "commands"
LINES, LINE = 3, b"80E50000\n"  # of a conversation
MANNERS = {"is in memory": None, "is steady": "steady", "hesitates": "0", "is broken": "broken", "is interrupted": "interrupted", "is idle": "idle"}
INVALID = "invalid input"
BAD_COMMAND_LINE, REMARK = 2, "jcard: "  # a status, and how a line on standard error begins that a row may leave out


class Invalid(Exception):
    """A command that has no form."""


def words_of(command):
    """The words between spaces. One in double quotes may be empty and have spaces."""
    words = []
    for at, piece in enumerate(command.split('"')):
        words += [piece] if at % 2 else piece.split()
    return words


def text_of(pieces):
    """The text that pieces in double quotes spell one after another."""
    text, times = [], 1
    for at, piece in enumerate(pieces.split('"')):
        if at % 2:
            for mark, byte in ((r"\n", "\n"), (r"\r", "\r"), (r"\t", "\t"), (r"\q", '"'), (r"\s", " ")):
                piece = piece.replace(mark, byte)
            text.append(piece * times)
            continue
        form = re.fullmatch(r"(?:(\d+) times)?", piece.strip())
        if not form:
            raise Invalid
        times = int(form[1] or 1)
    return "".join(text).encode("latin-1")


def told(ended, printed):
    """How something ended and what it printed until then: the lines, with ` / ` between them. ` x N` stands after a line that comes N times in a
    row, and `..` after a last one that no line feed ends."""
    lines, last, count = [], None, 0
    for line in [*printed.splitlines(keepends=True), None]:
        if line == last:
            count += 1
            continue
        if last is not None:
            text = last[:-1] if last.endswith("\n") else last + ".."
            lines.append(text if count == 1 else f"{text} x {count}")
        last, count = line, 1
    return f"{ended}: {' / '.join(lines)}" if lines else f"{ended}"


def without_remarks(ended):
    """The lines on standard error that are no remarks."""
    lines = ended.explained.splitlines(keepends=True) if ended.status != BAD_COMMAND_LINE else []
    return "".join(line for line in lines if not line.startswith(REMARK))


class Desk:
    """The program in a folder of its own, and how the next program or script is run."""

    def __init__(self, program, example):
        self.program, self.example = program, example
        self.rows, self.brief = 0, None  # what the last run of the program printed, without remarks
        self.begin()

    def begin(self):
        """As at the beginning of a file and after a line `new`. The files stay as they are."""
        self.manners, self.room = {}, USUAL_ROOM
        self.writes = {}  # to the images of the folder without other files

    def answer(self, rows):
        """Answers the rows of a file: how many there are."""
        for row in rows:
            if row.command is None:
                self.begin()
                continue
            self.rows += 1
            wanted, self.brief = "ok" if row.answer is None else row.answer, None
            try:
                found = self.carry_out(row.command)
            except (Invalid, ValueError):
                found = INVALID
            except OSError as error:
                found = str(error)
            if wanted not in (found, self.brief):
                raise Wrong(row.number, row.command, wanted, found)
        return self.rows

    def carry_out(self, command):
        verb, _, rest = command.partition(" ")
        if verb == "jcard":
            return self.run_program(command)
        act = {"script": self.script, "conversation": self.converse, "memory": self.in_memory, "load": self.load, "room": self.set_room,
               "reader": self.set_reader, "writer": self.set_writer}.get(verb)
        if act:
            return act(rest) or "ok"
        act = {"file": self.file, "table": self.table, "fill": self.fill, "copy": self.copy, "put": self.put, "same": self.same,
               "there": self.there}.get(verb)
        if not act:
            raise Invalid
        name, _, rest = rest.partition(" ")
        return act(name, rest) or "ok"

    # The program.

    def run_program(self, command):
        ended = self.program.run(words_of(command)[1:], **self.roomed())
        return self.told_by(ended)

    def told_by(self, ended):
        """How the program ended and what it printed."""
        self.brief = told(ended.status, ended.printed + without_remarks(ended))
        return told(ended.status, ended.printed + ended.explained)

    def roomed(self):
        return {} if self.room == USUAL_ROOM else {"ROOM": self.room}

    def script(self, rest):
        """Carries out a script on a new card: how it ended, and what it printed."""
        put(SCRIPT, text_of(rest))
        put(SCRIPT_TABLE, self.example)
        ended = self.program.run(["try", SCRIPT, "--table", SCRIPT_TABLE, "--words", str(SCRIPT_WORDS)], SCRIPT=SCRIPT, **self.manners, **self.roomed())
        if ended.status == 0:
            return told("done", ended.printed)
        lines = in_words(ended).splitlines(keepends=True)
        if "cannot be written" in lines[-1]:
            return told("an answer cannot be written", ended.printed)
        return told(lines[-1].rstrip("\n"), "".join(lines[:-1]))

    def converse(self, _rest):
        """A script of which each line is asked when the one before is answered: how it ended, and how many lines were answered."""
        put(SCRIPT_TABLE, self.example)
        words = [self.program.file, "try", "/dev/stdin", "--table", SCRIPT_TABLE, "--words", str(SCRIPT_WORDS)]
        with subprocess.Popen(words, stdin=subprocess.PIPE, stdout=subprocess.PIPE, env={}) as running:
            answers = 0
            for _ in range(LINES):
                running.stdin.write(LINE)
                running.stdin.flush()
                answers += running.stdout.readline().endswith(b"\n")
            running.stdin.close()
            rest = running.stdout.read().decode("latin-1")
            status = running.wait(SECONDS)
        return told("done" if status == 0 else f"status {status}", f"{answers} answers\n{rest}")

    def load(self, rest):
        """Loads the package of a file of rows onto the card of an image: `ok`, or what was answered instead."""
        image, _, rows = rest.partition(" ")
        lines = [line.split("#", 1)[0].strip() for line in bytes_of(rows).decode("ascii").splitlines()]
        commands = [line for line in lines if line] + ["80BA0000"]
        put(COMMANDS, "".join(f"{line}\n" for line in commands).encode("ascii"))
        ended = self.program.run(["run", image, COMMANDS, "--why"])
        if ended.status == 0 and ended.printed == "9000\n" * len(commands):
            return "ok"
        return self.told_by(ended)

    def in_memory(self, rest):
        """Carries out a command in a folder without other files."""
        verb, _, more = rest.partition(" ")
        if verb == "writes":
            return str(self.writes[more])
        os.makedirs("apart", exist_ok=True)
        os.chdir("apart")
        try:
            put("table", self.example)
            if verb == "script":
                put("script", text_of(more))
                return None
            if verb != "jcard":
                raise Invalid
            return self.run_counted(words_of(rest)[1:])
        finally:
            os.chdir("..")

    def run_counted(self, words):
        """Runs the program, and counts the words that it writes to its image."""
        image = words[1] if len(words) > 1 and words[0] in ("new", "run") else None
        ended = self.program.run(words, image=image, **self.roomed())
        if words[0] == "new" and ended.status == 0:
            self.writes[image] = 0
        if image in self.writes:
            self.writes[image] += ended.writes
        return self.told_by(ended)

    # How scripts are run.

    def set_room(self, rest):
        self.room = str(int(rest))

    def set_reader(self, rest):
        self.set_manner("READS", rest)

    def set_writer(self, rest):
        self.set_manner("WRITES", rest)

    def set_manner(self, name, rest):
        call = re.fullmatch(r"fails at call (\d+)", rest)
        if not call and rest not in MANNERS:
            raise Invalid
        self.manners[name] = call[1] if call else MANNERS[rest] or "steady"

    # Files.

    def file(self, name, rest):
        put(name, text_of(rest))

    def table(self, name, size):
        """The example of a platform table, where zeros before the first number make it so long; or the lines `table LINE` of a file of rows."""
        if size.startswith("of "):
            lines = bytes_of(size.removeprefix("of ")).splitlines(keepends=True)
            put(name, b"".join(line.removeprefix(b"table ") for line in lines if line.startswith(b"table ")))
            return
        head, mark, rest = self.example.partition(b" 1 0\n")
        if not mark:
            raise Invalid
        put(name, head + b" " + b"0" * (int(size or 0) - len(self.example)) + b"1 0\n" + rest)

    def fill(self, name, rest):
        count, word = rest.split(" ")
        put(name, bytes.fromhex(word) * int(count))

    def copy(self, name, other):
        put(other, bytes_of(name))

    def put(self, name, rest):
        address, _, words = rest.partition(" ")
        content, at, word = bytearray(bytes_of(name)), 2 * int(address), bytes.fromhex(words)
        if at + len(word) > len(content):
            raise Invalid
        content[at:at + len(word)] = word
        put(name, content)

    def same(self, name, other):
        return "yes" if bytes_of(name) == bytes_of(other) else "no"

    def there(self, name, _rest):
        return "yes" if os.path.isfile(name) else "no"
