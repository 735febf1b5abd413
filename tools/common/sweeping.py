"""What `jcard tear --each --why` tells of a script, with each word write by its object and by the line of the Java source that made it."""
import collections

from .card_image import HEADER, TWO_IN_A_WORD, Image
from .holding import Holders

MOST_TRACED = "0"  # instructions of a command are counted, and not printed
UNCUT = "stop 65535"  # more writes than a command that is swept makes; a fuse of the script does not cut it


class Write:
    """A word write: the word, what it is, where it was made and in which method, and how the word changed, where no other write of the
    command changes it."""

    def __init__(self, word, frame):
        self.word, self.what, self.frame, self.change = word, "", frame, None

    @property
    def source(self):
        """The line of the Java source, as in purse/Purse.java:109; None where the map does not tell it."""
        return self.frame.get("source") if self.frame else None

    @property
    def place(self):
        """Where the write was made; None where the runtime environment made it before code ran."""
        return self.source or (f"{self.frame.get('package')} offset {self.frame['offset']}" if self.frame else None)


class Command:
    """A command of a script, and what its cuts left."""

    def __init__(self, verdict, rows):
        self.line, self.text, self.answer = verdict["line"], verdict["command"], verdict.get("answer")
        self.verdict = verdict
        self.cuts = [row for row in rows if row["record"] == "cuts" for _ in range(row["first"], row["last"] + 1)]
        self.rows = rows
        self.uncut = next((row for row in rows if row["record"] == "uncut"), None)
        self.recoveries = [row for row in rows if row["record"] == "recoveries"]
        self.why, self.instructions, self.writes, self.places = None, 0, [], None

    @property
    def is_torn(self):
        return self.verdict["verdict"] == "torn"

    @property
    def recovers_otherwise(self):
        """Whether a recovery that was cut made a difference."""
        return any(each["made_a_difference"] for each in self.recoveries)


def commands_of(records):
    """The commands of a sweep, from the records of `tear --each`."""
    commands, rows = [], []
    for record in records:
        if record["record"] == "verdict" and "line" in record:
            commands.append(Command(record, rows))
            rows = []
        elif record["record"] == "recoveries" and commands and record.get("line") == commands[-1].line:
            commands[-1].recoveries.append(record)
        else:
            rows.append(record)
    return commands


def add_run(commands, records):
    """Adds causes and costs from a run of the whole script."""
    by_line = {command.line: command for command in commands}
    for record in records:
        command = by_line.get(record.get("line"))
        if command and record["record"] == "why":
            command.why = record
        elif command and record["record"] == "trace":
            command.instructions = len(record["instructions"]) + record.get("before", 0) + record.get("after", 0)


class Places:
    """What the words of an image are, by a dump of its objects."""

    def __init__(self, image, records, names):
        self.image, self.names, self.holders = image, names, Holders(records, names)
        self.ranges = [(record["at"], record["at"] + image.size_of(record["at"], record["length"]), record) for record in records if record["record"] == "object"]
        self.ranges += [(record["at"], record["at"] + record["words"], record) for record in records if record["record"] == "package words"]
        self.aids = {record["number"]: record["aid"] for record in records if record["record"] == "package"}

    def found(self, word):
        """The object or the package that a word is of; None outside the heap."""
        return next((record for start, end, record in self.ranges if start <= word < end), None)

    def name(self, word):
        """What a word is."""
        record = self.found(word)
        if record is None:
            saved = self.image.saved_by(word)
            return self.image.part_of(word) + (f", for {self.name(saved)}" if saved else "")
        return self.static(word, record) if record["record"] == "package words" else self.cell(word - record["at"], record)

    def value(self, word, content):
        """What a word with this content says."""
        record = self.found(word)
        if record is None:
            return str(content)
        if record["record"] == "package words":
            aid, size, at = self.place(word, record)
            return self.holders.static_value(aid, size, at, content) if 0 <= at < size else str(content)
        cell = word - record["at"] - HEADER
        return str(content) if cell < 0 else self.holders.value(record["class"], cell, f"{content:04X}" if self.is_pair(record) else str(content))

    def is_pair(self, record):
        return self.image.words[record["at"]] & 0xFF in TWO_IN_A_WORD

    def place(self, word, record):
        """The package of a record, the words of its static image, and which of them a word is."""
        size = len(record["static_image"])
        return self.aids.get(record["number"]), size, word - (record["at"] + record["words"] - size)

    def static(self, word, record):
        """A static field, by the place of its word in the static image, or what stands before it."""
        aid, size, at = self.place(word, record)
        if not 0 <= at < size:
            return f"the code of package {aid}"
        return self.holders.statics(aid, size)[at] or f"static field at byte {2 * at} of package {aid}"

    def cell(self, index, record):
        """The name of a word of an object."""
        at, kind, cell = record["at"], record["class"], index - HEADER
        told = f"@{at} {self.names.class_name(kind)}"
        if index < HEADER:
            return f"the header of {told}"
        if kind.endswith("Exception"):
            return f"the reason of {told}"
        return self.holders.cell(at, kind, 2 * cell, 2) if self.is_pair(record) else self.holders.cell(at, kind, cell)


def add_writes(session, image, lines, command, writes, names, options=()):
    """Adds the word writes of a command, by their records; what their words are, by the images before it and after it."""
    session.run(image, lines[:command.line - 1], *options)
    before = Image(session.path("copy.img"))
    session.run(image, [*lines[:command.line - 1], UNCUT, lines[command.line - 1]], *options)
    after = Image(session.path("copy.img"))
    places = command.places = Places(after, session.dump(session.path("copy.img"), "--objects", "--all"), names)
    often = collections.Counter(record["word"] for record in writes)
    for record in writes:
        frame = record.get("frame", {})
        write = Write(record["word"], frame if "offset" in frame else None)
        write.what = places.name(write.word)
        if often[write.word] == 1:
            was, now = (places.value(write.word, stand.words[write.word]) for stand in (before, after))
            write.change = (was, now) if was != now and not places.image.saved_by(write.word) else None
        command.writes.append(write)
