"""The words of an image file, by docs/FORMATS.md, Images."""
import os

WORDS, VERSION, COUNT, TOP, CAPACITY, JOURNAL = 2, 1, 3, 5, 11, 12
JOURNAL_OF_OLD, CAPACITY_OF_OLD = 16, 256
PACKAGES, APPLETS, TABLE = 528, 560, 752
TABLE_BYTES = 10
RESET_AREA, DESELECT_AREA, CELLS, BUFFER = 8, 9, 13, 14
USUAL_CELLS, USUAL_BUFFER, MOST_IN_AREA = 2048, 261, 65535
HEADER = 4  # words of an object before its cells
TWO_IN_A_WORD = (6, 7)


class NoImage(Exception):
    """Why a file is not taken."""


class Image:
    """The words of an image."""

    def __init__(self, path):
        try:
            with open(path, "rb") as file:
                content = file.read()
        except OSError as error:
            raise NoImage(f"cannot read {path}: {error.strerror}") from None
        self.path, self.name = path, os.path.basename(path)
        self.words = [content[at] << 8 | content[at + 1] for at in range(0, len(content) - 1, 2)]
        if len(self.words) <= TABLE or content[:2] != b"JC" or self.words[WORDS] != len(self.words):
            raise NoImage(f"{path} is no image")
        is_old = self.words[VERSION] == 1
        self.journal = JOURNAL_OF_OLD if is_old else self.words[JOURNAL]
        self.capacity = CAPACITY_OF_OLD if is_old else self.words[CAPACITY]
        self.top = self.words[TOP]
        self.heap = TABLE + (self.words[TABLE_BYTES] + 1) // 2
        self.end = self.journal if self.journal > JOURNAL_OF_OLD else len(self.words)

    def areas(self):
        """How many cells the area has that a reset clears, and the one that a deselection clears."""
        cells, buffer = self.words[CELLS] or USUAL_CELLS, self.words[BUFFER] or USUAL_BUFFER
        return min(cells + max(buffer - USUAL_BUFFER, 0), MOST_IN_AREA), cells

    def highest_mark(self):
        """How many entries of the journal were ever written: those that a transaction took have an address, which is not 0."""
        taken = [entry for entry in range(self.capacity) if self.words[self.journal + 2 * entry]]
        return max(taken, default=-1) + 1

    def size_of(self, at, length):
        """The words that an object takes, its header among them."""
        kind, event = self.words[at] & 0xFF, self.words[at] >> 8
        if event and kind not in TWO_IN_A_WORD:
            return HEADER + 1
        return HEADER + ((length + 1) // 2 if kind in TWO_IN_A_WORD else length)

    def saved_by(self, word):
        """The word whose old value an entry of the journal has that this word is of; 0 where it is of none."""
        entry = (word - self.journal) // 2
        saved = self.words[self.journal + 2 * entry] if 0 <= entry < self.capacity else 0
        return 0 if self.journal <= saved < self.journal + 2 * self.capacity else saved

    def part_of(self, word):
        """What a word outside the heap is."""
        if self.journal <= word < self.journal + 2 * self.capacity:
            return f"entry {(word - self.journal) // 2 + 1} of the journal"
        if word == COUNT:
            return "the number of the journal's entries"
        if word == TOP:
            return "the heap's end"
        if PACKAGES <= word < TABLE or word in (6, 7):
            return "the registry"
        return f"word {word}"
