"""Commands that are cut after each number of their word writes, and after each number of words that the file takes; and recoveries after each of theirs."""
import re
from typing import NamedTuple

from . import image as images
from . import moves

OTHER_LINES = "other lines than commands"
EMPTY_COMMAND = " \n"  # is answered 6700, and writes nothing
NO_FORM = "no such moves"
MOST_WRITES = 0x10000


class Left(NamedTuple):
    """What a run left: the image, how many words the file took, and what it printed."""
    image: bytes
    writes: int
    printed: str

    def is_down(self):
        """Whether the card was down at the end."""
        return self.printed.endswith("down\n")


def is_cut_of(cut, whole):
    """Whether a run is another one that was cut: its answers up to the cut, and `down` from then on."""
    is_down = False
    for line, wanted in zip(cut.printed.split("\n"), whole.printed.split("\n")):
        if line == "down":
            is_down = True
        elif line and (is_down or line != wanted):
            return False
    return cut.printed.count("\n") == whole.printed.count("\n")


class Copies:
    """Whole copies of a heap: what a loss of power leaves, by definition. The heap as it is and as it was where the open transaction began, and
    the PINs that were given a value since then."""

    def __init__(self, image):
        self.now, self.saved, self.updated = image, None, set()

    def durable(self):
        """What a loss of power leaves."""
        return self.now if self.saved is None else self.saved

    def make(self, move, image):
        """Makes a move, after which the image is this one: whether it changed no more than its places."""
        if move == moves.BEGIN:
            self.saved, self.updated = self.now, set()
        elif move == moves.COMMIT:
            self.saved = None
        elif move == moves.ABORT:
            self.now = self.durable()
            self.saved = None
        else:
            return self.change(move, image)
        return True

    def change(self, change, image):
        places = images.unlike(self.now, image)
        if change.value_of:
            self.updated.add(change.value_of)
        elif change.counter_of and change.counter_of not in self.updated and self.saved is not None:
            self.keep(places, image)
        self.now = image
        return len(places) <= change.places

    def keep(self, places, image):
        """Sets words at these places in the saved copy too, as far as its heap has them."""
        saved, top = bytearray(self.saved), images.end_of_heap(self.saved)
        for place in places:
            if place < top:
                saved[2 * place:2 * place + 2] = image[2 * place:2 * place + 2]
        self.saved = bytes(saved)


class Cuts:
    """An image, commands for its card, and the moves that they say they make."""

    def __init__(self, desk, image, commands, told_moves):
        self.desk, self.image, self.commands, self.moves = desk, image, commands, told_moves
        self.recoveries = []

    def cut(self, depth):
        """Cuts the commands after each number of their writes, and this number of recoveries that follow after each of theirs: `ok` where each time the
        heap is left that whole copies keep after the last of the moves that end by then, and where a file that fails leaves no other words."""
        try:
            told = moves.read_moves(self.moves)
        except ValueError:
            return NO_FORM
        if not all(re.fullmatch("[0-9A-Fa-f ]*", line) for line in self.commands.splitlines()):
            return OTHER_LINES
        ends = moves.ends_of(told)
        wanted = ends[-1] if ends else 0
        cuts = self.until_whole(self.stopped)
        if len(cuts) - 1 != wanted:
            return f"{len(cuts) - 1} writes, not the {wanted} of the moves"
        copies = Copies(self.image)
        for k, cut in enumerate(cuts):
            if not is_cut_of(cut, cuts[-1]) or cut.writes != k:
                return f"after {k}: other answers, or writes"
            for move, end in zip(told, ends):
                if end == k and not copies.make(move, cut.image):
                    return f"after {k}: more than its places changed"
            wrong = self.recover(depth, cut.image, str(k), copies.durable())
            if wrong:
                return wrong
        return self.failing_files(cuts) or "ok"

    def until_whole(self, cut):
        """The runs that are cut after 0, 1 and more, up to the first that comes to its end."""
        runs = []
        for count in range(MOST_WRITES):
            runs.append(cut(count))
            if not runs[-1].is_down():
                break
        return runs

    def stopped(self, writes):
        """A run of which this number of word writes passes, by a line before it."""
        left = self.desk.run_cut(self.image, f"stop {writes}\n{self.commands}", None)
        return left._replace(printed=left.printed.removeprefix(f"armed {writes}\n"))

    def failing_files(self, cuts):
        """What is wrong, if something is, where the file fails after each number of words: one after the other, it has the words of these runs, which
        were cut one write later each; it may skip some of them."""
        runs = self.until_whole(lambda words: self.desk.run_cut(self.image, self.commands, words))
        later = iter(cut.image for cut in cuts)
        at = next(later)
        for words, run in enumerate(runs):
            if not is_cut_of(run, cuts[-1]):
                return f"where the file fails after {words}: other answers"
            while at != run.image:
                at = next(later, None)
                if at is None:
                    return f"where the file fails after {words}: the words of no cut"
        return None if at == cuts[-1].image else "the file lacks words"

    def recover(self, depth, image, way, heap):
        """Lets this number of recoveries of an image be cut after each number of their writes, and the one after them come to its end, which has to leave
        this heap. An image that was left before is not tried again. What is wrong, if something is."""
        found, level_of = {image}, [(image, way)]
        for level in range(depth + 1):
            cut = []
            for left, ways in level_of:
                whole = None
                for k in range(MOST_WRITES) if level < depth else [None]:
                    whole = self.desk.run_cut(left, EMPTY_COMMAND, k)
                    if whole.printed != "down\n":
                        break
                    if whole.image not in found:
                        found.add(whole.image)
                        cut.append((whole.image, f"{ways} {k}"))
                wrong = wrong_in(whole, ways, heap)
                if wrong:
                    return wrong
                if left is image:
                    self.recoveries.append(whole.writes)
            level_of = cut
        return None


def wrong_in(whole, way, heap):
    """What is wrong with a recovery that came to its end: it left words that are not those of a heap, or entries of the journal."""
    if whole.printed != "6700\n":
        return f"after {way}: {whole.printed.rstrip()}"
    for place in images.unlike(heap, whole.image):
        return f"after {way}: word {place} is {images.word_at(whole.image, place):04X}, not {images.word_at(heap, place):04X}"
    return f"after {way}: entries are left" if images.word_at(whole.image, images.COUNT) else None
