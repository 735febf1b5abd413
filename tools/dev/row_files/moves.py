"""Moves: what commands do to a card's heap, step by step, and how many word writes each step is."""
from typing import NamedTuple

TRANSIENT_WORDS = 5  # of the record of a transient object


class Change(NamedTuple):
    """One change of the heap, which is made whole or not at all."""
    places: int  # that it changes: cells, words of images and of the registry, ends of the heap and of areas
    cost: int  # how many of them a transaction keeps for it
    words: int = 0  # of the records that it adds
    counter_of: str = ""  # the PIN whose counter is set, for good
    value_of: str = ""  # the PIN that gets a value, or whose constructor is called

    def writes(self, is_inside):
        """How many word writes it is: the records, and then the places, with entries of two words for those that are kept and one word that
        counts them; outside of a transaction one place is written as it is, and the count is set twice."""
        if is_inside:
            entries = 2 * self.cost + 1 if self.cost else 0
        else:
            entries = 2 * self.places + 2 if self.places > 1 else 0
        return self.words + self.places + entries


BEGIN, COMMIT, ABORT = "begin", "commit", "abort"


def numbers_in(words, least, most):
    if not least <= len(words) <= most:
        raise ValueError(words)
    return [int(word) for word in words]


def added(words, places, cost):
    """Records of this number of words are added, and this number of places is set."""
    return Change(places, *(cost or [places]), words=words)


def read_change(text):
    """A change: its kind, numbers, and the cost where a transaction does not keep each of its places."""
    kind, *words = text.split(" ")
    if kind == "set":
        places, *cost = numbers_in(words, 1, 2)
        return Change(places, *(cost or [places]))
    if kind == "update":
        places, *cost = numbers_in(words[1:], 1, 2)
        return Change(places, *(cost or [places]), value_of=words[0])
    if kind == "counter":
        return Change(1, 0, counter_of=str(*numbers_in(words, 1, 1)))
    if kind == "object":
        count, *cost = numbers_in(words, 1, 2)
        return added(count, 1, cost)
    if kind == "transient":
        return added(TRANSIENT_WORDS, 2, numbers_in(words, 0, 1))
    if kind == "package":
        return added(*numbers_in(words, 1, 1), 3, [])
    if kind == "applet":
        return added(0, 4, numbers_in(words, 0, 1))
    raise ValueError(text)


def read_moves(text):
    """The moves of a text, which commas part. A ValueError where one has no form."""
    parts = [part.strip() for part in text.split(",")]
    return [part if part in (BEGIN, COMMIT, ABORT) else read_change(part) for part in parts if part]


def ends_of(moves):
    """How many word writes have been made as each of the moves ends."""
    ends, writes, kept = [], 0, None
    for move in moves:
        if move == BEGIN:
            kept = 0
        elif move == COMMIT:
            writes += min(kept or 0, 1)
            kept = None
        elif move == ABORT:
            writes += kept + 1 if kept else 0
            kept = None
        else:
            writes += move.writes(kept is not None)
            kept = None if kept is None else kept + move.cost
        ends.append(writes)
    return ends
