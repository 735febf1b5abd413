"""The words of an image, and what of them is the journal's own."""
import struct

VERSION, COUNT, TOP, CAPACITY, JOURNAL = 1, 3, 5, 11, 12  # words of an image
FIRST_VERSION, FIRST_JOURNAL, FIRST_CAPACITY = 1, 16, 256
LARGEST = 0xFFFF


def word_at(image, place):
    """A word, or 0 where there is none."""
    return int.from_bytes(image[2 * place:2 * place + 2], "big") if 2 * place + 1 < len(image) else 0


def words_of(image):
    return struct.unpack(f">{len(image) // 2}H", image)


def journal_of(image):
    """The places of the entries of the journal."""
    first, entries = word_at(image, JOURNAL), word_at(image, CAPACITY)
    if word_at(image, VERSION) == FIRST_VERSION:
        first, entries = FIRST_JOURNAL, FIRST_CAPACITY
    return range(first, first + 2 * entries)


def end_of_heap(image):
    return word_at(image, TOP) if len(image) > 2 * TOP + 1 else LARGEST


def differing(image, other):
    """The places at which two images differ."""
    if image == other:
        return []
    return [place for place, (word, another) in enumerate(zip(words_of(image), words_of(other))) if word != another]


def unlike(heap, other):
    """The places of a heap, those of the journal apart, in which another image differs."""
    top, journal = end_of_heap(heap), journal_of(heap)
    return [place for place in differing(heap, other) if place < top and place != COUNT and place not in journal]


def put_words(image, first, digits):
    """Puts words from a place on, and answers the place after them; nothing where one of them has no form or no place."""
    at = first
    for word in digits.split():
        if len(word) != 4 or 2 * at + 2 > len(image):
            return None
        image[2 * at:2 * at + 2] = bytes.fromhex(word)
        at += 1
    return at
