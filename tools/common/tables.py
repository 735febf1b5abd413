"""Which platform table a card has."""
import os

TOP = os.path.dirname(os.path.dirname(os.path.dirname(os.path.realpath(__file__))))
USUAL = os.path.join(TOP, "examples/extended.table")  # the text of the usual table, which a card has for which none is named


def table_words(table):
    """The program's words for a card with a table: none for the usual one, which takes fewer words of the card than its text."""
    return [] if os.path.realpath(table) == os.path.realpath(USUAL) else ["--table", table]
