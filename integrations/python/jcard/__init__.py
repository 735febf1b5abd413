"""Java cards that jcard simulates, for tests.

    from jcard import Card

    with Card.of_copy("card.img") as card:
        assert card.select("F0707572736501").sw == 0x9000

The program answers at the other end of a pipe: the command that the environment's JCARD names, or else `jcard` on the path.
`jcard.connection` has pyscard's interface to such cards, and `jcard.fixtures` is a plugin of pytest.
"""
from jcard.card import NEVER, Card, PowerCut, ProgramEnded, Response
from jcard.images import Applet, NotMade, load, make_image

__all__ = ["Applet", "Card", "NEVER", "NotMade", "PowerCut", "ProgramEnded", "Response", "load", "make_image"]
