"""Choices between forms that mean the same."""
from dataclasses import dataclass


@dataclass(frozen=True)
class Style:
    """The forms in use. Tests convert in both styles, and the card has to answer alike."""

    this_forms: bool = True  # getfield_s_this, for the object whose method runs
    short_locals: bool = True  # sload_0 to sload_3
    increments: bool = True  # sinc
    tables: bool = True  # stableswitch
    narrow_branches: bool = True  # offsets of a byte
    short_headers: bool = True


SHORT = Style()
LONG = Style(False, False, False, False, False, False)
STYLES = {"short": SHORT, "long": LONG}
