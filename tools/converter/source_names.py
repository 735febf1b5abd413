"""What the Java source names in a package: its classes and fields, and the local variables of its methods."""
from typing import NamedTuple


class Local(NamedTuple):
    """A local variable: its number, from where and up to where in the Method component it has it, its descriptor and its name."""

    number: int
    start: int
    end: int
    descriptor: str
    name: str


class Record(NamedTuple):
    """A record of the Class component: the class, the one above it, its file, its own fields by their cells, and its static fields by
    their places in the static image; a field is its descriptor and its name."""

    name: str
    above: str
    file: str
    fields: dict
    statics: dict
