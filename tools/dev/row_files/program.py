"""Runs of the program: what it prints, how it ends, and how many words it wrote to an image."""
import os
import re
import shutil
import subprocess
from typing import NamedTuple

HERE = os.path.dirname(os.path.realpath(__file__))
SECONDS = 120
BAD_IMAGES = "BadMagic", "BadVersion", "BadSize", "BadLog", "BadTable", "BadPackage"
FAULTS = [(re.compile(form), fault) for form, fault in (
    (r"jcard: bad image ([1-6])\b", lambda told: BAD_IMAGES[int(told[1]) - 1]), (r"jcard: line (\d+): ", lambda told: f"line {told[1]} has no form"),
    ("jcard: script too long", lambda told: "the script is too long"), ("jcard: cannot read ", lambda told: "the script cannot be read"))]


class Ended(NamedTuple):
    status: int
    printed: str
    explained: str  # on standard error
    writes: int  # words that were written to the image, where that is counted


def compiler():
    """The words of a C compiler."""
    if shutil.which("cc"):
        return ["cc"]
    clang = os.path.join(os.path.dirname(os.path.realpath(shutil.which("rt") or "")), "../toolchain/bin/clang")
    return [clang, "-fuse-ld=lld"]


def make_library(folder):
    """The library of calls that are counted or fail, made in a folder."""
    library = os.path.join(folder, "calls.so")
    subprocess.run([*compiler(), "-shared", "-fPIC", "-O1", "-o", library, os.path.join(HERE, "calls.c")], check=True)
    return library


class Program:
    """The program, run in the folder of the process that asks."""

    def __init__(self, file, library):
        self.file, self.library = file, library
        self.count = os.open("count", os.O_RDWR | os.O_CREAT)

    def run(self, words, image=None, fuse=None, given=None, **manners):
        """Runs the program with these words. Word writes to an image are counted, where one is named, and the one after the first FUSE is
        refused; MANNERS are variables of calls.c."""
        environment = {"PATH": "/nowhere", **manners}
        if image:
            environment |= {"IMAGE": image, "COUNT": str(self.count)}
            os.ftruncate(self.count, 0)
        if fuse is not None:
            environment["FUSE"] = str(fuse)
        if len(environment) > 1:
            environment["LD_PRELOAD"] = self.library
        done = subprocess.run([self.file, *words], env=environment, input=given, stdin=None if given else subprocess.DEVNULL, capture_output=True,
                              pass_fds=[self.count], timeout=SECONDS, check=False)
        writes = int(os.pread(self.count, 24, 0) or 0) if image else 0
        return Ended(done.returncode, done.stdout.decode("latin-1"), done.stderr.decode("latin-1"), writes)


def put(name, content):
    with open(name, "wb") as file:
        file.write(content)


def bytes_of(name):
    with open(name, "rb") as file:
        return file.read()


def in_words(ended):
    """What a script printed, and then, in a line, why it did not come to its end."""
    if ended.status == 0:
        return ended.printed
    printed, _, last = ended.printed.removesuffix("\n").rpartition("\n")
    lines = printed + "\n" if printed else ""
    if ended.status != 1 or not last.startswith("jcard: "):
        return f"{ended.printed}status {ended.status}: an answer cannot be written\n"
    return f"{lines}{fault_of(last)}\n"


def fault_of(line):
    """The fault that the program's last line tells, in the words of rows."""
    for form, fault in FAULTS:
        told = form.match(line)
        if told:
            return fault(told)
    return line
