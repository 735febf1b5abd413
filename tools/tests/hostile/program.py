"""The program under tests that give it bad things: what it prints has to have the forms of docs/FORMATS.md."""
import os
import re
import subprocess

from harness import TOP

TABLE = os.path.join(TOP, "examples/platform.table")
CARDS = os.path.join(TOP, "rows/cards")
LONGEST = 10  # seconds that a run may take
MOST_SENT = 256  # bytes before a status word
ANSWER = re.compile("(?:[0-9A-F]{2}){2,%d}" % (MOST_SENT + 2))
COMMAND = re.compile("(?: *[0-9A-Fa-f] *[0-9A-Fa-f])* *")
STOP = re.compile("stop ([0-9]+)")
DUMP = re.compile(r"words [0-9]+\njournal [0-9]+ of [0-9]+\npackages ([0-9]+)\napplets ([0-9]+)\n"
                  r"((?:package [0-9]+ [0-9A-F]{10,32} [0-9]+\.[0-9]+\n)*)((?:applet [0-9]+ [0-9A-F]{10,32} package [0-9]+\n)*)")
REMARK = re.compile(r"jcard: line ([0-9]+)(?:, column [0-9]+)?: .+\n")
BAD_IMAGE = re.compile("jcard: bad image [1-6]")
BYTES, END = "80B4", "80BA"  # the commands that may tell want of memory
WANT = ("640B", "6424")


class Failed(Exception):
    """What the program did, and should not have done."""


def is_unlike(line, answer):
    """Whether what was printed for a line of a script has not its form."""
    if line == "reset":
        return answer not in ("ready", "down")
    stop = STOP.fullmatch(line)
    if stop:
        return answer != f"armed {int(stop[1])}"
    return answer != "down" and not ANSWER.fullmatch(answer)


def told_want(line, answer):
    """Whether want of memory is reported, which the tests do not have."""
    return line.startswith((BYTES, END)) and answer in WANT


def is_said(line):
    """Whether something is printed for a line."""
    return bool(line) and not line.startswith("#")


def is_remark(printed, said):
    """Whether standard error says why the line of a script is refused that the last line of the output names."""
    remark, last = REMARK.fullmatch(said), printed.rpartition("jcard: ")[2]
    return remark is not None and last == f"line {remark[1]}: bad command\n"


class Program:
    """The program, with a folder for its files."""

    def __init__(self, path, room):
        self.path, self.room = os.path.realpath(path), room

    def file(self, name, content):
        """The path of a file with this name, with these bytes or these lines."""
        path = os.path.join(self.room, name)
        with open(path, "wb") as file:
            file.write(content if isinstance(content, bytes) else "".join(f"{line}\n" for line in content).encode())
        return path

    def run(self, *words):
        """The exit status, 0 or 1, and the text that is printed."""
        try:
            done = subprocess.run([self.path, *words], stdin=subprocess.DEVNULL, capture_output=True, timeout=LONGEST, check=False)
        except subprocess.TimeoutExpired:
            raise Failed(f"{words[0]} had not ended after {LONGEST} seconds") from None
        text, said = done.stdout.decode("ascii", "replace"), done.stderr.decode("ascii", "replace")
        if done.returncode not in (0, 1) or said and not is_remark(text, said):
            raise Failed(f"{words[0]} ended with status {done.returncode}: {text[-200:]} {said[-200:]}")
        return done.returncode, text

    def new(self, image, words, *options, table=TABLE):
        """Makes an image with a platform table, or without one with the usual table."""
        named = ["--table", table] if table else []
        status, text = self.run("new", image, "--words", str(words), *named, *options)
        if (status, text) != (0, ""):
            raise Failed(f"new ended with status {status}: {text}")

    def answers(self, lines, *words):
        """What is printed for each line of a script that is answered, and why the script ended early: a line after `jcard: `, or
        none. The words are those of the command line up to the script, and those after it."""
        script = self.file("script", lines)
        status, text = self.run(*(script if word is None else word for word in words))
        if text and not text.endswith("\n"):
            raise Failed(f"the last line is not ended: {text[-200:]}")
        printed = text.split("\n")[:-1]
        if status and not printed:
            raise Failed("status 1 and nothing is printed")
        ended = printed.pop() if status else None
        said = [line for line in lines if is_said(line)]
        if len(printed) > len(said) or (not status and len(printed) < len(said)):
            raise Failed(f"{len(printed)} lines are printed for {len(said)}, status {status}")
        for line, answer in zip(said, printed):
            if is_unlike(line, answer) or told_want(line, answer):
                raise Failed(f"{line} is answered {answer}")
        if status and not re.fullmatch(r"jcard: (?:bad image [1-6]|line [0-9]+: bad command)", ended):
            raise Failed(f"it ends by {ended}")
        return printed, ended

    def tried(self, lines, table=TABLE):
        """The answers of a card in memory to lines, all of which have a form."""
        answers, ended = self.answers(lines, "try", None, "--table", table)
        if ended is not None:
            raise Failed(f"it ends by {ended}")
        return answers

    def dumped(self, image, may_be_bad=False):
        """Looks at what a dump prints; whether it lists all."""
        status, text = self.run("dump", image)
        found = DUMP.fullmatch(text)
        if not status and found and all(int(found[at]) == found[at + 2].count("\n") for at in (1, 2)):
            return True
        if status and may_be_bad and BAD_IMAGE.fullmatch(text.rstrip("\n").rpartition("\n")[2]):
            return False
        raise Failed(f"dump ended with status {status}: {text[-200:]}")
