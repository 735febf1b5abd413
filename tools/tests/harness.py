"""What the tests share: where the tools stand, the words and the program that a test is given, how commands are run, and what is counted.

A test counts by Trials, whose last line ./test adds up. Its usage names PROGRAM where it is given the program.
"""
import os
import pathlib
import subprocess
import sys

TESTS = os.path.dirname(os.path.realpath(__file__))
TOOLS = os.path.dirname(TESTS)
DEV = os.path.join(TOOLS, "dev")
TOP = os.path.dirname(TOOLS)
TREE = pathlib.Path(TOP)
sys.path[1:1] = TOOLS, DEV


class Trials:
    """Counts what holds, what fails, which is printed, and what is skipped."""

    def __init__(self):
        self.passed = self.failed = self.skipped = 0

    def check(self, what, holds, *details):
        """Counts a check; whether it holds."""
        if holds:
            self.passed += 1
        else:
            self.failed += 1
            print("FAILED", what, *details, flush=True)
        return bool(holds)

    def equal(self, what, wanted, got):
        """Counts a comparison; whether both are equal."""
        return self.check(what, wanted == got, f"\n  wanted {wanted!r}\n  got    {got!r}")

    def skip(self, what, count=1):
        print("skipped:", what, flush=True)
        self.skipped += count

    def end(self):
        """Prints the last line; the exit status."""
        print(f"{self.passed} passed, {self.failed} failed, {self.skipped} skipped")
        return 1 if self.failed else 0


def words_of(usage, count=0):
    """The words of a test that takes this number of them and no option. The usage is printed for --help, and where there are others."""
    words = sys.argv[1:]
    if words in (["--help"], ["-h"]):
        print(usage.strip())
        sys.exit(0)
    if len(words) != count or any(word.startswith("-") for word in words):
        print(usage.strip(), file=sys.stderr)
        sys.exit(2)
    return words


def program_of(usage):
    """The file of the program, the one word of a test."""
    file, = words_of(usage, 1)
    return checked_program(file)


def checked_program(file):
    """The whole name of the program's file. Where there is none, the test ends."""
    if not os.access(file, os.X_OK):
        print(f"{os.path.basename(sys.argv[0])}: no program at {file}: ./jcard --prove proves and builds it", file=sys.stderr)
        sys.exit(1)
    return os.path.realpath(file)


def run(*words, folder=None, given="", seconds=600, **environment):
    """The status of a command, what it prints, and what it writes to standard error. One that takes too long is killed, and has no status."""
    try:
        done = subprocess.run(words, cwd=folder, env={**os.environ, **environment}, input=given, capture_output=True, text=True, timeout=seconds)
    except subprocess.TimeoutExpired as slow:
        return None, text_of(slow.stdout), text_of(slow.stderr) + f"\nkilled after {seconds} seconds"
    return done.returncode, done.stdout, done.stderr


def text_of(output):
    """What a command that was killed had printed."""
    return output.decode(errors="replace") if isinstance(output, bytes) else output or ""
