"""Commands of jcard that tools carry out, and their records. An image is never changed: what runs on a card runs on a copy."""
import os
import shutil
import subprocess
import tempfile

from . import telling


class Refused(Exception):
    """What jcard said as it refused a command."""


class Session:
    """The program, and a folder for copies."""

    def __init__(self, program):
        self.program, self.room = program, tempfile.TemporaryDirectory()

    def __enter__(self):
        return self

    def __exit__(self, *_):
        self.room.cleanup()

    def path(self, name):
        return os.path.join(self.room.name, name)

    def tell(self, *words, statuses=(0,)):
        """The lines that a command prints, and those that it says on standard error."""
        done = subprocess.run([self.program, *words], stdin=subprocess.DEVNULL, capture_output=True, text=True, errors="replace")
        if done.returncode not in statuses:
            last = (done.stdout.splitlines() + done.stderr.splitlines() or ["it said nothing"])[-1]
            raise Refused(last.removeprefix("jcard: "))
        return done.stdout.splitlines(), done.stderr.splitlines()

    def copy(self, image, name="copy.img"):
        shutil.copyfile(image, self.path(name))
        return self.path(name)

    def run(self, image, lines, *options):
        """The records of a script on a copy of an image, which it leaves as copy.img."""
        script = self.path("script")
        with open(script, "w", encoding="ascii", errors="replace") as file:
            file.write("".join(f"{line}\n" for line in lines))
        printed, said = self.tell("run", self.copy(image), script, *options)
        return [*telling.answers(printed), *telling.causes(said)]

    def dump(self, *words):
        """The records of a dump."""
        return list(telling.dumps(self.tell("dump", *words)[0]))
