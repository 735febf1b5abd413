"""Which file of the program the tools run."""
import os
import subprocess

TOP = os.path.dirname(os.path.dirname(os.path.dirname(os.path.realpath(__file__))))
LAUNCHER = os.path.join(TOP, "jcard")


class NoProgram(Exception):
    """There is no program to run; why."""


def program_file(named=None):
    """The file that is named, or else the one that ./jcard --program prints, which says why where there is none."""
    if named is None:
        try:
            named = subprocess.run([LAUNCHER, "--program"], stdin=subprocess.DEVNULL, stdout=subprocess.PIPE, text=True).stdout.strip()
        except OSError as error:
            raise NoProgram(f"{LAUNCHER}: {error.strerror}") from None
        if not named:
            raise NoProgram("./jcard has no program")
    if not os.access(named, os.X_OK):
        raise NoProgram(f"no program at {named}")
    return os.path.abspath(named)
