"""The program, and images of cards with the examples on them, for the tests of this folder.

The program is the one that ./jcard --program prints, or the file that the environment names as JCARD. An image is made once, or is the
file that the environment names by the example in capitals, as PURSE.
"""
import os
import subprocess
import tempfile

EXAMPLES = os.path.dirname(os.path.dirname(os.path.realpath(__file__)))
LAUNCHER = os.path.join(os.path.dirname(EXAMPLES), "jcard")
PROGRAM = os.environ.get("JCARD") or subprocess.run([LAUNCHER, "--program"], check=True, stdout=subprocess.PIPE, text=True).stdout.strip()
ROOM = tempfile.TemporaryDirectory()


def image_of(name):
    """The image of a card that has the example."""
    path = os.environ.get(name.upper(), os.path.join(ROOM.name, f"{name}.img"))
    if not os.path.exists(path):
        subprocess.run([PROGRAM, "new", path, "--words", "8192"], check=True)
        load = [PROGRAM, "run", path, os.path.join(EXAMPLES, name, f"{name}.load")]
        assert set(subprocess.run(load, stdout=subprocess.PIPE, text=True).stdout.split()) == {"9000"}
    return path


def run_all(tests):
    """Runs the tests among a module's names, and reports how many there are."""
    found = [value for name, value in tests.items() if name.startswith("test_")]
    for each in found:
        each()
    print(f"{len(found)} tests passed")
