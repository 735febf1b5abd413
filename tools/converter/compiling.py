"""Compiles Java sources against the stubs of the API: those of what a card can have, and those of classes that none has, which the
converter refuses by their names."""
import os
import shutil
import subprocess
import sys

from .platform import ABSENT, STUBS
from .refusal import Refusal

# A small compilation ends sooner where the compiler itself is not compiled to the best code.
QUICKLY = ("-J-XX:TieredStopAtLevel=1", "-J-XX:+UseSerialGC")


def compile_sources(javac, paths, folder):
    """Compiles the sources to class files in a folder. What javac says goes to standard error."""
    if shutil.which(javac) is None:
        raise Refusal(f"there is no {javac}: a Java development kit is needed, in Debian the package default-jdk-headless")
    line = [javac, *QUICKLY, "-g", "-proc:none", "-implicit:none", "-cp", folder, "-sourcepath", os.pathsep.join((STUBS, ABSENT)),
            "-d", folder]
    done = subprocess.run([*line, *paths], stdin=subprocess.DEVNULL, capture_output=True, text=True)
    sys.stderr.write(done.stdout + done.stderr)
    if done.returncode:
        raise Refusal("javac refuses the source")
