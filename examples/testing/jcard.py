"""A card for tests: jcard at the other end of a pipe, over a copy of an image file."""
import os
import shutil
import subprocess
import tempfile
from typing import NamedTuple

NEVER = 65535  # word writes: more than a command makes


class PowerCut(Exception):
    """The card has no power, or lost it."""


class Response(NamedTuple):
    data: bytes
    sw: int


class Card:
    """It begins powered up, with no applet selected. Commands are bytes, or hexadecimal digits with blanks anywhere."""

    def __init__(self, program, original):
        file, self.image = tempfile.mkstemp(".img", "jcard")
        os.close(file)
        shutil.copyfile(original, self.image)
        line = [program, "run", self.image, "/dev/stdin"]
        self.process = subprocess.Popen(line, stdin=subprocess.PIPE, stdout=subprocess.PIPE, text=True)

    def transmit(self, command):
        """The response to a command. A PowerCut where the card has no power, or loses it within the command."""
        response = self.attempt(command)
        if response is None:
            raise PowerCut
        return response

    def cut_after(self, writes):
        """Lets so many further word writes pass. The next one is refused, and the power is gone."""
        self.ask(f"stop {writes}")

    def power_up(self):
        """Brings the power back, and resets the card. A PowerCut where the power is cut again within its recovery."""
        if self.ask("reset") != "ready":
            raise PowerCut

    def tear(self, writes, command, *recoveries):
        """Cuts the power after so many word writes of a command, then each of some recoveries after so many of its own, and powers
        the card up, with no applet selected. The response, where the command makes no more writes and so is not cut; else None."""
        self.cut_after(writes)
        response = self.attempt(command)
        for each in recoveries:
            self.cut_after(each)
            self.ask("reset")
        self.cut_after(NEVER)
        self.power_up()
        return response

    def attempt(self, command):
        answer = self.ask(command if isinstance(command, str) else command.hex())
        return None if answer == "down" else Response(bytes.fromhex(answer[:-4]), int(answer[-4:], 16))

    def ask(self, line):
        """The program's answer to a line of a script."""
        try:
            print(line, file=self.process.stdin, flush=True)
        except BrokenPipeError:
            pass  # it said why
        answer = self.process.stdout.readline().rstrip("\n")
        if not answer or answer.startswith("jcard: "):
            raise EOFError(f"the program ended: {answer}")
        return answer

    def close(self):
        self.process.kill()
        self.process.communicate()
        os.remove(self.image)

    def __enter__(self):
        return self

    def __exit__(self, *_):
        self.close()
