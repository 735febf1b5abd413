"""The lines of a file of rows: loops are written out, included files stand in their place."""
import os
import re

FOR = re.compile(r"for (?:(\S+) )?(\d+) (\d+)")
MOST = 65535


class Row:
    """A command, the answer that it has to get, if one is written, and the number of its line."""
    __slots__ = ("number", "command", "answer")

    def __init__(self, number, command, answer):
        self.number, self.command, self.answer = number, command, answer


def said(line):
    """What a line says before a comment."""
    return "" if line.startswith("#") else line.split(" #", 1)[0].rstrip()


def loop_of(text):
    """The name and the numbers of a loop that a text begins, or nothing."""
    form = FOR.fullmatch(text)
    if not form or int(form[2]) > MOST or int(form[3]) > MOST:
        return None
    return form[1] or "n", range(int(form[2]), int(form[3]) + 1)


def blocks_of(lines):
    """The numbered lines, with a list for each loop: its name, its numbers, and what stands in it."""
    inside, open_loops = [], []
    for number, line in enumerate(lines, 1):
        text = said(line)
        loop = loop_of(text)
        if loop:
            open_loops.append((number, loop, inside))
            inside = []
        elif text == "end" and open_loops:
            _, loop, before = open_loops.pop()
            before.append((*loop, inside))
            inside = before
        else:
            inside.append((number, "end without for" if text == "end" else line))
    if not open_loops:
        return inside
    number, _, before = open_loops[0]
    return [*before, (number, "for without end")]


def written_out(blocks):
    """The numbered lines of blocks, those of a loop once for each of its numbers."""
    for block in blocks:
        if len(block) == 2:
            yield block
            continue
        name, numbers, inside = block
        mark = "{" + name + "}"
        for k in numbers:
            for number, line in written_out(inside):
                yield number, line.replace(mark, str(k)).replace("{h}", f"{k:02X}")


def size_of(blocks):
    """How many lines blocks are, written out."""
    return sum(1 if len(block) == 2 else len(block[1]) * size_of(block[2]) for block in blocks)


def lines_in(path):
    with open(path, encoding="ascii") as file:
        return file.read().split("\n")


def rows_of(path):
    """The rows of a file, in their order. A line `new` is a row without a command."""
    for number, line in written_out(blocks_of(lines_in(path))):
        text = said(line)
        if text.startswith("include "):
            beside = os.path.join(os.path.dirname(path), text.removeprefix("include "))
            yield from rows_in(number, lines_in(beside))
        else:
            yield from rows_in(number, [line])


def rows_in(number, lines):
    """The rows that lines are, all with one number."""
    for line in lines:
        text = said(line)
        if text == "new":
            yield Row(number, None, None)
        elif text:
            command, marks, answer = text.partition(" = ")
            yield Row(number, command.rstrip(), answer.lstrip() if marks else None)
