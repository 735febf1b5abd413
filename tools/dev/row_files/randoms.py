"""Random lines of scripts, the same for the same seed."""
CLASSES = (0x00, 0x80, 0x00, 0x90)
INSTRUCTIONS = (0x00, 0x01, 0x02, 0x10, 0xA4, 0xA4, 0xB0, 0xB2, 0xB4, 0xB8, 0xBA, 0xBC, 0x00, 0x01, 0x00, 0x01)


def bytes_from(seed):
    """Bytes that follow one another by a linear congruence."""
    while True:
        seed = (seed * 1_664_525 + 1_013_904_223) % 2**32
        yield seed >> 24


def lines_from(seed, count):
    """This number of lines of commands, with a reset now and then."""
    some, lines = bytes_from(seed), []
    for _ in range(count):
        if next(some) < 4:
            lines.append("reset")
            continue
        head = CLASSES[next(some) % 4], INSTRUCTIONS[next(some) % 16], next(some) % 16, 0
        data = next(some) % 12
        lines.append(bytes([*head, data, *(next(some) for _ in range(data))]).hex().upper())
    return lines
