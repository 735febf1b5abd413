"""Files that tools write. A file is opened and exclusively locked, then looked at, and only then truncated and written. One that is
in use, holds an image, or is read by the same command is left as it is."""
import contextlib
import fcntl
import io
import os
import stat

FIRST_OF_AN_IMAGE = b"JC"


class NotWritten(Exception):
    """A file was to be written, and was left as it was; why."""


def opened(path, operands=(), over_image=False):
    """A file that is locked, looked at and empty, for bytes. Operands are pairs: the name of a file that the command reads, and what it
    is, as in ("card.img", "an image"). An image is taken only `over_image`."""
    with told_for(path):
        file = looked_at(path, operands, over_image)
        emptied(file)
    return io.BufferedWriter(file)


def write_files(contents, operands=()):
    """Writes files, each a pair of its name and its bytes: all of them, or none where one is refused."""
    with contextlib.ExitStack() as held:
        files = []
        for path, _ in contents:
            with told_for(path):
                files.append(held.enter_context(looked_at(path, operands, False)))
        for file, (path, content) in zip(files, contents):
            with told_for(path):
                emptied(file)
                rest = memoryview(content)
                while rest:
                    rest = rest[file.write(rest):]


@contextlib.contextmanager
def told_for(path):
    """Faults of the system name the file."""
    try:
        yield
    except OSError as error:
        raise NotWritten(f"cannot write {path}: {error.strerror}") from None


def looked_at(path, operands, over_image):
    """A file that may be written, locked and as it was."""
    is_regular = not os.path.exists(path) or stat.S_ISREG(os.stat(path).st_mode)
    how = os.O_RDWR if is_regular else os.O_WRONLY
    file = io.FileIO(os.open(path, how | os.O_CREAT, 0o666), "r+" if is_regular else "w")
    try:
        if is_regular:
            lock(file, path)
            look_at(file, path, operands, over_image)
    except BaseException:
        file.close()
        raise
    return file


def lock(file, path):
    try:
        fcntl.flock(file, fcntl.LOCK_EX | fcntl.LOCK_NB)
    except BlockingIOError:
        raise NotWritten(f"{path} is in use") from None


def look_at(file, path, operands, over_image):
    for name, kind in operands:
        if os.path.exists(name) and os.path.samestat(os.fstat(file.fileno()), os.stat(name)):
            raise NotWritten(f"{path} is {kind}")
    if not over_image and os.pread(file.fileno(), 2, 0) == FIRST_OF_AN_IMAGE:
        raise NotWritten(f"{path} is an image")


def emptied(file):
    if stat.S_ISREG(os.fstat(file.fileno()).st_mode):
        file.truncate(0)
