"""Where the program and its tools are."""
import os
import shutil
from typing import Union


def command() -> str:
    """The program: the file or name in the environment's JCARD, or else `jcard`."""
    return os.environ.get("JCARD") or "jcard"


def options(**values: Union[None, int, str, "os.PathLike[str]"]) -> list[str]:
    """The options of a command line: of those that have a value, the name and the value."""
    line = []
    for name, value in values.items():
        if value is not None:
            line += ["--" + name, str(value) if isinstance(value, int) else os.fspath(value)]
    return line


def tool(name: str) -> str:
    """A tool such as `applet`: in the folder that the environment's JCARD_TOOLS names, or in `tools` beside the launcher, or else
    `jcard-applet`."""
    folder = os.environ.get("JCARD_TOOLS")
    if folder:
        return os.path.join(folder, name)
    found = shutil.which(command())
    beside = os.path.join(os.path.dirname(os.path.realpath(found)), "tools", name) if found else ""
    return beside if os.access(beside, os.X_OK) else "jcard-" + name
