"""A network of their own for tests with pcscd, whose virtual reader listens on all addresses of the machine."""
import os
import subprocess


class Impossible(Exception):
    """Why something cannot be tried here."""


def unshared():
    """The words that begin a program in a network and a list of mounts of its own; what it begins ends with it."""
    words = ["unshare", "--net", "--mount", "--pid", "--fork", "--kill-child", *([] if os.geteuid() == 0 else ["--map-root-user"])]
    try:
        done = subprocess.run([*words, "sh", "-c", "ip link set lo up && mount -t tmpfs none /run"], capture_output=True, text=True)
    except OSError as fault:
        raise Impossible("there is no unshare: %s" % fault)
    if done.returncode:
        raise Impossible("no network of its own: " + (done.stderr.strip().splitlines() or ["unshare failed"])[-1])
    return words
