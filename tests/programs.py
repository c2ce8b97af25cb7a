"""Where the programs that `rt run` builds are, and how to run them on this machine.
programs.py NAME runs one, its standard input and output those of the caller."""

import os
import platform
import subprocess
import sys
from functools import cache
from pathlib import Path

ROOT = Path(__file__).resolve().parent.parent


def built(program):
    return ROOT / "crates" / program / "out" / program


def missing(*programs):
    return not all(built(program).is_file() for program in programs)


@cache
def kit():
    """The toolchain's folder."""
    return Path(subprocess.run(["rt", "doc"], capture_output=True, text=True, check=True).stdout.strip()).parents[1]


@cache
def launcher():
    """What comes before a program's name: programs are for x86-64, and on another processor the older toolchain had an emulator."""
    if platform.machine() == "x86_64":
        return []
    tools = kit() / "on" / platform.machine() / "toolchain"
    return [tools / "bin" / "qemu-x86_64", tools / "lib" / "ld-linux-x86-64.so.2", "--library-path", tools / "lib"]


def command(program):
    return [*launcher(), built(program)]


if __name__ == "__main__":
    words = command(sys.argv[1])
    os.execv(words[0], words)
