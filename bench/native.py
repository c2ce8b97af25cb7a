"""Our programs for this machine's processor, so that callgrind can count them.

`rt run` builds programs for x86-64. On another processor callgrind cannot run those, so the LLVM module that the
toolchain's compiler makes of a program is compiled once more, by the toolchain's clang at the same -O3, for this one.
"""
import platform
import subprocess
import sys
from pathlib import Path

sys.path.insert(0, str(Path(__file__).resolve().parent.parent / "tests"))

import programs

# A clang that keeps the module of the optimised build, and then does what it was called for.
KEEPER = """#!/bin/sh
case " $* " in *" -O3 "*) cp module.bc "{module}" ;; esac
exec "{clang}" "$@"
"""


def dependencies(lines):
    """What each name of a list `NAME: NAME NAME ..` rests on."""
    return {name: below.split() for name, _, below in (line.partition(":") for line in lines if ":" in line)}


def libraries(program):
    """The source of each library that a program reaches."""
    kit = programs.kit() / "libs"
    ours = dependencies((programs.ROOT / "crates.txt").read_text().splitlines())
    theirs = dependencies((kit / "libs.txt").read_text().splitlines())
    found, reached = {"std": kit / "std" / "src" / "lib.rt"}, list(ours[program])
    for name in reached:
        if name not in found:
            home = programs.ROOT / "crates" if name in ours else kit
            found[name] = home / name / "src" / "lib.rt"
            reached += ours.get(name) or theirs.get(name, [])
    return found


def toolchain(folder, tools, module):
    """A copy of the toolchain's folder with that clang."""
    (folder / "bin").mkdir(parents=True)
    (folder / "lib").symlink_to(tools / "lib")
    for tool in (tools / "bin").iterdir():
        if tool.name != "clang":
            (folder / "bin" / tool.name).symlink_to(tool)
    keeper = folder / "bin" / "clang"
    keeper.write_text(KEEPER.format(module=module, clang=tools / "bin" / "clang"))
    keeper.chmod(0o755)
    return folder


def build(program, folder):
    """The program for this processor, in the folder."""
    if platform.machine() == "x86_64":
        return programs.built(program)
    own, module, made = programs.kit() / "on" / platform.machine(), folder / f"{program}.bc", folder / program
    tools = toolchain(folder / f"{program}-tools", own / "toolchain", module)
    words = [f"--lib={name}={path}" for name, path in libraries(program).items()]
    source = programs.ROOT / "crates" / program / "src" / "main.rt"
    subprocess.run([own / "bin" / "rattle-cases", "--toolchain", tools, source, "--crate-name", program, *words],
                   stdin=subprocess.DEVNULL, capture_output=True, check=False)
    clang = [own / "toolchain" / "bin" / "clang", f"--target={platform.machine()}-unknown-linux-gnu", "-fPIE", "-O3"]
    subprocess.run([*clang, "-Wno-override-module", "-c", "-x", "ir", module, "-o", f"{made}.o"], capture_output=True, check=True)
    subprocess.run(["cc", f"{made}.o", "-o", made], check=True)
    return made
