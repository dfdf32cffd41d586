"""How a program for x86-64 is run, which both sides of a comparison may be."""
import os, platform, shlex, shutil
from original import file, missing, program, root


def by_the_toolchain():
    """The emulator, if one is needed (Debian's package qemu-user), and the loader of the toolchain, which takes its C library."""
    home = os.environ.get("RATTLE_HOME") or os.path.join(os.path.dirname(os.path.realpath(shutil.which("rt") or "")), "..")
    lib = os.path.abspath(os.path.join(home, "toolchain/lib"))
    loader = lib + "/ld-linux-x86-64.so.2"
    if not os.path.exists(loader):
        missing("no Rattle toolchain: neither RATTLE_HOME nor the command rt leads to one")
    return [] if platform.machine() == "x86_64" else [shutil.which("qemu-x86_64") or missing("qemu-x86_64: not found; it is of Debian's package qemu-user")], [loader, "--library-path", lib]


def made(name, folder=os.path.join(root, "crates")):
    """A program of the gate: in the folder, or where `rt` leaves it in the folder of the crates."""
    alone = os.path.join(folder, name)
    there = alone if os.path.isfile(alone) else os.path.join(alone, "out", name)
    return file(os.path.normpath(there), "`rt run` in crates/%s makes it" % name)


def our_side(given, name):
    """The command of our side: the given one, or a program of the gate, run by the toolchain's loader."""
    if given:
        words = shlex.split(given)
        program(words[0], "an option or LEF_OURS names it")
        return words
    emulator, loader = by_the_toolchain()
    return emulator + loader + [made(name)]
