"""The library that is measured: the archive, proved and built for this machine's processor, and a C program with it."""
import os, platform, subprocess, sys

root = os.path.join(os.path.dirname(os.path.abspath(__file__)), "..")


def step(what):
    print("bench/%s: %s" % (os.path.basename(sys.argv[0]), what), file=sys.stderr, flush=True)


def archive(scratch):
    step("proves the library and builds it, which takes long where it is not yet proved")
    if platform.machine() != "x86_64":
        out = os.path.join(scratch, "liblef.a")
        subprocess.run(["sh", os.path.join(root, "tools/native"), "lef", out], check=True)
        return out
    done = subprocess.run(["rt", "lib"], cwd=os.path.join(root, "crates/lef_c"), stdout=subprocess.PIPE, stderr=subprocess.STDOUT, text=True, errors="replace")
    if done.returncode:
        sys.exit("%srt lib in crates/lef_c: ended with %d" % ("".join(line + "\n" for line in done.stdout.splitlines()[-20:]), done.returncode))
    return os.path.join(root, "crates/lef_c/out/liblef_c.a")


def program(source, archive, scratch):
    """The program of a C file of bench/ with the archive."""
    out = os.path.join(scratch, source[:-2])
    subprocess.run(["cc", "-std=c99", "-O2", "-I" + os.path.join(root, "include"), os.path.join(root, "bench", source), archive, "-o", out], check=True)
    return out


def figures(command):
    """What a program prints: lines of a name and a number."""
    out = subprocess.run(command, stdout=subprocess.PIPE, text=True, check=True).stdout
    return {k: float(v) for k, v in (line.split() for line in out.splitlines())}
