"""What the tools need of the original (lef21 0.2.0) and of this machine. What is missing is said in one line, before anything slow begins,
and the tool ends with 2."""
import contextlib, os, shutil, subprocess, sys

here = os.path.dirname(os.path.abspath(__file__))
root = os.path.join(here, "../..")
BUILD = os.path.join(here, "build")
SHARED = os.path.join(root, "../shared/docs/src/src")
FILES = ["lib.rs", "read.rs", "write.rs"]
PUBLISHED = "the folder src/ of lef21 0.2.0 as published (crates.io, the crate lef21, version 0.2.0), with lib.rs, read.rs and write.rs"
TOOLS = {"rt": "the Rattle toolchain proves and compiles the library", "cc": "a C compiler, of Debian's package gcc, links the programs"}


def missing(line):
    name = os.path.relpath(os.path.abspath(sys.argv[0]), root)
    print("%s: %s" % (name, line), file=sys.stderr)
    sys.exit(2)


@contextlib.contextmanager
def plainly():
    """A file or program that cannot be had, or a program that fails, ends the tool with a line."""
    try:
        yield
    except subprocess.CalledProcessError as e:
        sys.exit("%s: ended with %d" % (" ".join(e.cmd), e.returncode))
    except OSError as e:
        if e.filename is None:
            raise
        missing("%s: %s" % (e.filename, e.strerror))


def file(path, how):
    if not os.path.exists(path):
        missing("%s: not found; %s" % (path, how))
    return path


def program(name, how):
    if not shutil.which(name):
        missing("%s: no such program; %s" % (name, how))
    return name


def tools(*names):
    for name in names:
        if not shutil.which(name):
            missing("%s: not found; %s" % (name, TOOLS[name]))


def sources(given):
    """The folder of the original's sources: the given one, or the shared one where that is there."""
    lacking = lambda folder: [f for f in FILES if not os.path.isfile(os.path.join(folder, f))]
    if given and lacking(given):
        missing("%s has no %s; --sources FOLDER is %s" % (given, ", no ".join(lacking(given)), PUBLISHED))
    if not given and lacking(SHARED):
        missing("the sources of the original are missing; give them by --sources FOLDER: %s" % PUBLISHED)
    return given or SHARED


def options(p):
    by_itself = "shared/docs/src/src beside the repository where it is there"
    p.add_argument("--sources", metavar="FOLDER", help="lib.rs, read.rs and write.rs of lef21 0.2.0; if left out, " + by_itself)
    p.add_argument("--oracle", metavar="PROGRAM", help="the program that tools/lef21/build made; built anew if left out")


def look(args, reads=False, target=(), env=None):
    """Ends if the original can neither be used nor built. `reads` is whether the tool reads the sources itself."""
    if reads or not args.oracle:
        args.sources = sources(args.sources)
    if args.oracle:
        program(args.oracle, "tools/lef21/build makes it")
    elif subprocess.run(["sh", BUILD, "--look", *target], env=env).returncode:
        sys.exit(2)  # `build` said why


def built(args, folder, target=(), env=None):
    """The program of the original: the given one, or the one that is built into a folder."""
    if args.oracle:
        return args.oracle
    return subprocess.run(["sh", BUILD, args.sources, folder, *target], stdout=subprocess.PIPE, text=True, check=True, env=env).stdout.strip()
