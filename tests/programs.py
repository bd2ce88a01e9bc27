"""The programs of this repository, built if they aren't, and cases that are run and counted."""

import concurrent.futures
import functools
import os
import re
import shutil
import signal
import subprocess
import sys
from pathlib import Path

sys.dont_write_bytecode = True

TOP = os.path.dirname(os.path.dirname(os.path.abspath(__file__)))

# A run that takes longer has failed.
SECONDS = 60

# A folder of programs that are run in place of the built ones. Only tests of the scripts set it.
INSTEAD = os.environ.get("PROGRAMS")


def folder_of(crate):
    return os.path.join(TOP, "crates", crate)


def text_of(path):
    """The text of a file. A path that isn't absolute begins at the top of the repository."""
    return Path(TOP, path).read_text(encoding="utf-8")


def write(path, text, mode=None):
    """Writes a file, in a folder that is made if there is none."""
    path = Path(TOP, path)
    path.parent.mkdir(parents=True, exist_ok=True)
    path.write_text(text, encoding="utf-8")
    if mode is not None:
        path.chmod(mode)


def with_dependencies(crate):
    """The crate and those of the repository that it needs."""
    lists = {}
    for line in text_of("crates.txt").splitlines():
        name, _, rest = line.partition("#")[0].partition(":")
        if name.strip():
            lists[name.split()[0]] = rest.split()
    found = []

    def add(name):
        if name in lists and name not in found:
            for below in lists[name]:
                add(below)
            found.append(name)

    add(crate)
    return found


@functools.cache
def found(name):
    """The path of what dist/find finds or builds of this code: in the folder out, else in dist, else built anew."""
    done = subprocess.run([os.path.join(TOP, "dist", "find"), name], stdin=subprocess.DEVNULL, stdout=subprocess.PIPE, text=True)
    if done.returncode != 0:
        sys.exit(f"there is no {name} of this code")
    return done.stdout.strip()


def program(name):
    """The path of a program: of one in dist/kept, or of a crate."""
    return os.path.join(INSTEAD, name) if INSTEAD else found(name)


def library():
    """The path of the C library."""
    return found("libpp_c.a")


def names_shown():
    """The source that docs/GUIDE.md shows, and what it says that its programs print of that."""
    found = re.search(r"^```sh\nprintf '([^']*)' \| names\n((?:# .*\n)+)```$", text_of("docs/GUIDE.md"), re.M)
    return found[1].replace("\\n", "\n"), found[2].replace("# ", "")


def folder_with(library, folder):
    """A folder for PP_LIB_DIR, below another, in which this library is."""
    os.makedirs(f"{folder}/library")
    shutil.copy2(library, f"{folder}/library/libpp_c.a")
    return f"{folder}/library"


def shared_library(folder):
    """A folder for PP_LIB_DIR, below another, in which ./install put libpp.so.1."""
    command([os.path.join(TOP, "install"), "--shared", f"{folder}/installed"])
    return f"{folder}/installed/lib"


def command(words, **given):
    """Runs a command that has to end well."""
    done = subprocess.run(words, stdout=subprocess.PIPE, stderr=subprocess.STDOUT, text=True, **given)
    if done.returncode != 0:
        sys.exit(f"{' '.join(words)}\n{done.stdout[-2000:]}")


def compile_c(words):
    """Compiles C with these words, by cc or else by the kit's clang."""
    kit = os.path.dirname(os.path.dirname(os.path.realpath(shutil.which("rt") or "/")))
    clang = [os.path.join(kit, "toolchain", "bin", "clang"), "-fuse-ld=lld"]
    for compiler in (["cc"], clang):
        if shutil.which(compiler[0]) and subprocess.run([*compiler, *words], capture_output=True).returncode == 0:
            return
    sys.exit(f"neither cc nor the kit's clang compiles {words[-1]}")


def linked(path, to):
    """Gives a file a second name, or copies it to another file system."""
    try:
        os.link(path, to)
    except OSError:
        shutil.copy2(path, to)


def copy_folder(name, crate, top, copy=shutil.copy2):
    """Copies a folder of a crate, if there is one."""
    path = os.path.join(folder_of(crate), name)
    if os.path.isdir(path):
        shutil.copytree(path, os.path.join(top, "crates", crate, name), copy_function=copy)


def copy_sources(crate, top):
    """Copies the sources of a crate, and of those that it needs, to another top, so that a check there edits no file
    of the repository."""
    names = with_dependencies(crate)
    for name in names:
        for folder in ("src", "specs", "proofs"):
            copy_folder(folder, name, top)
    lines = text_of("crates.txt").splitlines(keepends=True)
    own = [line for line in lines if line.partition("#")[0].partition(":")[0].split()[:1] in [[it] for it in names]]
    write(f"{top}/crates.txt", "".join(own))


def copy_kept_work(crate, top):
    """Copies what earlier checks kept of a crate. The libraries below it are links: rt removes them before it writes anew."""
    copy_folder("out/incremental", crate, top)
    for name in with_dependencies(crate)[:-1]:
        copy_folder("out/rlib", name, top, linked)


def stamps(folder):
    """The size and the time of each file below a folder."""
    found = {}
    for at, _, names in os.walk(folder):
        for name in names:
            path = os.path.join(at, name)
            stat = os.stat(path)
            found[os.path.relpath(path, folder)] = stat.st_size, stat.st_mtime_ns
    return found


def restore_kept_work(crate, top):
    """Makes what a copy keeps of a crate equal to what the crate keeps, after a check of an edit."""
    kept, copy = os.path.join(folder_of(crate), "out", "incremental"), os.path.join(top, "crates", crate, "out", "incremental")
    wanted, found = stamps(kept), stamps(copy)
    for path in found.keys() - wanted.keys():
        os.remove(os.path.join(copy, path))
    for path, stamp in wanted.items():
        if found.get(path) != stamp:
            os.makedirs(os.path.dirname(os.path.join(copy, path)), exist_ok=True)
            shutil.copy2(os.path.join(kept, path), os.path.join(copy, path))


def end_on_signals():
    """Lets a signal end the script as an exit does, so that its folders are removed, and what it started ends."""
    for number in (signal.SIGTERM, signal.SIGHUP, signal.SIGINT):
        signal.signal(number, lambda number, _: sys.exit(128 + number))


class Ended:
    """How a run ended: what it printed, as lines, and its status, which is None if it took too long."""

    def __init__(self, status, printed, said):
        self.status, self.printed, self.said = status, printed, said

    @property
    def lines(self):
        return self.printed.decode(errors="replace").split("\n")[:-1]


def run(path, words, source, seconds=SECONDS, environment=None):
    """Runs the program on a source, which is text or bytes."""
    given = source.encode() if isinstance(source, str) else source
    try:
        done = subprocess.run(
            [path, *words], input=given, capture_output=True, timeout=seconds, env=environment or {}, close_fds=False
        )
    except subprocess.TimeoutExpired:
        return Ended(None, b"", b"")
    return Ended(done.returncode, done.stdout, done.stderr)


class Count:
    """Cases that passed and that failed. Each that failed has a line."""

    def __init__(self):
        self.passed = self.failed = 0

    def add(self, name, fault):
        """Counts a case, which failed if there is a fault."""
        if fault:
            self.failed += 1
            print(f"FAILED: {name}: {fault}", flush=True)
        else:
            self.passed += 1

    def hold(self, name, found, wanted):
        """Counts a case, which failed if what was found isn't what was wanted."""
        self.add(name, None if found == wanted else f"found {found!r:.600}, wanted {wanted!r:.600}")

    def end(self):
        """Prints the last line, and ends with status 0 if none failed."""
        print(f"{self.passed} passed, {self.failed} failed")
        sys.exit(1 if self.failed or not self.passed else 0)


def side_by_side(job, cases, most=0):
    """What the job returns for each case, in their order, a processor each, or this many at a time. A signal begins no more."""
    pool = concurrent.futures.ThreadPoolExecutor(most or os.cpu_count() or 1)
    try:
        yield from pool.map(job, cases)
    finally:
        pool.shutdown(cancel_futures=True)
