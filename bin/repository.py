"""A repository of crates: what each stands on, rooms in which one crate is checked apart, and proofs side by side."""

import contextlib
import fcntl
import os
import pathlib
import shutil
import subprocess
import sys
import tempfile
import threading
import time
from concurrent.futures import ThreadPoolExecutor

PARTS = ("src", "specs", "proofs")
# The folder of the toolchain.
KIT = os.path.dirname(os.path.dirname(os.path.realpath(shutil.which("rt") or "rt")))
# What one check takes at most, in bytes, as seen so far.
MEMORY_OF_A_CHECK = 4_000_000_000


def link(source, target):
    """Makes the file `target` the same file as `source`, or a copy if the two cannot be one."""
    try:
        os.link(source, target)
    except OSError:
        shutil.copy2(source, target)


class Repository:
    """The crates that a folder's crates.txt lists."""

    def __init__(self, root):
        self.root = os.path.abspath(root)
        self.lines, self.deps = {}, {}
        with open(f"{self.root}/crates.txt", encoding="utf-8") as file:
            for line in file:
                head, _, deps = line.split("#")[0].partition(":")
                if head.split():
                    self.lines[head.split()[0]], self.deps[head.split()[0]] = f"{line.strip()}\n", deps.split()

    def folder(self, name):
        return f"{self.root}/crates/{name}"

    def below(self, name):
        """The crates of the repository that this one stands on, lowest first."""
        own = [it for it in self.deps[name] if it in self.deps]
        return [*dict.fromkeys(it for dep in own for it in [*self.below(dep), dep])]

    def changed(self, commit):
        """The crates that differ from a commit, and those above them, lowest first."""
        commands = (["diff", "--name-only", commit, "--", "crates"], ["ls-files", "-o", "--exclude-standard", "crates"])
        said = "".join(subprocess.check_output(["git", "-C", self.root, *it], text=True) for it in commands)
        own = {it.split("/")[1] for it in said.split("\n") if it}
        return [it for it in self.deps if own.intersection([it, *self.below(it)])]

    @contextlib.contextmanager
    def room(self, name, below=None):
        """The folder of a copy of the crate, in a repository that has only what the crate stands on, or only these."""
        with tempfile.TemporaryDirectory(prefix="room-") as place:
            below = self.below(name) if below is None else below
            with open(f"{place}/crates.txt", "w", encoding="utf-8") as file:
                file.writelines(self.lines[it] for it in [*below, name])
            shutil.copy2(f"{self.root}/HANDLES", place)
            for it, parts, copy in *((it, (*PARTS, "out/rlib"), link) for it in below), (name, PARTS, shutil.copy2):
                for part in parts:
                    if os.path.isdir(f"{self.folder(it)}/{part}"):
                        shutil.copytree(f"{self.folder(it)}/{part}", f"{place}/crates/{it}/{part}", copy_function=copy)
            yield f"{place}/crates/{name}"

    def check(self, name, folder, kept, *words, verb="check"):
        """Has the prover check sources of the crate in a folder, or build them, over what `kept` holds, which it adds to, and
        returns what it said. What the crate stands on must be built."""
        library = lambda it: f"{self.folder(it)}/out/rlib" if it in self.deps else f"{KIT}/rlibs"
        given = [f"{it}={library(it)}/{it}.rlib" for it in ["std", *self.deps[name]]]
        places = [f"{KIT}/rlibs", *map(library, self.below(name))]
        root = "main" if os.path.isfile(f"{folder}/src/main.rt") else "lib"
        return output(
            folder,
            [f"{KIT}/bin/rattle", verb, "--crate-name", name, f"src/{root}.rt"]
            + [word for it in given for word in ("--extern", it)]
            + [word for it in places for word in ("-L", f"dependency={it}")]
            + ["--antt-project", f"{KIT}/rattle/logic/antt-project.json", "--logic-built", f"{KIT}/logic_built"]
            + ["--links", f"{name}=", "--incremental", kept, *["--crate-type", "staticlib"] * ("staticlib:" in self.lines[name]), *words],
        )[1]

    def prove(self, name):
        """Proves the crate over what earlier checks of it kept, next to any other crate's proof, and returns the status
        and what the proof said. A library is built too. What it stands on must be built."""
        kept = f"{self.folder(name)}/out"
        held = os.open(self.folder(name), os.O_RDONLY)
        try:
            fcntl.flock(held, fcntl.LOCK_EX)
            with self.room(name) as room:
                if os.path.isdir(kept):
                    shutil.copytree(kept, f"{room}/out")
                answer = output(room, ["rt", "check" if os.path.isfile(f"{room}/src/main.rt") else "lib"])
                shutil.rmtree(kept, ignore_errors=True)
                shutil.move(f"{room}/out", kept)
                return answer
        finally:
            os.close(held)


def output(folder, words):
    """Runs a command in a folder, and returns its status and what it printed."""
    streams = {"stdin": subprocess.DEVNULL, "stdout": subprocess.PIPE, "stderr": subprocess.STDOUT}
    ran = subprocess.run(words, cwd=folder, encoding="utf-8", errors="replace", **streams)
    return ran.returncode, ran.stdout


def lanes():
    """How many checks run at once: as many as RT_JOBS says, or one for each processor, if memory allows."""
    with open("/proc/meminfo", encoding="utf-8") as file:
        free = next(1024 * int(it.split()[1]) for it in file if it.startswith("MemAvailable:"))
    most = min(len(os.sched_getaffinity(0)), free // MEMORY_OF_A_CHECK)
    return max(1, int(os.environ.get("RT_JOBS") or most))


def proofs(repository, names):
    """Proves these crates and what they stand on, each once those below it are, as many at once as there are lanes. Returns
    whether each is proved, and says so on standard error, with the time that this took."""
    proved, lane = {}, threading.BoundedSemaphore(lanes())

    def prove(name):
        if not all(proved[it].result() for it in repository.below(name)):
            return False
        with lane:
            begun = time.monotonic()
            status, said = repository.prove(name)
        words = f"NOT PROVED\n{said}" if status else f"proved, {(time.monotonic() - begun) / 60:.1f} min"
        print(f"{name}: {words}", file=sys.stderr, flush=True)
        return not status

    names = [*dict.fromkeys(below for it in names for below in [*repository.below(it), it])]
    with ThreadPoolExecutor(max(1, len(names))) as pool:
        for name in names:
            proved[name] = pool.submit(prove, name)
    return {name: it.result() for name, it in proved.items()}
