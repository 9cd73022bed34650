"""The installed Rattle, for tools/build and tools/wrong-programs: the crates as `rt` reads them, and the prover with the words that `rt` gives it."""
import hashlib
import importlib.machinery
import importlib.util
import os
import shutil
import subprocess
import sys
from pathlib import Path

ROOT = Path(__file__).resolve().parent.parent


def load():
    """The module that `rt` itself runs by, which lies beside it."""
    rt = shutil.which("rt")
    if rt is None:
        sys.exit("the Rattle toolchain is missing: put its folder with `rt` on PATH")
    loader = importlib.machinery.SourceFileLoader("rtlib", str(Path(os.path.realpath(rt)).with_name("rtlib.py")))
    made = importlib.util.module_from_spec(importlib.util.spec_from_loader("rtlib", loader))
    sys.modules["rtlib"] = made
    was, sys.dont_write_bytecode = sys.dont_write_bytecode, True
    loader.exec_module(made)
    sys.dont_write_bytecode = was
    # Its first call sets a signal's handler, which only the main thread may.
    made.guarded()
    return made


rtlib = load()


def crates():
    """The repository's crates by name."""
    return {it.name: it for it in rtlib.crates_below(str(ROOT))}


def version():
    return (Path(rtlib.KIT) / "KIT-ID").read_text().strip()


def own_sum(crate):
    """A sum of the crate's line in crates.txt and of its files that a check reads."""
    made = hashlib.sha256(repr((crate.name, sorted(map(repr, crate.said.items())))).encode())
    for file in rtlib.files_of(crate.folder):
        made.update(repr((os.path.relpath(file, crate.folder), Path(file).read_bytes())).encode())
    return made.hexdigest()


def stands_on(crate):
    """A sum of the toolchain, the crate and all libraries below it."""
    kit = version(), (Path(rtlib.KIT) / "WHAT").read_text()
    return hashlib.sha256(repr((kit, [(it.name, own_sum(it)) for it in [crate, *crate.below()]])).encode()).hexdigest()


def lacking(crate, by_ci):
    """The libraries below the crate that have to be built before it is checked. `rt ci` leaves those that it built, of the files as they stand, and no mark of
    what they were built from; by_ci says that it has just passed in a checkout that had none before."""
    return [it for it in crate.below() if not (os.path.isdir(it.rlib) if by_ci else it.is_built())]


def build_below(crate):
    """Has `rt` build the libraries below the crate, and returns its status."""
    ran = subprocess.run(["rt", "check", "--only", ""], cwd=crate.folder, stdin=subprocess.DEVNULL, stdout=subprocess.PIPE, stderr=subprocess.STDOUT, text=True)
    if lacking(crate, by_ci=False):
        print(ran.stdout, end="", file=sys.stderr)
        return ran.returncode or 1
    return 0
