"""The toolchain's own `rt`, as a module, and crates that are proved over what `rt ci` left:
`bench/gate`, `bench/program` and `bindings/library` use it."""

import importlib.machinery
import importlib.util
import os
import shutil
import sys


def load():
    """The module `rt` of the toolchain on the PATH, and the toolchain's folder."""
    kit = os.path.dirname(os.path.dirname(os.path.realpath(shutil.which("rt"))))
    loader = importlib.machinery.SourceFileLoader("rt", f"{kit}/bin/rt")
    module = importlib.util.module_from_spec(importlib.util.spec_from_loader("rt", loader))
    loader.exec_module(module)
    return module, kit


def crates_of(module, top):
    """The crates of the repository at `top`, as the gate proves them."""
    module.rtlib.Crate = module.Crate
    return module.rtlib.crates_below(top)


def newest(folder):
    """The time of the newest change of a crate's own files."""
    paths = [f"{at}/{name}" for part in ("src", "specs", "proofs")
             for at, folders, files in os.walk(f"{folder}/{part}") for name in [".", *files]]
    return max([os.stat(path).st_mtime for path in paths], default=0)


def stands(crate):
    """Whether the gate made a library of the crate's files as they are. The folder tells when it
    did: the files in it may be older, if an earlier run proved the same."""
    made = f"{crate.folder}/out/rlib/{crate.name}.rlib"
    is_whole = os.path.isfile(f"{made}/format")
    return is_whole and os.stat(made).st_mtime > newest(crate.folder)


def build_over_gate(top, name, out):
    """Proves and compiles a crate of the repository at `top` over what the gate left there, as the
    gate proves it. Says whether the libraries stand and it is proved."""
    module, folder = load()
    os.chdir(top)
    module.Crate.cuts_libraries = True
    module.rtlib.guarded()
    module.Crate.allowed = module.handles_of(top)
    crate = next(it for it in crates_of(module, top) if it.name == name)
    if not all(stands(it) for it in crate.below()):
        return False
    print(f"{name}: over the libraries that rt ci proved here", file=sys.stderr)
    crate.out = sys.stderr
    os.makedirs(os.path.dirname(f"{crate.folder}/{out}"), exist_ok=True)
    words = crate.words(["--jobs", str(min(4, module.processors()))], keeps=False)
    made = f"{out}.o" if crate.is_program else out
    compiled = ["--toolchain", f"{folder}/toolchain", "--backend", "llvm", "-o", made]
    status = crate.prove(["build", *words, *compiled])
    if not status and crate.is_program:
        status = crate.link(made, out)
    return status == 0
