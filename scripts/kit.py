"""The kit's own module of crates, for what no command of rt gives: marks of what is built, and libraries built in one step.

What needs this module falls back on rt's commands where a kit has it otherwise.
"""
import functools
import hashlib
import importlib.machinery
import importlib.util
import os
import shutil
import sys

sys.dont_write_bytecode = True


def load(name):
    """Returns a module that lies beside rt, or is rt itself."""
    path = f"{os.path.dirname(os.path.realpath(shutil.which('rt')))}/{name}"
    loader = importlib.machinery.SourceFileLoader(name.removesuffix(".py"), path)
    made = importlib.util.module_from_spec(importlib.util.spec_from_loader(loader.name, loader))
    sys.modules[loader.name] = made
    loader.exec_module(made)
    return made


def load_kit():
    """Returns the module in which rt has its crates."""
    return load("rtlib.py")


def load_rt():
    """Returns the module in which rt has its gate; its crates' module is in `rtlib`."""
    return load("rt")


def crates_in(kit, folder):
    """Returns the crates of a copy of the repository, by name."""
    return {it.name: it for it in kit.crates_below(os.path.abspath(folder))}


def crates_now(folder):
    """Returns the same, to compare with marks: the files of each, as they stand now, are read once."""
    crates = crates_in(load_kit(), folder)
    for it in crates.values():
        it.stamp = functools.cache(it.stamp)
    return crates


def sum_of(path):
    with open(path, "rb") as it:
        return hashlib.sha256(it.read()).hexdigest()


def stamp_of(crate):
    """Returns the file by which rt marks a crate's library as built."""
    return f"{os.path.dirname(crate.rlib)}/stamp"


def mark(crate):
    """Marks a crate's library as built of the files that stand there, so that commands of rt take it."""
    with open(stamp_of(crate), "w", encoding="utf-8") as it:
        it.write(crate.stamp())


def usable_in(crates):
    """Returns those of the crates, lowest first, whose libraries were built of the files that stand there, and after those below."""
    usable = set()
    for name, it in crates.items():
        if it.makes_rlib() and usable.issuperset(below.name for below in it.deps) and it.is_built():
            built = os.path.getmtime(stamp_of(it))
            if all(os.path.getmtime(stamp_of(below)) <= built for below in it.deps):
                usable.add(name)
    return usable


def unmark_unusable(folder):
    """Takes the marks from the other libraries, so that rt builds them again: it refuses one over another library than it was built over."""
    crates = crates_now(folder)
    for name in crates.keys() - usable_in(crates):
        if os.path.isfile(stamp_of(crates[name])):
            os.remove(stamp_of(crates[name]))


def is_made(crate, path):
    """Returns whether a program, or a static library, was built of the files that stand there, by a mark as rt gives programs."""
    if not os.path.isfile(path) or not os.path.isfile(f"{path}.stamp"):
        return False
    with open(f"{path}.stamp", encoding="utf-8") as it:
        return it.read() == crate.stamp() + sum_of(path)


def mark_made(crate, path):
    """Marks a static library, which rt does not, in the same way."""
    with open(f"{path}.stamp", "w", encoding="utf-8") as it:
        it.write(crate.stamp() + sum_of(path))
