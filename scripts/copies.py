"""Copies of the repository in which crates are proved, so that no command of rt in the repository waits for another."""
import os
import shutil


def read_crates(top="."):
    """Returns the crates of crates.txt, of each those of the repository that its line names."""
    with open(f"{top}/crates.txt", encoding="utf-8") as it:
        lines = [line.partition("#")[0].partition(":") for line in it]
    named = {name.split()[0]: below.split() for name, _, below in lines if name.strip()}
    return {name: [it for it in below if it in named] for name, below in named.items()}


def lines_of(names, top="."):
    """Returns the lines of crates.txt of these crates."""
    with open(f"{top}/crates.txt", encoding="utf-8") as it:
        return "".join(line for line in it if line.partition(":")[0].split()[:1] in [[name] for name in names])


def with_below(crate, crates):
    """Returns the crate after those that it stands on, lowest first."""
    order = []
    for it in crates[crate]:
        order += [each for each in with_below(it, crates) if each not in order]
    return [*order, crate]


def is_program(crate, top="."):
    return os.path.isfile(f"{top}/crates/{crate}/src/main.rt")


def link_tree(source, to, ending=""):
    """Copies what rt made, by links where they can be made: rt replaces a library's files, and changes none, and of what a
    check keeps those that end in .oantt."""
    def copy(one, other):
        try:
            if one.endswith(ending):
                return os.link(one, other)
        except OSError:
            pass
        return shutil.copy2(one, other)
    shutil.rmtree(to, ignore_errors=True)
    shutil.copytree(source, to, copy_function=copy)


def copy_crates(names, top, to):
    """Copies these crates, lowest first, with the libraries that were built of all but the last."""
    os.makedirs(f"{to}/crates")
    shutil.copy2(f"{top}/HANDLES", f"{to}/HANDLES")
    with open(f"{to}/crates.txt", "w", encoding="utf-8") as it:
        it.write(lines_of(names, top))
    for name in names:
        shutil.copytree(f"{top}/crates/{name}", f"{to}/crates/{name}", ignore=shutil.ignore_patterns("out"))
    for name in names[:-1]:
        if os.path.isdir(f"{top}/crates/{name}/out/rlib"):
            link_tree(f"{top}/crates/{name}/out/rlib", f"{to}/crates/{name}/out/rlib")
