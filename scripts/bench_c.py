"""The cells that scripts/bench reads and writes by the library for C and by the Rust crate itself, in one process."""
import os
from dataclasses import replace

import real_crate
from measuring import TOP, Work, compare, instructions_of, said_of, shown, table, times_of

CRATE = f"{TOP}/crates/pg_cells_c"
HEAD = ["case", "ns an item for C", "crate", "ratio", "instructions an item for C", "crate", "ratio"]
# How many items are measured in a run, and how many are counted by valgrind.
ITEMS = 10_000_000
COUNTED = 20_000
# Cases are not named; each one is shown.
CASES = {}


def built(given, folder):
    """Returns the program, as it does the cases by the library for C and by the crate. The library is proved and built first."""
    print(f"The Rust crate: {real_crate.require()}", flush=True)
    if not given:
        said_of(["rt", "lib", "--jobs", "1"], CRATE)
    place = os.path.dirname(given or f"{CRATE}/out/libpg_cells_c.a")
    mains = {"c_cells": real_crate.main_of("c_cells", below=["cases"])}
    program = real_crate.built(folder, mains, f"-L native={place}")["c_cells"]
    return [replace(program, words=(side,)) for side in ("c", "crate")]


def cases_of(program):
    """Returns how many items a turn of each case has."""
    lines = said_of([program.path, "cases"]).splitlines()
    return {name: int(items) for items, _, name in (line.partition(" ") for line in lines)}


def works(case, turns):
    """The work of one turn, and of so many more."""
    return Work((case, "1")), Work((case, str(1 + turns)))


def cells_of(numbers, digits):
    ours, crates = numbers
    return [*(shown(it, digits) for it in numbers), f"{ours / crates:.2f}"]


def row_of(programs, case, items, passes):
    """Returns the row of a case; there are no times where there are no passes."""
    cells, turns = [case], ITEMS // items
    found = [times_of(programs, *works(case, turns), turns)[0] for _ in range(passes)]
    cells += cells_of([min(each) / items for each in zip(*found)], 2) if found else ["-"] * 3
    turns = COUNTED // items
    cells += cells_of([instructions_of(it, *works(case, turns), turns) / items for it in programs], 1)
    return f"| {' | '.join(cells)} |"


def show_table(programs, _cases, _folder, passes):
    table(HEAD, (row_of(programs, case, items, passes) for case, items in cases_of(programs[0]).items()))


def smoke(programs, _cases):
    """Does each case once by each side."""
    cases = cases_of(programs[0])
    for case in cases:
        compare(case, [program.run(works(case, 2)[1])[1] for program in programs])
    print(f"bench: {len(cases)} cases have the same checksums for C and by the crate")
