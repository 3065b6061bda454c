"""The cases of crates/benchmark that scripts/bench measures of the library and of the Rust crate postgres-types: conversions, rows,
parameters and types."""
import os
import shutil
from concurrent.futures import ThreadPoolExecutor
from statistics import median

import real_crate
from measuring import TOP, Program, Work, compare, instructions_of, least_times, said_of, shown, table, times_of

CRATE = f"{TOP}/crates/benchmark"
# Conversions that are read and written, and how many items a turn of theirs has: values, entries, elements, or bytes.
CONVERSIONS = {
    **dict.fromkeys(["bool", "char", "int2", "int4", "int8", "oid", "pg_lsn", "int4?", "float8"], 1_000),
    **dict.fromkeys(["text", "text-borrowed", "ltree", "bytea", "bytea-borrowed", "varbit"], 1_000),
    **dict.fromkeys(["addr", "macaddr", "uuid"], 1_000),
    **dict.fromkeys(["date", "date_inf", "time", "timestamp", "timestamptz", "unix", "unix_inf"], 1_000),
    "hstore-5": 5,
    "hstore-1000": 1_000,
    "jsonb-1kB": 1_000,
    "jsonb-100kB": 100_000,
    "jsonb-10MB": 10_000_000,
    "item": 1_000,
    "int4[]-10": 10,
    "int4[]-1000": 1_000,
    "int4[]-100000": 100_000,
    "int4[]-1000000": 1_000_000,
    "text[]-1000": 1_000,
    "int4[][]-1000x100": 100_000,
    "int4-array-10": 10,
}
# The other cases: columns, parameters, cells, copies, comparisons, or OIDs.
OTHERS = {
    "row-8": 8,
    "values-8": 8,
    "params-8": 8,
    "rewrite-int4": 1_000,
    "rewrite-text": 1_000,
    "type-clone": 1,
    "type-clone-user": 1,
    "type-eq": 8,
    "type-from_oid": 1,
}
CASES = {**{f"{way}-{name}": items for name, items in CONVERSIONS.items() for way in ("read", "write")}, **OTHERS}
HEAD = ["case", "ns an item", "crate, all cases", "crate, alone", "ratio",
        "instructions an item", "crate, all cases", "crate, alone", "ratio"]
# Whose checksum is not that of the crate, since it has more built-in types.
OF_MORE_TYPES = "type-from_oid"
# How many items are measured in a run, in TURNS turns at least, and how many are counted by valgrind, in one turn at least.
ITEMS = 5_000_000
TURNS = 5
COUNTED = 20_000
# The greatest ratio that counts as no more than the crate takes.
LOW = 1.1


def work_of(case, turns):
    return Work((case, str(turns)))


def library(given):
    """Returns the library's program, which is proved and built first where it is not given."""
    if not given:
        said_of(["rt", "run", "--jobs", str(os.cpu_count()), "--", "read-int4", "1"], CRATE)
    return Program(given or f"{CRATE}/out/benchmark")


def built(given, folder):
    """Returns the library's program, and that of all cases over the crate."""
    print(f"The Rust crate: {real_crate.require()}", flush=True)
    return [library(given), real_crate.built(folder, {"all": real_crate.main_of("cases")})["all"]]


def alone(cases, folder):
    """Returns by the case the crate's program of that case alone."""
    names = {f"case_{list(CASES).index(case)}": case for case in cases}
    programs = real_crate.built(folder, {name: real_crate.main_of("cases", case) for name, case in names.items()})
    return {case: programs[name] for name, case in names.items()}


def compare_sums(case, printed):
    if case != OF_MORE_TYPES:
        compare(case, printed)


def times_of_case(programs, case):
    """Returns the time of a turn by each program."""
    turns = max(TURNS, ITEMS // CASES[case])
    times, printed = times_of(programs, work_of(case, 1), work_of(case, 1 + turns), turns)
    compare_sums(case, printed)
    return times


def counts_of_case(programs, case):
    """Returns the instructions of a turn by each program, or nothing where valgrind is not there."""
    turns = max(1, COUNTED // CASES[case])
    if not shutil.which("valgrind"):
        return []
    return [instructions_of(it, work_of(case, 1), work_of(case, 1 + turns), turns) for it in programs]


def numbers_of(programs, case, passes):
    """Returns times and instructions of an item; there are no times where there are no passes."""
    times = least_times([times_of_case(programs, case) for _ in range(passes)]) if passes else []
    return [[it / CASES[case] for it in turn] for turn in (times, counts_of_case(programs, case))]


def cells_of(numbers):
    """The cells of a row: three numbers, and the ratio of the first to the lesser of the others."""
    if not numbers:
        return ["-"] * 4
    ours, *others = numbers
    return [*(shown(it, 1) for it in numbers), f"{ours / min(others):.2f}"]


def summary(name, ratios):
    """The ratios in a sentence."""
    below, low = sum(it < 1 for it in ratios), sum(it <= LOW for it in ratios)
    return f"{name}: of {len(ratios)} cases {below} below 1, {low} at most {LOW}, median {median(ratios):.2f}"


def show_table(programs, cases, folder, passes):
    single = alone(cases, folder)
    trios = [(*programs, single[case]) for case in cases]
    found = []

    def rows():
        # What only is counted is counted at once.
        with ThreadPoolExecutor(1 if passes else os.cpu_count()) as pool:
            for case, numbers in zip(cases, pool.map(numbers_of, trios, cases, [passes] * len(cases))):
                found.append(numbers)
                yield f"| {' | '.join([case, *(cell for it in numbers for cell in cells_of(it))])} |"

    table(HEAD, rows())
    for name, kind in (("time", 0), ("instructions", 1)):
        of_kind = [it[kind] for it in found if it[kind]]
        if of_kind:
            print(summary(f"{name}, by the crate's one program", [ours / one for ours, one, _ in of_kind]))
            print(summary(f"{name}, by the better of its two", [ours / min(others) for ours, *others in of_kind]))


def smoke(programs, cases):
    """Does each case once by each program."""
    for case in cases:
        compare_sums(case, [program.run(work_of(case, 3))[1] for program in programs])
    print(f"bench: {len(cases)} cases have the checksums of the crate postgres-types, but for {OF_MORE_TYPES}")
