"""The lines of pgcell that scripts/bench measures: cells of each base name that the Rust crate has."""
import re

import real_crate
from formats import FORMATS, array
from measuring import TOP, Program, Work, compare, least_times, said_of, table, times_of

# How many lines are measured in a run.
LINES = 200_000
HEAD = ["name", "ns a line", "crate", "ratio"]


def crate_names():
    """The base names of the table in bench/lines.rs: the crate has no INTERVAL, and no package an inet with a netmask or a cidr."""
    with open(f"{TOP}/bench/lines.rs", encoding="utf-8") as it:
        table = re.search(r"^base_names! \{\n(.*?)^\}", it.read(), flags=re.M | re.S)[1]
    return re.findall(r'^    "(\w+)": ', table, flags=re.M)


NAMES = crate_names()
# What the crate writes otherwise: entries in no order, and 1 as the lower bound of a vector.
OTHERWISE = ("hstore", "int2vector", "oidvector")


def numbers(count):
    """The cells of so many numbers, far from one another."""
    return [(place * 0x12345678 % 2**32).to_bytes(4, "big") for place in range(count)]


TEXTS = [b"some text", b"another text", b"", "café".encode(), b"a text of thirty bytes or more", None]
# Cells that are more usual than those of formats.py, which has infinities and texts of characters of each length. What
# stands after `-` in a name of the table says what the cell holds.
CELLS = {
    **{name: FORMATS[name].cell for name in NAMES if name != "text" and name not in OTHERWISE},
    "date_inf": FORMATS["date"].cell,
    "timestamp_inf": FORMATS["timestamp"].cell,
    "unix": FORMATS["timestamp"].cell,
    "unix_inf": FORMATS["timestamp"].cell,
    "text-10": b"ten bytes.",
    "text-200": b"A text of 25 characters. " * 8,
    "int4?": FORMATS["int4"].cell,
    "int4[]-10": array(numbers(10)),
    "text?[]-6": array(TEXTS),
}


def line_of(name, cell):
    return f"norm {name} {cell.hex() or '-'}\n".encode()


# The lines by their names in the table. The last two are of the other commands.
CASES = {
    **{name: line_of(name.partition("-")[0], cell) for name, cell in CELLS.items()},
    "type": b"type 1007\n",
    "lsn": b"lsn 16/B374D848\n",
}


def file_of(lines, folder, name):
    """Writes the lines, for a program to read."""
    path = f"{folder}/{name}"
    with open(path, "wb") as file:
        file.write(lines)
    return Work(source=path)


def built(given, folder):
    """Returns pgcell, which is proved and built first where it is not given, and the program over the crate."""
    print(f"The Rust crate: {real_crate.require()}", flush=True)
    if not given:
        said_of([f"{TOP}/pgcell"])
    crate = real_crate.built(folder, {"lines": real_crate.main_of("lines")})["lines"]
    return [Program(given or f"{TOP}/crates/pgcell/out/pgcell"), Program(crate.path, ("buffered",))]


def times_of_line(programs, name, folder):
    """Returns the time of a line by each program."""
    line = CASES[name]
    once, often = file_of(line, folder, "line"), file_of(line * (1 + LINES), folder, "lines")
    compare(name, [program.run(often)[1] for program in programs])
    # What is printed is not kept meanwhile, so that no reader of it is waited for.
    return times_of(programs, once, often, LINES, is_kept=False)[0]


def show_table(programs, names, folder, passes):
    before = [{name: times_of_line(programs, name, folder) for name in names} for _ in range(1, passes)]

    def rows():
        for name in names:
            ours, crate = least_times([*(it[name] for it in before), times_of_line(programs, name, folder)])
            yield f"| {name} | {ours:.2f} | {crate:.2f} | {ours / crate:.2f} |"

    table(HEAD, rows())
