"""Numbers in the documents that the repository's files give, each counted and compared with what the document says.

A row of COUNTS names a document, the pattern of a sentence in which the group `n` is what is counted, and the function that
returns what is to stand there; the pattern's other groups are its arguments. A row whose pattern is found nowhere is wrong too.
"""
import glob
import os
import re
import sys
from functools import cache, partial
from statistics import median

TOP = os.path.dirname(os.path.dirname(os.path.abspath(__file__)))
# The modules leave no files in the repository.
sys.dont_write_bytecode = True
sys.path.insert(0, f"{TOP}/scripts")
from formats import BYTES, forms
from performance import cases, section, tables

WORDS = "no one two three four five six seven eight nine ten eleven twelve thirteen fourteen fifteen sixteen seventeen eighteen " \
    "nineteen twenty".split()


CRATE = "The library beside the Rust crate"


def read(path):
    with open(path, encoding="utf-8") as it:
        return it.read()


def first(pattern, text):
    """Returns the first group of a pattern in a text, or nothing."""
    found = re.search(pattern, text, re.M | re.S)
    return found[1] if found else ""


@cache
def sources():
    return "".join(read(it) for it in sorted(glob.glob("crates/*/src/**/*.rt", recursive=True)))


def specification_lines(crates):
    """Returns the lines of these crates' definitions, but for blank ones, imports and laws, to the nearest fifty."""
    lines = 0
    for crate in re.findall(r"\w+", crates.replace(" and ", " ")):
        for path in glob.glob(f"crates/{crate}/specs/**/*.antt", recursive=True):
            if "/Laws" not in path:
                lines += len(re.findall(r"^(?!(?:pub )?use )[ \t]*\S.*$", read(path), re.M))
    return f"{(lines + 25) // 50 * 50:,}"


def example_lines(names):
    """Returns of each type of own_types the lines of its file, or of its part of one, without comments, imports and blank lines."""
    found = []
    for name in re.findall(r"`(\w+)(?:<T>)?`(?= in|,|$)", re.sub(r"`\w+\.rt`", "", names)):
        for path in glob.glob("crates/own_types/src/*.rt"):
            parts = re.split(r"(?<!\]\n)^(?=(?:#\[.*\]\n)*pub (?:struct|enum) )", read(path), flags=re.M)
            part = next((it for it in parts if re.search(rf"^pub (?:struct|enum) {name}\b", it, re.M)), "")
            found += [len(re.findall(r"^(?!\s*(?://|(?:ghost )?use |$)).*$", part, re.M))] if part else []
    return ", ".join(map(str, found))


def fields_of(name):
    body = first(rf"^(?:pub )?struct {name} \{{\n(.*?)^\}}", sources())
    return WORDS[len(re.findall(r"^    (?:pub )?\w+: ", body, re.M))]


def fault_code(name):
    return first(rf"Fault::{name}\b[^\n]* => (\d+),", read("crates/pg_types/src/fault.rt"))


def must_fail_edits():
    """Returns how many must-fail edits each line of .ci/refused says were refused, and how many there are."""
    return [(int(refused), int(edits)) for refused, edits in re.findall(r" (\d+) of (\d+)$", read(".ci/refused"), re.M)]


def edits_in_all():
    return f"{sum(edits for _, edits in must_fail_edits()):,}"


def edits_left():
    left = sum(edits - refused for refused, edits in must_fail_edits())
    return f"{left:,}" if left else "none"


def damaged_cells():
    """Returns how many cells .ci/damaged-cells has of each form, to the nearest thousand."""
    cells = sum(len(it.fronts) + 1 + len(BYTES) * (1 + len(it.replaced)) for _, it in forms())
    return f"{round(cells, -3):,}"


def base_names_in_last(lines):
    """Returns how many base names the last lines of pgcell's stored input have."""
    last = read("crates/pgcell/stdin").splitlines()[-int(lines):]
    return str(len({re.match(r"norm (\w+)", it)[1] for it in last}))


def count_of(title, limit="inf", kind="ratio"):
    """Returns how many cases of a section have a ratio of that kind that is at most so much."""
    return str(sum(getattr(it, kind) <= float(limit) for it in cases(title)))


def count_below(title, kind="ratio"):
    return str(sum(getattr(it, kind) < 1 for it in cases(title)))


def median_of(title, kind="ratio"):
    return f"{median(getattr(it, kind) for it in cases(title)):.2f}"


def instructions_of_read(case, column):
    head, rows = next(it for it in tables(section("The library beside the Rust crate")) if "read" in it[0])
    return next(it[head.index(column)] for it in rows if it[0] == case)


def best_instructions_of_read(case):
    """Those of the crate's better build, whose ratio the table has."""
    head, rows = next(it for it in tables(section("The library beside the Rust crate")) if "read" in it[0])
    here, ratio = next((it[head.index("read")], it[head.index("ratio")]) for it in rows if it[0] == case)
    return f"{int(here) / float(ratio):.0f}"


def million_rows(program):
    head, rows = next(tables(section("The programs copy_read and copy_write")))
    rate = next(it[head.index("rows a second")] for it in rows if it[0].endswith(f", {program}"))
    return f"{int(rate.replace(',', '')) / 1e6:.1f}"


COUNTS = [
    ("README.md", r"an (?P<case>int4) is read in (?P<n>\d+) instructions", partial(instructions_of_read, column="read")),
    ("README.md", r"an (?P<case>int4) is read in \d+ instructions \(by the Rust crate in (?P<n>\d+)", partial(instructions_of_read, column="crate")),
    ("README.md", r"an (?P<case>int4) is read in \d+ instructions \(by the Rust crate in \d+, or in (?P<n>\d+)", best_instructions_of_read),
    ("README.md", r"`(?P<program>copy_read)` turns (?P<n>[\d.]+) million rows", million_rows),
    ("CONTRIBUTING.md", r"There are (?P<n>[\d,]+) must-fail edits", edits_in_all),
    ("CONTRIBUTING.md", r"must-fail edits; (?P<n>[\d,]+|none) of them", edits_left),
    ("docs/OWN-TYPES.md", r"^\|[^|]*\|[^|]*\|[^|]*\| (?P<names>[^|]*) \| (?P<n>\d+(?:, \d+)*) \|$", example_lines),
    ("docs/OWN-TYPES.md", r"`(?P<name>\w+)` has (?P<n>\w+) fields", fields_of),
    ("docs/OWN-TYPES.md", r"`(?P<name>\w+)`, among the tests, (?P<n>\w+)", fields_of),
    ("docs/CONTRACTS.md", r"(?P<crates>`\w+`(?:(?:, | and )`\w+`)*) (?P<n>\d[\d,]*\d)(?=[,.] )", specification_lines),
    ("docs/CONTRACTS.md", r"\(some (?P<n>[\d,]+) cells\)", damaged_cells),
    ("docs/CONTRACTS.md", r"last (?P<lines>\d+) lines hold cells of (?P<n>\d+) base names", base_names_in_last),
    ("docs/SPECIFICATION.md", r"^\| (?P<n>\d+) \| (?P<name>[A-Z]\w+) \|", fault_code),
    ("docs/PERFORMANCE.md", r"Of (?P<n>\d+) cases by the crate", partial(count_of, CRATE)),
    ("docs/PERFORMANCE.md", r"(?P<n>\d+) need fewer instructions than in its one program", partial(count_below, CRATE, kind="in_one")),
    ("docs/PERFORMANCE.md", r"one program, (?P<n>\d+) at most (?P<limit>[\d.]+) times", partial(count_of, CRATE, kind="in_one")),
    ("docs/PERFORMANCE.md", r"the median is (?P<n>[\d.]*\d); beside the better", partial(median_of, CRATE, kind="in_one")),
    ("docs/PERFORMANCE.md", r"beside the better build (?P<n>\d+)", partial(count_below, CRATE)),
    ("docs/PERFORMANCE.md", r"beside the better build \d+, (?P<n>\d+) and", partial(count_of, CRATE, limit=1.1)),
    ("docs/PERFORMANCE.md", r"beside the better build \d+, \d+ and (?P<n>[\d.]*\d)", partial(median_of, CRATE)),
]


def counted_by(count, groups):
    try:
        return count(**groups)
    except (LookupError, StopIteration):
        return "what is not there to be counted"


def wrong_counts():
    """Returns what is wrong of the numbers that are counted, and how many there are."""
    wrong, counted = [], 0
    for document, pattern, count in COUNTS:
        # a paragraph, and an item of a list, is a line
        text = re.sub(r"\n *(?=[^\s|#-])", " ", read(document))
        found = list(re.finditer(pattern, text, re.M))
        counted += len(found)
        if not found:
            wrong.append((document, f"nothing is as {pattern}, a row of .ci/counts.py"))
        for it in found:
            groups = {key: value for key, value in it.groupdict().items() if key != "n"}
            if (expected := counted_by(count, groups)) != it["n"]:
                wrong.append((document, f"{it['n']} is to be {expected} in: {it[0].strip()}"))
    return wrong, counted
