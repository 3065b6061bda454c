"""The numbers of docs/PERFORMANCE.md: of each case that is compared, its ratios to the others."""
import os
import re
import sys
from dataclasses import dataclass

TOP = os.path.dirname(os.path.dirname(os.path.abspath(__file__)))
DOCUMENT = "docs/PERFORMANCE.md"


@dataclass
class Case:
    name: str
    series: str  # read, write, or nothing
    ratio: float
    in_one: float | None  # the ratio of the two numbers before it, of which the other is the crate's program of all cases


def read(path):
    with open(f"{TOP}/{path}", encoding="utf-8") as it:
        return it.read()


def section(title):
    """Returns the document's section of that title."""
    return read(DOCUMENT).partition(f"\n## {title}\n")[2].partition("\n## ")[0]


def tables(text):
    """Returns of each table of a text the heads of its columns and its rows."""
    for it in re.finditer(r"(?:^\|.*\|\n)+", f"{text}\n", re.M):
        head, _, *rows = [[cell.strip() for cell in line.strip("|").split("|")] for line in it[0].splitlines()]
        yield head, rows


def number(row, at):
    """Returns the number in that column of a row, or nothing where there is none."""
    text = row[at].replace(",", "") if at < len(row) else ""
    return float(text) if re.fullmatch(r"[\d.]+", text) else None


def cases(title):
    """Returns the cases of a section's tables, by their order in each column of ratios."""
    found = []
    for head, rows in tables(section(title)):
        for at in [at for at, it in enumerate(head) if it == "ratio"]:
            name = max(it for it in range(at) if head[it] in ("case", "name"))
            series = next((it for it in head[at - 1:name:-1] if it in ("read", "write")), "")
            for row in rows:
                if number(row, at) is not None:
                    in_one = number(row, at - 2) / number(row, at - 1) if head[at - 1] == "crate" else None
                    found.append(Case(row[name], series, number(row, at), in_one))
    if not found:
        sys.exit(f"{DOCUMENT}: no table of ratios in the section {title}")
    return found
