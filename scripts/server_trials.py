"""The trials of scripts/server-test: what the programs make of a table, and what the server says of that."""
import os
import re
import struct
import subprocess
from dataclasses import dataclass, field

from server import TOP

HEADER = b"PGCOPY\n\xff\r\n\0" + bytes(8)
TRAILER = b"\xff\xff"


@dataclass
class Counts:
    """Cells that were tried, and what came of them."""
    tried: int = 0
    equal: int = 0
    refused: dict = field(default_factory=dict)
    # Of each reason why bytes cannot be the server's, the cells of which the rows were compared instead.
    compared: dict = field(default_factory=dict)
    differences: list = field(default_factory=list)

    def add(self, other):
        self.tried += other.tried
        self.equal += other.equal
        self.differences += other.differences
        for sum_of, counts in ((self.refused, other.refused), (self.compared, other.compared)):
            for what, count in counts.items():
                sum_of[what] = sum_of.get(what, 0) + count

    def take(self, what, cells, is_equal):
        self.tried += cells
        if is_equal:
            self.equal += cells
        else:
            self.differences.append(what)


@dataclass(frozen=True)
class Programs:
    """The commands that are tried, each without the names of types."""
    copy_read: list
    copy_write: list
    pgcell: list


def run(command, words, given):
    """The status, what was written, and the message."""
    done = subprocess.run([*command, *words], input=given, capture_output=True)
    return done.returncode, done.stdout, done.stderr.decode(errors="replace")


def columns_of(server, table):
    """The types of a table's columns, as scripts/columns prints them."""
    path = f"{server.binaries}:{os.environ['PATH']}"
    done = subprocess.run([f"{TOP}/scripts/columns", table], env={**server.environment, "PATH": path}, capture_output=True)
    if done.returncode:
        raise RuntimeError(f"scripts/columns {table}: {done.stderr.decode()}")
    return done.stdout.decode().removesuffix("\n")


@dataclass(frozen=True)
class Table:
    """A table to try: its columns' types, and the expressions that rows are told apart by."""
    name: str
    words: list
    cells: int
    shown: str = "*"
    # Why the bytes that copy_write writes cannot be the server's, where they cannot.
    other_bytes: str = ""


class CopyTrial:
    """The trial of copy_read and copy_write with a table. Faults are told by a name."""

    def __init__(self, server, programs, table, name):
        self.server, self.programs, self.table, self.name = server, programs, table, name
        self.counts = Counts()

    def shown(self, table):
        """What the server shows of the rows of a table, in their order."""
        return self.server.psql(f"COPY (SELECT {self.table.shown} FROM {table}) TO STDOUT")

    def load(self, stream, options):
        """Whether the server reads these rows as those of the table: the message where it does not."""
        made = "made_" + re.sub(r"\W", "_", self.table.name)
        try:
            # (in one transaction, so that the server keeps the order of the rows)
            commands = [f"CREATE TABLE {made} (LIKE {self.table.name} INCLUDING GENERATED)", f"COPY {made} FROM STDIN {options}"]
            self.server.psql("BEGIN", *commands, "COMMIT", given=stream)
            return "" if self.shown(made) == self.shown(self.table.name) else "other rows"
        except RuntimeError as error:
            return str(error)
        finally:
            self.server.psql(f"DROP TABLE IF EXISTS {made}")

    def read(self):
        """Has copy_read turn the rows: the lines."""
        stream = self.server.psql(f"COPY {self.table.name} TO STDOUT (FORMAT binary)")
        status, lines, message = run(self.programs.copy_read, self.table.words, stream)
        if not status:
            message = differing(lines, self.server.psql(f"COPY {self.table.name} TO STDOUT"))
        self.counts.take(f"{self.name}: copy_read {self.table.words}: {message}", self.table.cells, not status and not message)
        return lines

    def write(self, lines):
        """Has copy_write turn the lines into rows. Its types are those that scripts/columns prints, in one word."""
        words = [columns_of(self.server, self.table.name)]
        status, stream, message = run(self.programs.copy_write, words, lines)
        if not status and self.table.other_bytes:
            message = self.load(stream, "(FORMAT binary)")
            self.counts.compared[self.table.other_bytes] = self.table.cells
        elif not status:
            message = differing(with_empty_arrays(stream), self.server.psql(f"COPY {self.table.name} TO STDOUT (FORMAT binary)"))
        self.counts.take(f"{self.name}: copy_write {words}: {message}", self.table.cells, not status and not message)

    def write_zoned(self):
        """Has copy_write turn the lines of other time zones, in which an instant has another offset than +00."""
        for zone in ZONES:
            self.write(self.server.psql(f"SET TimeZone = '{zone}'", f"COPY {self.table.name} TO STDOUT"))

    def run(self):
        """Tries both ways: the counts."""
        lines = self.read()
        if not self.counts.differences:
            self.write(lines)
        if any(INSTANT.search(it) for it in self.table.words):
            self.write_zoned()
        return self.counts


# Time zones with offsets of hours, of hours and minutes, and, in old times, of seconds.
ZONES = ["Europe/Berlin", "Asia/Kolkata", "America/St_Johns"]
INSTANT = re.compile(r"timestamptz|timestamp( *\([0-9]*\))? with time zone")

# An empty array, as copy_write frames it: a dimension of no elements from 1 on.
EMPTY_ARRAY = re.compile(b"\0\0\0\x14\0\0\0\1\0\0\0\0(....)\0\0\0\0\0\0\0\1", re.S)


def with_empty_arrays(stream):
    """The rows with each empty array as the server writes it, with no dimension. It takes both as the same value."""
    return EMPTY_ARRAY.sub(lambda it: b"\0\0\0\x0c" + bytes(8) + it[1], stream)


def differing(ours, theirs):
    """Where our bytes are not theirs: what stands around the first that differs."""
    if ours == theirs:
        return ""
    place = len(os.path.commonprefix([ours, theirs]))
    front = max(0, place - 40)
    return f"after {place} bytes {ours[front:place + 40]!r} in place of {theirs[front:place + 40]!r}"


def cells_of(stream):
    """The rows of a binary COPY of two columns: the bytes of the first frame, and the second cell."""
    at = len(HEADER)
    while stream[at:at + 2] != TRAILER:
        first = at + 2
        second = first + 4 + struct.unpack_from(">i", stream, first)[0]
        size, = struct.unpack_from(">i", stream, second)
        at = second + 4 + max(size, 0)
        yield stream[first:second], None if size < 0 else stream[second + 4:at]


def norm_line(name, cell):
    """The line that asks pgcell for a cell, by the form of the name that it needs."""
    if cell is None:
        return b"norm %s? NULL" % name
    form = name
    if name.endswith(b"[]") and cell[4:8] == b"\0\0\0\1":
        form = name[:-2] + b"?[]"
    return b"norm %s %s" % (form, cell.hex().encode() or b"-")


def frame_of(answer, oid):
    """The frame of an answer of pgcell. The OID of an array's elements is put right, where it is a user-defined type's."""
    if answer == b"null":
        return b"\xff\xff\xff\xff"
    if not answer.startswith(b"ok "):
        raise ValueError(answer.decode())
    cell = b"" if answer == b"ok -" else bytes.fromhex(answer[3:].decode())
    if oid:
        cell = cell[:8] + struct.pack(">I", oid) + cell[12:]
    return struct.pack(">i", len(cell)) + cell


def norm(trial, name, oid):
    """Has pgcell answer each cell of a table of two columns, whose first is never NULL, and the server read the answers. An array
    that is NULL has no name there."""
    stream = trial.server.psql(f"COPY {trial.table.name} TO STDOUT (FORMAT binary)")
    asked = list(cells_of(stream))
    lines = b"".join(norm_line(name.encode(), cell) + b"\n" for _, cell in asked)
    _, output, _ = run(trial.programs.pgcell, [], lines)
    try:
        frames = [b"\0\2" + first + frame_of(answer, oid) for (first, _), answer in zip(asked, output.splitlines(), strict=True)]
        message = trial.load(HEADER + b"".join(frames) + TRAILER, "(FORMAT binary)")
    except ValueError as error:
        message = str(error)
    trial.counts.take(f"{name}: pgcell: {message}", len(asked), not message)
    return trial.counts


def beyond_copy(server, programs, name, value, fault, limit):
    """The trial of a value that copy_read is to refuse."""
    counts = Counts(tried=1)
    stream = server.psql(f"COPY (SELECT NULL::int4, {value}, 'after') TO STDOUT (FORMAT binary)")
    status, lines, message = run(programs.copy_read, ["int4", name, "text"], stream)
    if status == 1 and lines.startswith(b"\\.fault: row 1, column 2 (") and f"): {fault}" in message:
        counts.refused[limit] = 1
    else:
        counts.differences.append(f"{name}: {value} is not refused by `{fault}`: {message or lines!r}")
    return counts


def beyond_pgcell(server, programs, name, cell, fault, limit):
    """The trial of a cell that pgcell is to refuse."""
    counts = Counts(tried=1)
    line = f"norm {name} {server.psql(f'SELECT encode({cell}, {chr(39)}hex{chr(39)})').decode()}"
    _, output, _ = run(programs.pgcell, [], line.encode())
    if output == b"refused %d\n" % fault:
        counts.refused[limit] = 1
    else:
        counts.differences.append(f"pgcell: {name}: {cell} is not refused by {fault}: {output!r}")
    return counts
