"""The trials of scripts/server-test with a COPY that a fault stops: what the programs leave, no server loads, in no part."""
import os
import subprocess

from server_trials import HEADER, TRAILER, Counts, run

# A column's type and lines that copy_write refuses after the first of them: no value, another number of fields, a text too long for
# its type, bytes that are no UTF-8, the end of the data, and an escape that the server never writes.
LINES = [
    ("int4", b"1\n2\nx\n4\n"), ("int4", b"1\n2\t3\n4\n"), ("int2", b"1\n99999\n"), ("text", b"a\n\xff\n"), ("text", b"a\n\\.\n"),
    ("text", b"a\n\\x41\n"), ("date", b"2000-01-01\n2000-13-01\n"), ("uuid", b"00000000-0000-0000-0000-000000000000\n0\n"),
]
# The frames of two integers, and what is made of the tuples of three by copy_read, which refuses it after the first two.
ROW = b"\0\1\0\0\0\4\0\0\0"
TWO = HEADER + ROW + b"\1" + ROW + b"\2"
COPIES = [TWO, TWO + b"\0", TWO + ROW, TWO + b"\0\2" + ROW[2:] + b"\3", TWO + b"\0\1\0\0\0\3\0\0\3", TWO + b"\0\1\xff\xff\xff\xfe",
          TWO + TRAILER + b"\0", TWO + b"\x80\0"]


class Stops:
    """The trials of a server, each in an empty table."""

    def __init__(self, server, programs):
        self.server, self.programs, self.counts = server, programs, Counts()

    def expect(self, what, is_so):
        self.counts.take(f"after a fault: {what}", 1, is_so)

    def loads(self, of_type, output, commands):
        """Has the server read an output by these commands: the message, if it refuses them, and the number of rows then."""
        self.server.psql("DROP TABLE IF EXISTS stopped", f"CREATE TABLE stopped (v {of_type})")
        done = subprocess.run(self.server.command(*commands), input=output, env=self.server.environment, capture_output=True)
        return done.stderr.decode(errors="replace"), int(self.server.psql("SELECT count(*) FROM stopped"))

    def try_lines(self, of_type, lines):
        status, output, fault = run(self.programs.copy_write, [of_type], lines)
        message, rows = self.loads(of_type, output, ["COPY stopped FROM STDIN (FORMAT binary)"])
        is_so = status == 1 and bool(fault) and len(output) > len(HEADER) + 2 and "row field count is -32768" in message and rows == 0
        self.expect(f"{lines!r}: {rows} rows: {message}", is_so)

    def try_copy(self, stream):
        status, lines, fault = run(self.programs.copy_read, ["int4"], stream)
        is_told = lines.startswith(b"1\n2\n\\.fault: ") and lines.endswith(b"\n") and lines.count(b"\n") == 3
        message, rows = self.loads("int4", lines, ["COPY stopped FROM STDIN"])
        is_so = status == 1 and bool(fault) and is_told and "end-of-copy marker" in message and rows == 0
        self.expect(f"{stream!r}: {lines!r}: {rows} rows: {message}", is_so)

    def try_unreadable(self, program, commands):
        """The trial of an input that cannot be read."""
        folder = os.open("/", os.O_RDONLY)
        try:
            output = subprocess.run([*program, "int4"], stdin=folder, capture_output=True).stdout
        finally:
            os.close(folder)
        message, rows = self.loads("int4", output, commands)
        self.expect(f"an input that cannot be read: {output!r}: {rows} rows: {message}", bool(output) and bool(message) and rows == 0)

    def try_cut(self):
        """What a program leaves that is killed the server takes as complete, unless it is asked for the number of rows."""
        copy = "COPY stopped FROM STDIN (FORMAT binary)"
        message, rows = self.loads("int4", TWO, [copy])
        self.expect(f"a COPY without its trailer: {rows} rows: {message}", not message and rows == 2)
        for rows, is_loaded in ((2, True), (3, False)):
            count = f"SELECT 1 / (count(*) = {rows})::int FROM stopped"
            message, found = self.loads("int4", TWO, ["BEGIN", copy, count, "COMMIT"])
            self.expect(f"{count}: {found} rows: {message}", (found == 2, not message) == (is_loaded, is_loaded))

    def run(self):
        for row in LINES:
            self.try_lines(*row)
        for stream in COPIES:
            self.try_copy(stream)
        self.try_unreadable(self.programs.copy_read, ["COPY stopped FROM STDIN"])
        self.try_unreadable(self.programs.copy_write, ["COPY stopped FROM STDIN (FORMAT binary)"])
        self.try_cut()
        return self.counts
