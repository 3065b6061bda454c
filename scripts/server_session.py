"""The trial of scripts/server-test with a client's session."""
import concurrent.futures
import os
import subprocess

from messages import damaged, with_others
from server import TOP
from server_trials import Counts, run

# The program's standard error.
SAID = """\
inserted and selected 1000 rows
inserted nothing: server: duplicate key value violates unique constraint "item_pkey"
copied 1000 rows out
copied nothing in: server: COPY from stdin failed: no more rows
copied 1000 rows in
"""
# The rows that the session inserts.
ROWS = """
SELECT id, CASE WHEN id % 3 > 0 THEN 'note ' || id END, CASE id % 2 WHEN 0 THEN 'junior' ELSE 'staff' END::level, (id % 101)::percentage,
    ARRAY(SELECT ROW(home || ', Main St.', 'Bern "' || id || '"')::address FROM generate_series(0, id % 4 - 1) home)
FROM generate_series(0, 999) id
"""
DIFFERENT = f"SELECT count(*) - 1000 FROM item; SELECT count(*) FROM (({ROWS}) EXCEPT ALL TABLE item) it"
# What the server sends comes as it is, and in parts of random lengths.
SPLITS = [[], *(["--split", str(seed)] for seed in range(1, 6))]


def try_session(server, program):
    """The trial of a session in a database of its own, each time, and of what a server sends to it that is damaged: the counts."""
    counts = Counts()
    stream = f"{server.folder}/stream"
    for place, split in enumerate(SPLITS):
        database = f"session_{place}"
        server.psql(f"CREATE DATABASE {database}")
        command = [f"{TOP}/scripts/over-socket", *split, "--keep", stream, *program, "tester", database]
        done = subprocess.run(command, env=server.environment, stderr=subprocess.PIPE, text=True)
        counts.take(f"session: status {done.returncode}: {done.stderr}", 1, (done.returncode, done.stderr) == (0, SAID))
        different = server.psql(f"\\connect {database}", *DIFFERENT.split("; "))
        counts.take(f"session: other rows: {different}", 1, different == b"0\n0\n")
    with open(stream, "rb") as it:
        try_damaged(with_others(it.read()), program, counts)
    return counts


def try_damaged(stream, program, counts):
    """Gives the program what a server sent, and messages of other kinds, which it passes over; then truncated and altered: it refuses
    each truncation, and ends by itself."""
    status, _, message = run(program, ["tester", "session"], stream)
    counts.take(f"session: status {status} for messages of all kinds: {message}", 1, status == 0)

    def ended(each):
        is_truncated, given = each
        status, _, message = run(program, ["tester", "session"], given)
        return status == 1 or status == 0 and not is_truncated, f"session: status {status} for damaged messages: {message}"

    with concurrent.futures.ThreadPoolExecutor(os.cpu_count()) as pool:
        for is_well, what in pool.map(ended, damaged(stream)):
            counts.take(what, 1, is_well)
