"""The trials of scripts/server-test with altered texts: what copy_write takes, the server takes as the same value.

Of each kind, and of arrays of some, texts of its values are altered at a few places, by a seed, and the forms are added that people
write. What copy_write makes of each is loaded by the server, beside what the server's own input function makes of the text.
"""
import concurrent.futures
import os
import random
import struct

from server_kinds import FORMS, LEFT_OUT
from server_trials import HEADER, TRAILER, Counts, run

TEXTS, LONGEST = 1_000, 60
# What is put into a text, beside its own characters.
SIGNS = " \t+-.,:;/'\"\\{}()=_0123456789abcdefxyzABCEFTZoOuNinftINFBCeEé"
# The kinds of which the server's cast of a text is not its input function, or cuts, or is of a document, which copy_write leaves to it.
UNTRIED = {"json", "jsonb", "bpchar", "bit", "name", "ltree", "lquery", "ltxtquery", "mood", "label", "glad", "odd_row", "odder", "char",
           "session", "shorter"}
ARRAYS = {"int4", "text", "float8", "date"}


def altered(text, chance):
    """The text with one to three characters put in, left out, repeated or replaced."""
    for _ in range(chance.randint(1, 3)):
        place = chance.randint(0, len(text))
        sign = chance.choice(SIGNS + text)
        text = chance.choice((
            text[:place] + sign + text[place:], text[:place] + text[place + 1:], text[:place] + sign + text[place + 1:],
            text[:place] + text[place:place + 1] + text[place:], sign + text, text + sign,
        ))
    return text


def line_of(text):
    """The text as a line of the text format of COPY."""
    for sign, letter in (("\\", "\\"), ("\n", "n"), ("\r", "r"), ("\t", "t")):
        text = text.replace(sign, f"\\{letter}")
    return f"{text}\n".encode()


def tuples(output):
    """The cells of one column in a binary COPY, and whether it is complete."""
    cells, place = [], len(HEADER)
    while output[place:place + 2] == b"\0\1":
        length = struct.unpack_from(">i", output, place + 2)[0]
        cells.append(output[place + 6:place + 6 + length])
        place += 6 + length
    return cells, output[place:] == TRAILER


class AlteredTexts:
    """The trial of a kind, or of arrays of it."""

    def __init__(self, server, programs, kind, is_array):
        self.server, self.programs = server, programs
        brackets = "[]" if is_array else ""
        self.type, self.word, self.name = kind.type + brackets, kind.copy_name + brackets, f"{kind.name}{brackets}"
        self.values, self.table = (f"{it}_{kind.name}{'_array' if is_array else ''}" for it in "sa")
        self.forms, self.left_out = FORMS.get(self.name, ()), LEFT_OUT.get(self.name, ())

    def texts(self):
        """Altered texts of values, and the forms that people write."""
        shown = f"SELECT v::text FROM {self.values} WHERE length(v::text) BETWEEN 1 AND {LONGEST} ORDER BY md5(id::text) LIMIT {TEXTS}"
        own = [it for it in self.server.psql(shown).decode().splitlines() if it]
        chance = random.Random(self.name)
        made = [altered(chance.choice(own), chance) for _ in range(TEXTS)]
        return [it for it in made if "\n" not in it and "\0" not in it] + [*self.forms, *self.left_out]

    def written(self, lines):
        """The cell that copy_write makes of each line, None where it refuses it."""
        cells = []
        while len(cells) < len(lines):
            _, output, _ = run(self.programs.copy_write, [self.word], b"".join(lines[len(cells):]))
            more, is_complete = tuples(output)
            cells += more
            if not is_complete:
                cells.append(None)
        return cells

    def load(self, texts, cells):
        """Has the server take the texts by its input function, and the cells."""
        ours, theirs, taken = f"{self.table}_cells", f"{self.table}_texts", f"{self.table}_taken"
        self.server.psql(f"CREATE TABLE {ours} (id int4, v {self.type})", f"CREATE TABLE {theirs} (id int4, said text)",
                         f"CREATE FUNCTION {taken}(said text) RETURNS {self.type} LANGUAGE plpgsql AS $$ DECLARE v {self.type};"
                         f" BEGIN v := said; RETURN v; EXCEPTION WHEN OTHERS THEN RETURN NULL; END $$")
        self.server.psql(f"COPY {theirs} FROM STDIN", given=b"".join(b"%d\t%s" % it for it in enumerate(map(line_of, texts))))
        rows = [b"\0\2" + struct.pack(">iii", 4, place, len(it)) + it for place, it in enumerate(cells) if it is not None]
        self.server.psql(f"COPY {ours} FROM STDIN (FORMAT binary)", given=HEADER + b"".join(rows) + TRAILER)
        verdicts = (f"SELECT id, o.id IS NOT NULL, t IS NOT NULL, o.v::text IS NOT DISTINCT FROM t::text FROM"
                    f" (SELECT id, {taken}(said) AS t FROM {theirs} OFFSET 0) t LEFT JOIN {ours} o USING (id) ORDER BY id")
        return [line.split("|")[1:] for line in self.server.psql(verdicts).decode().splitlines()]

    def run(self):
        """The counts, and how many texts the server alone takes."""
        counts, alone, texts = Counts(), 0, self.texts()
        for place, verdict in enumerate(self.load(texts, self.written([line_of(it) for it in texts]))):
            is_ours, is_theirs, is_same = (it == "t" for it in verdict)
            is_form = texts[place] in self.forms and place >= len(texts) - len(self.forms) - len(self.left_out)
            alone += is_theirs and not is_ours
            counts.take(f"{self.name}: the text {texts[place]!r}: copy_write {'takes' if is_ours else 'refuses'} it, and the server"
                        f" {'takes' if is_theirs else 'refuses'} it", 1, is_same if is_ours and is_theirs else not is_ours and not is_form)
        return counts, alone


def of_kinds(kinds):
    """The kinds whose texts are altered, and of some their arrays after them."""
    for kind in kinds:
        if kind.copy_name and kind.name not in UNTRIED:
            yield kind, False
            if kind.name in ARRAYS:
                yield kind, True


def try_altered(server, programs, kinds):
    """The trials of these kinds, the tables of whose values are made, and how many texts the server alone takes."""
    total, alone = Counts(), 0
    with concurrent.futures.ThreadPoolExecutor(os.cpu_count()) as pool:
        for counts, more in pool.map(lambda it: AlteredTexts(server, programs, *it).run(), of_kinds(kinds)):
            total.add(counts)
            alone += more
    return total, alone
