"""Which must-fail edits were refused over what: the lines of `.ci/refused`, and what is kept of the runs on this machine."""
import contextlib
import hashlib
import json
import os

from copies import lines_of, with_below
from edits import read_edits
from keeping import EDITS, kit_words
from statements import sum_of_statements, walked

CI = os.path.dirname(os.path.abspath(__file__))
REFUSED = f"{CI}/refused"
# How edits are tried: these files' texts are part of each checksum.
TOOLS = ["edits.py", "rounds.py", "verdicts.py"]
NOT_REFUSED = "NOT REFUSED"


def has_edits(crate):
    return os.path.isdir(f"crates/{crate}/must-fail")


def checksum(crate, crates, copy):
    """Returns the checksum of a crate, of what those below it state, of the kit's logic, and of how edits are tried."""
    sums = hashlib.sha256((" ".join(kit_words()[1:]) + lines_of([crate])).encode())
    own = [path for it in ("src", "specs", "proofs") for path in walked(f"crates/{crate}/{it}")]
    for path in [*(f"{CI}/{it}" for it in TOOLS), *own]:
        with open(path, "rb") as it:
            sums.update(f"{path.removeprefix(CI)} {hashlib.sha256(it.read()).hexdigest()}\n".encode())
    for it in with_below(crate, crates)[:-1]:
        sums.update(f"{it} {sum_of_statements(f'{copy}/crates/{it}/out/rlib/{it}.rlib')}\n".encode())
    return sums.hexdigest()


class Record:
    """What was said on this machine of the edits of a crate, of each by its text, over what has this checksum."""

    def __init__(self, crate, over, anew=False):
        self.path = f"{EDITS}/{over}"
        self.edits = {it.name: hashlib.sha256(repr(it).encode()).hexdigest() for it in read_edits(f"crates/{crate}")}
        # of the crate's line
        self.checksum = hashlib.sha256(repr((over, self.edits)).encode()).hexdigest()
        if anew:
            with contextlib.suppress(FileNotFoundError):
                os.remove(self.path)
        self.said, self.seconds = self.kept()

    def kept(self):
        """Returns what is kept of the edits that stand there, and how many seconds they took."""
        if not os.path.isfile(self.path):
            return {}, 0
        with open(self.path, encoding="utf-8") as it:
            said, seconds = json.load(it)
        return {name: answer for name, (text, answer) in said.items() if text == self.edits.get(name)}, seconds

    @property
    def missed(self):
        return sorted(name for name, said in self.said.items() if said == NOT_REFUSED)

    @property
    def refused(self):
        return len(self.said) - len(self.missed)

    @property
    def left(self):
        return self.edits.keys() - self.said.keys()

    def add(self, said, seconds):
        """Notes what was said of some edits, at once, so that a run that is ended was not for nothing, beside what other runs
        noted meanwhile."""
        kept, before = self.kept()
        self.said, self.seconds = {**kept, **self.said, **said}, before + seconds
        os.makedirs(EDITS, exist_ok=True)
        with open(f"{self.path}.new", "w", encoding="utf-8") as it:
            json.dump([{name: (self.edits[name], of) for name, of in self.said.items()}, round(self.seconds)], it)
        os.replace(f"{self.path}.new", self.path)

    def line(self):
        """Returns the crate's line, and notes that it was written on this machine."""
        if self.said:
            os.makedirs(EDITS, exist_ok=True)
            with open(f"{EDITS}/{self.checksum}", "w", encoding="utf-8") as it:
                it.write(f"{self.refused} of {len(self.edits)}\n")
        return self.checksum, self.refused, len(self.edits)


class Lines:
    """The lines of `.ci/refused`: of each crate the checksum, how many edits were refused, and how many there are."""

    HEAD = "# The must-fail edits of each crate that a run refused, by kits of {}, and the checksum of what they were tried over.\n"

    def __init__(self):
        self.logic, self.by_crate = "", {}
        with open(REFUSED, encoding="utf-8") as it:
            for line in map(str.split, it):
                if line[0] == "#":
                    self.logic = " ".join(line)
                elif len(line) == 5:
                    self.by_crate[line[0]] = line[1], int(line[2]), int(line[4])

    @staticmethod
    def head():
        """Returns the first line, which names the kit's logic, as the checksums do: kits of one logic have the same lines."""
        return Lines.HEAD.format(" ".join(kit_words()[1:]))

    def are_of_kit(self):
        """Returns whether the lines were written with a kit of this logic."""
        return self.logic == self.head().strip()

    def write(self, order):
        """Writes the lines, lowest crate first."""
        with open(REFUSED, "w", encoding="utf-8") as it:
            it.write(self.head())
            it.writelines("{} {} {} of {}\n".format(crate, *self.by_crate[crate]) for crate in order if crate in self.by_crate)
