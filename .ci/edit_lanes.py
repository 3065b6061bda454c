"""Lanes in which rounds of must-fail edits are tried side by side, each in copies of its own."""
import os
import threading
import time
from queue import PriorityQueue

from copies import copy_crates, link_tree, with_below
from edits import read_edits, read_sources
from rounds import check, proved_in, rounds_of, tries_of, try_round


class Lanes:
    """The edits of several crates: of each a check without any, which tells what the crate proves, and then its rounds."""

    def __init__(self, copy, room, crates, records, ended):
        self.copy, self.room, self.crates, self.records, self.ended = copy, room, crates, records, ended
        self.waiting, self.turn = PriorityQueue(), threading.Lock()
        # how many rounds of a crate are left, and why a lane stopped
        self.left, self.failed = {}, None

    def kept_of(self, crate):
        """Returns the folder of what the crate's own proof kept, which `divide` makes where there is none."""
        return f"{self.copy}/crates/{crate}/out/incremental"

    def copy_of(self, lane, crate):
        """Returns a lane's copy of a crate, with what its own proof kept."""
        to = f"{self.room}/lane-{lane}-{crate}"
        if not os.path.isdir(to):
            copy_crates(with_below(crate, self.crates), self.copy, to)
            if os.path.isdir(self.kept_of(crate)):
                link_tree(self.kept_of(crate), f"{to}/crates/{crate}/out/proof", ".oantt")
        return f"{to}/crates/{crate}"

    def divide(self, lane, crate):
        """Divides the edits that are left of a crate into rounds, which come before those of other crates."""
        folder = self.copy_of(lane, crate)
        texts = read_sources(folder)
        status, lines = check(folder, texts, texts)
        if status:
            raise OSError("\n".join([f"{crate} is NOT proved without an edit", *lines]))
        if not os.path.isdir(self.kept_of(crate)):
            for to in (self.kept_of(crate), f"{folder}/out/proof"):
                link_tree(f"{folder}/out/incremental", to, ".oantt")
        edits = [it for it in read_edits(f"crates/{crate}") if it.name in self.records[crate].left]
        rounds = rounds_of([*tries_of(edits, texts, proved_in(lines))], texts)
        self.left[crate] = len(rounds)
        for number, tries in enumerate(rounds):
            self.waiting.put((0, number, crate, tries))

    def try_one(self, lane, crate, tries):
        begin, folder = time.monotonic(), self.copy_of(lane, crate)
        said = try_round(tries, folder, read_sources(folder))
        seconds = time.monotonic() - begin
        with self.turn:
            print(f"== {crate}: {len(tries)} edits in {seconds:.0f} s", *(f"{edit}: {answer}" for edit, answer in said.items()), sep="\n", flush=True)
            self.records[crate].add(said, seconds)
            self.left[crate] -= 1
            if not self.left[crate]:
                self.ended(crate)

    def work(self, lane):
        while (task := self.waiting.get())[2]:
            _, _, crate, tries = task
            try:
                if not self.failed:
                    self.try_one(lane, crate, tries) if tries else self.divide(lane, crate)
            except OSError as error:
                self.failed = str(error)
            self.waiting.task_done()

    def try_all(self, tried, lanes):
        """Tries the edits of these crates that are left, and returns why it stopped, if it did."""
        for place, crate in enumerate(tried):
            self.waiting.put((1 + place, 0, crate, None))
        for lane in range(lanes):
            threading.Thread(target=self.work, args=(lane,), daemon=True).start()
        self.waiting.join()
        for _ in range(lanes):
            self.waiting.put((0, 0, "", None))
        return self.failed
