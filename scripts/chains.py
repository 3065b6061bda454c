"""Steps that run side by side, each once those it waits for have ended: which come first, and how they begin."""
import os
import threading

# A chain of steps is as good as the longest from this part of it on.
NEAR = 0.85
# By how much the priority is lower of what does not come first.
BEHIND = 10


class Chains:
    """Of each step the cost of the longest chain of steps that it begins."""

    def __init__(self, costs, waits_for):
        """`costs` has the steps, each after those that it waits for."""
        self.behind = {}
        for it in reversed(costs):
            above = (self.behind[other] for other in self.behind if waits_for(other, it))
            self.behind[it] = costs[it] + max(above, default=0)

    def is_first(self, step, known):
        """Returns whether this step begins one of the longest chains among these: such a step gets all processors, and another one of
        them."""
        return self.behind[step] >= NEAR * max(self.behind[it] for it in known)


def begin(is_first, work, *words):
    """Runs a function in a thread of its own. Where it is not first, the commands that it runs have a lower priority."""

    def run():
        if not is_first:
            os.nice(BEHIND)
        work(*words)

    threading.Thread(target=run, daemon=True).start()
