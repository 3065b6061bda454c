"""Rounds of must-fail edits: edits that one check of a crate tries together, over what its own proof kept.

A proof of a function takes the contract of what the function calls, and not its body. So a round applies edits in the bodies of
different functions, and one check tells of each whether its function is not proved by itself. Edits of what is no body have
rounds of their own: each names what it breaks (`fails`), and no other function of the round is to fail. An edit that turns a
clause, and names nothing, is tried alone.
"""
import os
import re
import subprocess
from collections import Counter
from dataclasses import dataclass

from copies import link_tree
from edits import functions_of
from verdicts import fails_among, failures, is_read


@dataclass(frozen=True)
class Try:
    edit: object
    reached: tuple  # the functions, in whose bodies it stands, or those that it names
    target: str  # the function that is not to be proved, or nothing: then it is tried alone
    is_wide: bool  # whether it changes more than bodies


def proved_in(lines):
    """Returns the names of the functions that a check proved."""
    return {name for line in lines for name in re.findall(r"^fn \w+::(\S+): proved$", line)}


def known_as(path, names):
    """Returns the name under which the prover knows a function: that of its type's own module, where another has it."""
    ends = [it for it in names if it.split("::")[-2:] == path.split("::")[-2:]]
    return path if path in names or len(ends) != 1 else ends[0]


def tries_of(edits, texts, names):
    """Returns how each edit is tried; names are the functions that the crate's own check proved."""
    functions = functions_of(texts)
    for edit in edits:
        reached = edit.reach(functions, texts)
        if edit.fails or not reached:
            yield Try(edit, tuple(edit.fails.split()), edit.fails, True)
        else:
            target = known_as(edit.target(reached), names)
            yield Try(edit, tuple(known_as(it, names) for it in reached), target, False)


def fits(one, others, texts):
    """Returns whether an edit can be tried in a round with others."""
    if not one.target or any(set(one.reached) & set(it.reached) for it in others):
        return False
    # (what two edits put in one place may bring the same imports)
    if one.is_wide and any(pair[:2] == other[:2] for it in others for other in it.edit.pairs for pair in one.edit.pairs):
        return False
    for it in others:
        texts = it.edit.applied(texts)
    return one.edit.applied(texts) is not None


def rounds_of(tries, texts):
    """Divides the edits into as few rounds as the function of which most are wants, of about one size each."""
    rounds = []
    for is_wide in (False, True):
        kind = [it for it in tries if it.is_wide == is_wide]
        most = Counter(name for it in kind for name in it.reached)
        begun = [[] for _ in range(max(most.values(), default=0))]
        # those of functions that have most edits come first, since they fit where the others do not stand yet
        for it in sorted(kind, key=lambda it: -max((most[name] for name in it.reached), default=0)):
            into = next((each for each in sorted(begun, key=len) if fits(it, each, texts)), None)
            if into is None:
                begun.append(into := [])
            into.append(it)
        rounds += begun
    return [it for it in rounds if it]


def write(path, text):
    with open(path, "w", encoding="utf-8") as it:
        it.write(text)


def check(crate, texts, kept):
    """Returns the status and the lines of a check with these texts, which begins with what the crate's own proof kept."""
    if os.path.isdir(f"{crate}/out/proof"):
        link_tree(f"{crate}/out/proof", f"{crate}/out/incremental", ".oantt")
    changed = [file for file, text in texts.items() if text != kept[file]]
    try:
        for file in changed:
            write(f"{crate}/{file}", texts[file])
        ran = subprocess.run(["nice", "-n", "5", "rt", "check", "--jobs", "1"], cwd=crate, stdout=subprocess.PIPE, stderr=subprocess.STDOUT, text=True, check=False)
    finally:
        for file in changed:
            write(f"{crate}/{file}", kept[file])
    return ran.returncode, ran.stdout.split("\n")


def is_refused_alone(one, crate, kept):
    """Returns whether the crate is not proved with this edit alone: by what it names, where it names something."""
    texts = one.edit.applied(kept)
    if texts is None:
        return False
    status, lines = check(crate, texts, kept)
    if status != 1 or not is_read(lines) or not any(it.startswith("logic=not-proved") for it in lines):
        return False
    return not one.is_wide or not one.target or failures(lines) == set(one.reached)


def refused_in_round(tries, crate, kept):
    """Returns those edits of a round that one check refuses, or None where it cannot tell."""
    texts = kept
    for it in tries:
        texts = it.edit.applied(texts)
    _, lines = check(crate, texts, kept)
    failed = failures(lines) if is_read(lines) else set()
    reached = {name for it in tries for name in it.reached}
    if not failed or any(not any(fails_among(name, [it]) for name in reached) for it in failed):
        return None
    if any(it.is_wide for it in tries):
        return tries if failed == reached else None
    return [it for it in tries if fails_among(it.target, failed)]


def try_round(tries, crate, kept):
    """Tries a round, and alone each edit that the round does not refuse; returns what is said of each edit."""
    refused = refused_in_round(tries, crate, kept) if len(tries) > 1 else []
    if refused is None and len(tries) > 2:
        half = len(tries) // 2
        return {**try_round(tries[:half], crate, kept), **try_round(tries[half:], crate, kept)}
    said = {it.edit.name: "refused" for it in refused or []}
    for it in tries:
        if it.edit.name not in said:
            said[it.edit.name] = "refused, alone" if is_refused_alone(it, crate, kept) else "NOT REFUSED"
    return said
