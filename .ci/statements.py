"""What a built library states, which is all that a proof of a crate above it rests on: its contracts, types, constants and macros, as the
library has them, its definitions, and the lemmas that crates above can cite.

It has no bodies, no comments, and no proofs of its own functions.
"""
import hashlib
import os
import re

# A string, which a comment's mark can stand in, or a comment. As antt has it, a name can hold two hyphens.
TOKEN = re.compile(r"""("(?:[^"\\\n]|\\[^\n])*")|(?<![^ \n(){}.;,@"»])--[^\n]*""")


def without_comments(text):
    """Returns a text of antt without the comments that end with their line, and without blank lines and blanks at the end of one."""
    text = TOKEN.sub(lambda it: it[1] or "", text)
    return "\n".join(filter(None, map(str.rstrip, text.split("\n"))))


def read(path):
    with open(path, encoding="utf-8") as it:
        return it.read()


def walked(folder):
    return sorted(f"{at}/{name}" for at, _, names in os.walk(folder) for name in names)


def lemma_files(antt):
    """Returns the files of lemmas that crates above can cite: those that are passed on, from the head of proofs on."""
    found, left = [], [f"{antt}/proofs"]
    while left:
        module = left.pop()
        for name in re.findall(r"^pub mod (\S+)$", read(f"{module}.antt"), re.M) if os.path.isfile(f"{module}.antt") else []:
            left.append(f"{module}/{name}")
            found.append(f"{module}/{name}.antt")
    return sorted(filter(os.path.isfile, found))


def statements_in(library):
    """Yields the path and the text of each file in which a built library states something."""
    antt = f"{library}/lang/antt"
    for path in [*walked(f"{library}/interface"), *walked(f"{library}/lang/src")]:
        yield path, read(path)
    for path in [f"{antt}/specs.antt", *walked(f"{antt}/specs"), f"{antt}/proofs.antt", *lemma_files(antt)]:
        if os.path.isfile(path):
            yield path, without_comments(read(path))


def sum_of_statements(library):
    """Returns the checksum of what a built library states."""
    sums = hashlib.sha256()
    for path, text in statements_in(library):
        sums.update(f"{os.path.relpath(path, library)} {hashlib.sha256(text.encode()).hexdigest()}\n".encode())
    return sums.hexdigest()
