"""What `rt check` says of a crate: which functions and implementations are not proved by themselves."""
import re

# What the prover says of a text that it cannot read.
UNREAD = r"is not in scope|has no field|is no name|operand is missing|expected the end|cannot continue"
# What is said of a function for what it calls alone, of which a proof takes the contract and not the body.
BY_OTHERS = re.compile(r"[:;] it (calls|passes|waits) .*")


def is_unread(line):
    """Returns whether the line says that a source, a specification or a proof could not be read."""
    at = re.match(r"(?:\./)?(?:src|specs)/\S+?:\d+:\d+: error: (`[^`]*`: )?(.*)", line)
    said = re.sub(r"`[^`]*`", "", at[2]) if at else ""
    return bool(at) and (not at[1] or bool(re.search(UNREAD, said)))


def is_read(lines):
    """Returns whether the prover came to a verdict, and read all that it was given."""
    return any(it.startswith("logic=") for it in lines) and not any(map(is_unread, lines))


def refused_in_proofs(lines):
    """Returns the functions of whose own proof files something is refused, and not for what else was."""
    found = [re.match(r"(?:\./)?proofs/(\S+)/\w+\.antt:\d+:\d+: error: (.*)", it) for it in lines]
    return {it[1].replace("/", "::") for it in found if it and "which was rejected" not in it[2]}


def failures(lines):
    """Returns the paths of what is not proved by itself, and not only for what it calls, passes or waits for."""
    refused, failed = refused_in_proofs(lines), set()
    for line in lines:
        verdict = re.match(r"(?:fn|impl) \w+::(\S+): ((?:not|no|could) .*)", line)
        if verdict and (is_own(verdict[2]) or verdict[1] in refused):
            failed.add(verdict[1])
    return failed


def is_own(said):
    """Returns whether the words after a name say that its own proof is not there."""
    return said == "not proved" or bool(re.search("`search` did not prove|antt refuses", said))


def fails_among(path, failed):
    """Returns whether a function, or a closure in it, is among those that failed."""
    within, _, name = path.rpartition("::")
    inside = "::".join([*filter(None, [within]), "fn", name, ""])
    return any(it == path or it.startswith(inside) for it in failed)
