"""Commands that documents show: in blocks of sh, and in backticks within a sentence."""
import re

BLOCK = re.compile(r"^```sh\n(.*?)^```$", re.M | re.S)
ANY_BLOCK = re.compile(r"^```.*?^```$", re.M | re.S)
# A command goes on where its line ends in a backslash; lines `# TEXT` after it are what it prints.
COMMAND = re.compile(r"((?:.*\\\n)*.+\n)((?:#(?: .*)?\n)*)\n*")
IN_SENTENCE = re.compile(r"`((?:\./|rt |scripts/|psql )[^`\n]*)`")
# The documents with blocks of sh, and those of which the sentences' commands are run too.
DOCUMENTS = ["README.md", "CONTRIBUTING.md", "docs/GUIDE.md", "docs/OWN-TYPES.md", "docs/C.md"]
WITH_SENTENCES = ["README.md", "docs/GUIDE.md", "docs/OWN-TYPES.md", "docs/C.md"]
# What is not run, with any further words, and why.
NOT_RUN = {
    "./check": "the gate, which runs this",
    "rt ci": "the gate runs it",
    "scripts/over-socket": "scripts/server-test runs it",
    "rt try --test": "a library's tests are compiled for a minute or two",
    'rt check --only ""': "for a crate that fails",
}


def read(path):
    with open(path, encoding="utf-8") as it:
        return it.read()


def in_blocks(document):
    """Returns the commands of a document's blocks, in order: the line of each, its text, and what it is to print."""
    text = read(document)
    for block in BLOCK.finditer(text):
        for found in COMMAND.finditer(text, block.start(1), block.end(1)):
            printed = "".join(f"{each[2:]}\n" for each in found[2].splitlines())
            yield text.count("\n", 0, found.start()) + 1, found[1].rstrip("\n"), printed


def is_run(command):
    return not any(f"{command} ".startswith(f"{each} ") for each in NOT_RUN)


def in_sentences(document):
    """Returns the commands that a document's sentences name and that no block of the documents has, once each, with a line."""
    shown = [text for each in DOCUMENTS for _, text, _ in in_blocks(each)]
    text = ANY_BLOCK.sub(lambda it: re.sub(r"[^\n]", "", it[0]), read(document))
    found = {}
    for it in IN_SENTENCE.finditer(text):
        if not any(re.search(rf"{re.escape(it[1])}(?![\w-])", each) for each in shown):
            found.setdefault(it[1], text.count("\n", 0, it.start()) + 1)
    return [(line, command) for command, line in found.items()]
