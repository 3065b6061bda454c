"""Must-fail edits of a crate: what they change, of which function, and which can be tried in one check.

An edit is a file of lines `file: FILE`, `old: TEXT` and `new: TEXT`. One that changes no function's body, but a type, a ghost
member or a macro's table, has a line `fails: PATH` that names the function, or the implementation, whose proof it breaks.
"""
import os
import re
from collections import Counter
from dataclasses import dataclass

# A function's head, with the attributes above it.
FN = re.compile(r"(?:^[ \t]*#\[.*\]\n[ \t]*)*\b(?:pub(?:\([^)]*\))? )?(?:const )?fn (\w+)", re.M)
# What holds functions: an implementation or a trait, at the margin.
BLOCK = re.compile(r"^(?:pub(?:\([^)]*\))? )?(impl\b.*?|trait \w+.*?)\{$", re.M | re.S)


@dataclass(frozen=True)
class Function:
    file: str
    path: str  # as the prover names it, below the crate
    begin: int  # where its body stands in the file's text, from the end of its clauses on
    end: int


@dataclass(frozen=True)
class Edit:
    name: str
    pairs: tuple  # of a file, the old text and the new one
    fails: str  # the path that a line of the edit names, or nothing

    def applied(self, texts):
        """Returns the texts with the edit, or None where an old text does not stand there once."""
        texts = dict(texts)
        for file, old, new in self.pairs:
            if texts.get(file, "").count(old) != 1:
                return None
            texts[file] = texts[file].replace(old, new)
        return texts

    def reach(self, functions, texts):
        """Returns the paths of the functions whose bodies the edit changes, or None where it changes anything else."""
        reached = []
        for file, old, new in self.pairs:
            if texts[file].count(old) != 1:
                return None
            begin, end = changed_part(old, new)
            at = texts[file].find(old)
            inside = [it.path for it in functions if it.file == file and it.begin <= at + begin and at + end <= it.end]
            if not inside and "".join(old.split()) != "".join(new.split()):
                return None
            reached += inside
        return list(dict.fromkeys(reached))

    def target(self, reached):
        """Returns the function that is not to be proved: the one that is named, by the file's name where it reaches more."""
        front = self.name.partition("__")[0]
        named = [it for it in reached or () if front.endswith(f"_{it.rpartition('::')[2]}")]
        return self.fails or (named or reached or [None])[0]


def changed_part(old, new):
    """Returns the places in the old text between which the new one differs."""
    begin = len(os.path.commonprefix([old, new]))
    return begin, len(old) - len(os.path.commonprefix([old[begin:][::-1], new[begin:][::-1]]))


def read_edit(path):
    file, old, pairs, fails = "", "", [], ""
    with open(path, encoding="utf-8") as it:
        for line in it.read().split("\n"):
            key, _, text = line.partition(":")
            text = text.removeprefix(" ")
            if key == "file":
                file = text.strip()
            elif key == "old":
                old = text
            elif key == "new":
                pairs.append((file, old, text))
            elif key == "fails":
                fails = text.strip()
    return Edit(os.path.basename(path), tuple(pairs), fails)


def read_edits(crate):
    folder = f"{crate}/must-fail"
    return [read_edit(f"{folder}/{name}") for name in sorted(os.listdir(folder)) if name.endswith(".edit")]


def read_sources(crate):
    texts = {}
    for folder, _, names in os.walk(f"{crate}/src"):
        for name in filter(lambda it: it.endswith(".rt"), names):
            with open(f"{folder}/{name}", encoding="utf-8") as it:
                texts[os.path.relpath(f"{folder}/{name}", crate)] = it.read()
    return texts


def camel(words):
    """Returns a type as the prover names it within a path: `Option<&'a [u8]>` as `OptionRefSliceU8`, without its parameters."""
    words = re.sub(r"'\w+", "", words)
    words = re.sub(r"\[[^\[\];]*; *\w+\]", lambda it: f" Array {it[0][1:].partition(';')[0]} ", words)
    words = words.replace("[", " Slice ").replace("&", " Ref ")
    tuples = re.findall(r"\(([^()]*)\)", words)
    words = words.replace("(", f" Tuple{1 + tuples[0].count(',')} " if tuples else "")
    names = [it.rpartition("::")[2] for it in re.findall(r"[\w:]+", words)]
    return "".join(it[0].upper() + it[1:] for it in names if not re.fullmatch(r"mut|dyn|[A-Z]", it))


def block_name(head):
    """Returns what the prover calls an implementation or a trait, by its head."""
    if head.startswith("trait"):
        return re.match(r"trait (\w+)", head)[1]
    head = head.removeprefix("impl")
    if head.startswith("<"):
        depth = 0
        for at, sign in enumerate(head):
            depth += (sign == "<") - (sign == ">" and head[at - 1] != "-")
            if not depth:
                head = head[at + 1 :]
                break
    trait, _, implementor = re.split(r"\swhere\s", head)[0].rpartition(" for ")
    return camel(implementor) + camel(trait)


def bodies_of(text):
    """Returns of each function of the text its name, where it begins, and where its body begins and ends."""
    text = re.sub(r"/\*.*?\*/|//[^\n]*", lambda it: re.sub(r"[^\n]", " ", it[0]), text, flags=re.S)
    for head in FN.finditer(text):
        indent = re.match(r"[ \t]*", text[text.rfind("\n", 0, head.start(1)) + 1 :])[0]
        end = re.compile(rf"^{indent}\}}", re.M).search(text, head.end())
        whole = text[: end.start()] if end else ""
        # after clauses the brace stands alone, else at the end of the head
        begin = re.compile(rf"^{indent}\{{\n", re.M).search(whole, head.end()) or re.compile(r"\{\n").search(whole, head.end())
        if begin:
            yield head[1], head.start(), len(text[: begin.start()].rstrip()), end.start()


def functions_of(texts):
    """Returns the functions of these sources, as the prover names them."""
    found = []
    for file, text in texts.items():
        module = re.sub(r"^src/|\.rt$", "", file).replace("/", "::")
        within = [] if module in ("lib", "main") else [module]
        blocks = [(it.start(), text.find("\n}", it.end()), block_name(it[1])) for it in BLOCK.finditer(text)]
        for name, at, begin, end in bodies_of(text):
            around = [block for first, last, block in blocks if first < at < last]
            found.append(Function(file, "::".join([*within, *around[-1:], name]), begin, end))
    twice = {path for path, much in Counter(it.path for it in found).items() if much > 1}
    return [it for it in found if it.path not in twice]
