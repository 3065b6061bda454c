"""The public items of a crate's sources: their signatures, and the first sentences of their `///` comments.

The sources are as `rt fmt` lays them out: an item begins at the margin, and what it holds four columns to the right.
"""
import os
import re
from dataclasses import dataclass, field

# What begins an item, after its margin.
ITEM = r"^{margin}(?:pub (?:const )?(?:fn|struct|enum|trait|type|const) |macro_rules! )(\w+)"
# What ends a function's signature: a clause, a body, or the `;` of a trait's function.
SIGNATURE_END = re.compile(r"\s*(?:\n\s*(?:where|requires|ensures|decreases)\b|\{\s*$|;$)", re.M)
INHERENT = re.compile(r"^impl(?:<[^{\n]*?>)? (\w+)(?:<[^{\n]*>)?(?:\nwhere\n[^{]*?)? ?\{\n(.*?)^\}", re.M | re.S)
TRAIT_ITEM = re.compile(r"^    (?:ghost (\w+)|fn (\w+)|type (\w+))", re.M)
VARIANT = re.compile(r"^    ([A-Z]\w*(?:\(.*\)| \{[^}]*\})?),$", re.M)
PUBLIC_FIELD = re.compile(r"^    pub (\w+: .*),$", re.M)
# What else a type implements that a caller would look for.
IMPLEMENTED = re.compile(r"^impl(?:<[^{\n]*?>)? (?:\w+::)*((?:Display|FromStr|Ord|From<[^<>]*>)) for (\w+)", re.M)
# So many characters of a sentence are long.
LONG = 72
LINK = re.compile(r"\[(`[^`]*`)\](?:\([^)]*\)|\[[^\]]*\])?")


@dataclass
class Item:
    name: str
    signature: str
    sentence: str
    file: str
    within: list = field(default_factory=list)


def read(path):
    with open(path, encoding="utf-8") as it:
        return it.read()


def first_sentence(comment):
    """Returns the first sentence of a comment, without the links of its names; of a long one what stands before a colon or a
    semicolon."""
    paragraph = LINK.sub(r"\1", " ".join(comment.strip().split("\n\n")[0].split()))
    sentence = re.match(r".*?[.](?= [A-Z`]|$)|.*", paragraph)[0]
    return sentence if len(sentence) <= LONG else re.split(r"[:;] ", sentence)[0].removesuffix(".") + "."


def comment_above(text, at):
    """Returns the `///` comment that stands above a place, and the attributes between."""
    lines, comment, attributes = text[:at].split("\n")[:-1], [], []
    while lines:
        line = lines.pop().strip()
        if line.startswith("///"):
            comment.insert(0, line[3:].strip())
        elif comment or not (line.startswith("#[") or line.endswith(")]")):
            break
        else:
            attributes.append(line)
            while not line.startswith("#["):
                line = lines.pop().strip()
    return "\n".join(comment), attributes


def flat(signature):
    """Returns a signature on one line."""
    signature = " ".join(signature.split()).replace("( ", "(").replace(", )", ")").replace(", }", " }")
    return re.sub(r"\bpub |\b_(?=alloc: )", "", signature)


def signature_of(text, at):
    """Returns the signature of the item that begins at that place of the text."""
    line = text[at : text.find("\n", at)]
    if " fn " in f" {line}":
        return flat(text[at : SIGNATURE_END.search(text, at).start()])
    if line.startswith("macro_rules!"):
        return line.split()[1] + "!"
    if line.startswith(("pub const", "pub type")):
        return flat(line.partition(" = ")[0] if line.startswith("pub const") else line.rstrip(";"))
    if line.startswith(("pub struct", "pub enum")) and line.endswith("{"):
        body = text[at : text.find("\n}", at)]
        parts = (PUBLIC_FIELD if line.startswith("pub struct") else VARIANT).findall(re.sub(r"^ *///.*\n", "", body, flags=re.M))
        return flat(line[:-1] + ("{ " + ", ".join(parts) + " }" if parts else ""))
    if line.startswith("pub struct"):
        whole = text[at : text.find(";\n", at)]
        return flat(whole if "(pub " in whole or "\n    pub " in whole else whole.partition("(")[0])
    return flat(re.split(r" \{|;$", line)[0])


def items_of(text, file, margin=""):
    """Returns the public items that begin at that margin, in their order."""
    found = []
    for it in re.finditer(ITEM.format(margin=margin), text, re.M):
        comment, attributes = comment_above(text, it.start())
        if "macro_rules!" in it[0] and "#[macro_export]" not in attributes:
            continue
        at = it.start() + len(margin)
        item = Item(it[1], signature_of(text, at), first_sentence(comment), file)
        if item.signature.startswith("trait "):
            item.within = trait_items(text[at : text.find("\n}", at)], file)
        found.append(item)
    return found


def trait_items(body, file):
    """Returns the members of a trait: its functions and types by their signatures, and ghost members, laws too, by their names."""
    found, ghosts = [], []
    for it in TRAIT_ITEM.finditer(body):
        if it[1]:
            ghosts.append(f"`{it[1]}`")
            continue
        signature = signature_of(body + ";", it.start() + 4) if it[2] else f"type {it[3]}"
        found.append(Item(it[2] or it[3], signature, first_sentence(comment_above(body, it.start())[0]), file))
    ghosts = [it for it in ghosts if it != "`use`"]
    return [*found, Item("", "", "ghost members: " + ", ".join(ghosts), "")] if ghosts else found


def file_of(crate, module):
    """Returns the file of a module of a crate."""
    return f"crates/{crate}/src/{'/'.join(module) or 'lib'}.rt"


def members_of(crate):
    """Returns of each type of a crate the functions and constants of its own implementations, and traits, in all files."""
    found, traits = {}, {}
    for folder, folders, names in os.walk(f"crates/{crate}/src"):
        folders.sort()
        for name in sorted(names):
            file = f"{folder}/{name}"
            text = read(file)
            for block in INHERENT.finditer(text):
                found.setdefault(block[1], []).extend(items_of(block[2], file, "    "))
            for trait, of in IMPLEMENTED.findall(text):
                traits.setdefault(of, []).append(f"`{trait}`")
    for of, names in traits.items():
        found.setdefault(of, []).append(Item("", "", "implements " + ", ".join(dict.fromkeys(names)), ""))
    return found
