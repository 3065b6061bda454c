"""Names that documents have in backticks: files, edits, modules of specifications, and what the sources declare.

A name is judged by its form: a path, a file's name, an edit's, `Rattle.CRATE.specs.MODULE`, a path of Rust such as `Row::next`,
or a word with an underscore or with two capitals. Paths of Rust that begin with nothing of ours are not judged, nor are the
names of PostgreSQL's functions.
"""
import glob
import os
import re
from functools import cache

ANY_BLOCK = re.compile(r"^```.*?^```$", re.M | re.S)
TOKEN = re.compile(r"`([^`\n]+)`")
IN_PICTURE = re.compile(r'<text[^>]*\b(?:code|dim)"[^>]*>([^<]+)<')
PATH = re.compile(r"(?!\.\./|\.git/)[\w.-]+(?:/[\w.-]+)+/?")
FILE = re.compile(r"[\w-]+\.(?:rt|antt|edit|py|md|txt|svg|png)")
EDIT = re.compile(r"\w+?[a-z0-9]__\w+")
SPEC = re.compile(r"Rattle\.(\w+)\.(\w+)\.([\w.]+)")
RUST_PATH = re.compile(r"\w+(?:::\w+)+")
WORD = re.compile(r"[A-Za-z]\w*_\w+|[A-Z]\w*[a-z]\w*[A-Z]\w*")
OF_POSTGRES = re.compile(r"\w+(?:recv|send|_in|_out)")
COMMENT = re.compile(r"^\s*(?:--|//).*$", re.M)
# A line that declares a type or a trait, or implements one.
OWNER = re.compile(r"^(?:pub(?:\(\w+\))? )?(?:struct|enum|trait|type|impl\b.*?) (\w+)(?:<.*>)?(?: \{|;|\(|:|$)", re.M)
# Names of PostgreSQL, Rust and the kit that have the form of ours.
OTHERS = {"CRATES.md", "Timestamp::MIN", "Timestamp::MAX", "client_encoding", "extra_float_digits", "RT_JOBS", "BufReader", "MaybeUninit",
          "Value::to_vec"}
# Documents that name what is not here: what was, and what the Rust crate has.
OF_OTHERS = ["CHANGELOG.md", "docs/DIFFERENCES.md"]


def read(path):
    with open(path, encoding="utf-8", errors="replace") as it:
        return it.read()


@cache
def files():
    """Returns the files and folders of the repository, without what is built."""
    found = []
    for folder, folders, names in os.walk("."):
        folders[:] = [it for it in folders if it not in (".git", "out", "__pycache__")]
        found += [os.path.normpath(f"{folder}/{it}") for it in [*folders, *names]]
    return set(found)


@cache
def sources():
    """Returns the text of each source and specification without comments, and of each script, but for those whose own words are of
    documents, by its path."""
    wanted = re.compile(r"crates/\w+/(?:src|specs|proofs)/.*\.(?:rt|antt)|crates\.txt|check|"
                        r"(?:scripts|\.ci)/(?!names|counts|pictures)[\w.-]+|bench/.*\.rs")
    return {it: COMMENT.sub("", read(it)) for it in sorted(files()) if wanted.fullmatch(it) and os.path.isfile(it)}


@cache
def words():
    """Returns the words of the sources, and of the names of files and folders."""
    return set(re.findall(r"\w+", " ".join([*sources().values(), *files()])))


def ends_a_path(name):
    """Returns whether a path below crates ends so, with or without the ending of its file."""
    ends = tuple(f"/{name}{ending}" for ending in ("", ".rt", ".antt"))
    return any(it.endswith(ends) for it in files() if it.startswith("crates/"))


def has_path(path):
    """Returns whether a path is there: from the top, or of a crate's folders, or an end of such a one."""
    path = os.path.normpath(path)
    top, _, rest = path.partition("/")
    if not rest or top in ("crates", "docs", "examples", "include", "scripts", "bench", ".ci"):
        return path in files()
    if os.path.isdir(f"crates/{top}"):
        places = [f"crates/{top}{folder}/{rest}" for folder in ("", "/src", "/specs", "/proofs")]
        return any(f"{it}{ending}" in files() for it in places for ending in ("", ".rt", ".antt"))
    return ends_a_path(path)


@cache
def owners():
    """Returns of each name of a crate, a module or a type the paths of the sources in which it is declared or implemented."""
    found = {}
    for path, text in sources().items():
        if not path.endswith(".rt"):
            continue
        _, crate, _, *modules = path.removesuffix(".rt").split("/")
        for name in {crate, *modules, *OWNER.findall(text)}:
            found.setdefault(name, []).append(path)
    for old, new in re.findall(r"(\w+) as (\w+)\b", sources()["crates/postgres_types/src/lib.rt"]):
        found[new] = found[old]
    return found


@cache
def words_in(owner):
    """Returns the words of the sources in which that crate, module or type is, or nothing where none is ours."""
    return set(re.findall(r"\w+", " ".join(sources()[it] for it in owners().get(owner, []))))


def has_rust_path(path):
    """Returns whether each name of a path is among the words of what has the name before it, where that is ours."""
    names = path.split("::")
    pairs = [(words_in(owner), name) for owner, name in zip(names, names[1:])]
    return not pairs[0][0] or all(name in found for found, name in pairs)


def is_there(name, has_words):
    """Returns whether what a name names is there, which it is where its form is not judged."""
    if it := SPEC.fullmatch(name):
        folder, module = f"crates/{it[1]}/{it[2]}", it[3].replace(".", "/")
        is_passed_on = re.search(rf"\.{it[3]}$", sources().get(f"{folder}/Lib.antt", ""), re.M)
        return bool(is_passed_on) or f"{folder}/{module}.antt" in files()
    if EDIT.fullmatch(name.removesuffix(".edit")):
        # (the gate runs this in a copy without edits too)
        return not glob.glob("crates/*/must-fail") or bool(glob.glob(f"crates/*/must-fail/{name.removesuffix('.edit')}.edit"))
    if PATH.fullmatch(name.split(" ")[0]):
        return has_path(name.split(" ")[0])
    if FILE.fullmatch(name):
        return any(os.path.basename(it) == name for it in files())
    if RUST_PATH.fullmatch(name):
        return has_rust_path(name)
    return not (has_words and WORD.fullmatch(name)) or name in words() or bool(OF_POSTGRES.fullmatch(name))


def wrong_names(document):
    """Returns the names of a document, or of a picture, that name nothing."""
    text = read(document)
    names = IN_PICTURE.findall(text) if document.endswith(".svg") else TOKEN.findall(ANY_BLOCK.sub("", text))
    known = OTHERS | set(re.findall(r"\w+", " ".join(ANY_BLOCK.findall(text))))
    has_words = document not in OF_OTHERS
    return [it for it in dict.fromkeys(names) if it not in known and not is_there(it, has_words)]
