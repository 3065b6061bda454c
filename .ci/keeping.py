"""What is kept on this machine, outside of clones: for each kit a copy of the repository with what rt made of it, and for each crate
which of its must-fail edits were refused."""
import filecmp
import os
import shutil
import subprocess

CACHE = os.environ.get("XDG_CACHE_HOME") or os.path.expanduser("~/.cache")
EDITS = f"{CACHE}/nidzovu-edits"


def kit_words():
    """Returns the words by which the kit names itself: its version, and the sum of its logic."""
    return subprocess.run(["rt", "version"], stdout=subprocess.PIPE, text=True, check=True).stdout.split()


def copy_of_kit():
    """Returns the folder of the copy of the repository that is kept for this kit."""
    return f"{CACHE}/nidzovu-{'-'.join(kit_words())}"


def files_below(top):
    """Returns the paths of the repository's files, without those that rt or git made and the must-fail edits."""
    found = set()
    for at, folders, names in os.walk(top):
        folders[:] = [it for it in folders if it not in (".git", "out", "must-fail", "__pycache__")]
        found.update(os.path.relpath(f"{at}/{name}", top) for name in names)
    return found


def mirror(top, to):
    """Makes a copy of the repository have its files as they stand, and no others but those that rt made of its crates."""
    os.makedirs(to, exist_ok=True)
    wanted = files_below(top)
    for path in files_below(to) - wanted:
        os.remove(f"{to}/{path}")
    for path in wanted:
        if not os.path.isfile(f"{to}/{path}") or not filecmp.cmp(f"{top}/{path}", f"{to}/{path}", shallow=False):
            os.makedirs(os.path.dirname(f"{to}/{path}"), exist_ok=True)
            shutil.copy2(f"{top}/{path}", f"{to}/{path}")
    for crate in os.listdir(f"{to}/crates"):
        if not os.path.isdir(f"{top}/crates/{crate}"):
            shutil.rmtree(f"{to}/crates/{crate}")
