"""How programs over the library for C are compiled and run, and whether libpq is here."""
import os
import shutil
import subprocess
import sys
from functools import cache

# The script that runs.
NAME = os.path.basename(sys.argv[0])
FLAGS = ["-std=c11", "-pedantic", "-Wall", "-Wextra", "-Werror"]
SANITIZERS = ["-fsanitize=address,undefined", "-fno-sanitize-recover=all"]


def fail(text):
    sys.exit(f"{NAME}: {text}")


def run(*words, **how):
    """Runs a command, and returns what it prints; its failure is one of the test."""
    ran = subprocess.run(words, stdout=subprocess.PIPE, stderr=subprocess.STDOUT, text=True, check=False, **how)
    if ran.returncode:
        fail(f"{' '.join(words)}: status {ran.returncode}\n{ran.stdout[-4000:]}")
    return ran.stdout


@cache
def has(program):
    """Returns whether a program is installed, and says once where it is not."""
    if not shutil.which(program):
        print(f"{NAME}: no {program}")
    return bool(shutil.which(program))


@cache
def has_sanitizers():
    words = ["gcc", *SANITIZERS, "-x", "c", "-", "-o", os.devnull]
    probe = subprocess.run(words, input="int main(void) { return 0; }", text=True, capture_output=True, check=False)
    if probe.returncode:
        print(f"{NAME}: gcc has no sanitizers here")
    return not probe.returncode


def try_program(path, *words, **how):
    """Compiles a program to that path and runs it: plainly, under valgrind, and with sanitizers where gcc has them."""
    run("gcc", *FLAGS, *words, "-O2", "-o", path)
    print(run(path, **how), end="", flush=True)
    if has("valgrind"):
        run("valgrind", "-q", "--error-exitcode=1", path, **how)
    if has_sanitizers():
        run("gcc", *FLAGS, *SANITIZERS, *words, "-O1", "-g", "-o", f"{path}-checked")
        run(f"{path}-checked", **how)


def libpq_words():
    """Returns the words by which gcc finds libpq, or none where its header is not installed."""
    if not has("pg_config"):
        return []
    header, library = (run("pg_config", it).strip() for it in ("--includedir", "--libdir"))
    return [f"-I{header}", f"-L{library}", "-lpq"] if os.path.isfile(f"{header}/libpq-fe.h") else []
