"""Programs that scripts/bench runs: how long they take, what they print, and what valgrind counts of them."""
import os
import re
import subprocess
import sys
from dataclasses import dataclass
from itertools import zip_longest

TOP = os.path.dirname(os.path.dirname(os.path.abspath(__file__)))
ROUNDS = 5
# What a turn frees stays with the process. Else the C library gives the end of its heap and its largest blocks back to the system
# after each turn, or does not, by how they lie, and the next turn's time is that of fresh pages.
KEEPS_MEMORY = {"GLIBC_TUNABLES": f"glibc.malloc.trim_threshold={2**64 - 1}:glibc.malloc.mmap_max=0"}


@dataclass(frozen=True)
class Work:
    """What a program is asked to do: by words, and by a file that it reads."""
    words: tuple = ()
    source: str = os.devnull


@dataclass(frozen=True)
class Program:
    path: str
    words: tuple = ()  # those that come before the work's

    def command(self, work):
        return [self.path, *self.words, *work.words]

    def done(self, work, is_kept=True):
        """Does the work: what the process used, and what it printed where that is kept."""
        with open(work.source, "rb") as source:
            sink = subprocess.PIPE if is_kept else subprocess.DEVNULL
            child = subprocess.Popen(self.command(work), stdin=source, stdout=sink, env={**os.environ, **KEEPS_MEMORY})
        printed = child.stdout.read() if is_kept else b""
        _, status, usage = os.wait4(child.pid, 0)
        child.returncode = os.waitstatus_to_exitcode(status)
        if child.returncode:
            sys.exit(f"bench: {' '.join(self.command(work))} failed")
        return usage, printed

    def run(self, work, is_kept=True):
        """Does the work: the processor time of the process in nanoseconds, and what it printed where that is kept."""
        usage, printed = self.done(work, is_kept)
        return (usage.ru_utime + usage.ru_stime) * 1e9, printed

    def resident(self, work):
        """Does the work: the most bytes that the process had resident."""
        with open(work.source, "rb") as source:
            ran = subprocess.run(timed(self.command(work)), stdin=source, stdout=subprocess.DEVNULL,
                                 stderr=subprocess.PIPE, check=True)
        return used(ran.stderr)[1]

    def instructions(self, work):
        """Returns how many instructions valgrind counts in the work."""
        cachegrind = ["--tool=cachegrind", "--cache-sim=no", "--cachegrind-out-file=/dev/null"]
        report = said_of(["valgrind", *cachegrind, *self.command(work)], source=work.source)
        return number(r"I\s+refs:\s+([\d,]+)", report)


def timed(command):
    """The command under `time`: of a process that Python starts, the system counts Python's own memory too."""
    if not os.path.exists("/usr/bin/time"):
        sys.exit("/usr/bin/time is not there; Debian's package time has it")
    return ["/usr/bin/time", "-f", "%U %S %M", *command]


def used(report):
    """Returns the processor seconds and the most resident bytes that `time` reports at the end."""
    user, system, kilobytes = report.split()[-3:]
    return float(user) + float(system), int(kilobytes) * 1024


def said_of(command, folder=TOP, source=os.devnull):
    """Runs a command on a file, and answers what it wrote; a failure ends the script."""
    with open(source, "rb") as lines:
        ran = subprocess.run(command, cwd=folder, stdin=lines, capture_output=True, text=True, check=False)
    if ran.returncode:
        sys.exit(f"{ran.stdout}{ran.stderr}bench: {' '.join(command)} failed")
    return ran.stdout + ran.stderr


def number(pattern, text):
    return int(re.search(pattern, text)[1].replace(",", ""))


def compare(name, printed):
    """Ends the script at the first line that one program printed and the other did not."""
    if len(set(printed)) > 1:
        lines = zip_longest(*(text.split(b"\n") for text in printed))
        ours, *others = next(pair for pair in lines if len(set(pair)) > 1)
        sys.exit(f"bench: {name}: {ours!r}, and by what it is compared with {others!r}")


def measured(programs, work, is_kept=True):
    """Does the work by each program in turn: the least times, and what each printed last."""
    times, printed = [[] for _ in programs], [b""] * len(programs)
    for _ in range(ROUNDS):
        for place, program in enumerate(programs):
            time, printed[place] = program.run(work, is_kept)
            times[place].append(time)
    return [min(each) for each in times], printed


def times_of(programs, once, often, turns, is_kept=True):
    """Returns the time of a turn by each program, without that of a run of one turn, and what they printed."""
    base, _ = measured(programs, once, is_kept)
    times, printed = measured(programs, often, is_kept)
    return [(whole - one) / turns for whole, one in zip(times, base)], printed


def least_times(passes):
    """Returns the least time of each program, of those that each pass has of them."""
    return [min(each) for each in zip(*passes)]


def instructions_of(program, once, often, turns):
    """Returns the instructions of a turn."""
    return (program.instructions(often) - program.instructions(once)) / turns


def shown(count, digits):
    return "-" if count is None else f"{count:,.{digits}f}"


def table(columns, rows):
    """Prints the table of the rows, as each is measured."""
    load = os.getloadavg()[0]
    print(f"| {' | '.join(columns)} |\n{'|---' * len(columns)}|")
    for line in rows:
        print(line, flush=True)
    print(f"\n{os.cpu_count()} processors; load {load:.1f} before, {os.getloadavg()[0]:.1f} after.")
