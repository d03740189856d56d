"""What the benchmarks share: runs of a program with their time and memory, and a plain program in C beside it.

It needs Python 3.9 or later.
"""
import os
import re
import shutil
import subprocess
import sys
from typing import NamedTuple

TOP = os.path.dirname(os.path.dirname(os.path.abspath(__file__)))
SCENARIOS = f"{TOP}/bench/scenarios"


class Run(NamedTuple):
    """What a run of a program printed, and what it used."""

    text: str
    # seconds of processor time
    seconds: float
    # the most memory that was in use at once, in megabytes; the system counts at least what this script itself uses, about 15
    memory: int


def run_once(words, folder):
    """Runs the program in the folder. A status other than 0 is no error: what the program refuses is timed too."""
    with subprocess.Popen(words, cwd=folder, stdout=subprocess.PIPE, stderr=subprocess.DEVNULL) as process:
        text = process.stdout.read()
        _, status, used = os.wait4(process.pid, 0)
        process.returncode = os.waitstatus_to_exitcode(status)
    if process.returncode < 0:
        sys.exit(f"{' '.join(words)} was ended by signal {-process.returncode}")
    return Run(text.decode(), used.ru_utime + used.ru_stime, (used.ru_maxrss + 1023) // 1024)


def timed(words, folder, times):
    """The run that took the least time of so many."""
    return min((run_once(words, folder) for _ in range(times)), key=lambda it: it.seconds)


def program_of(crate):
    """The program that is timed: the one that the first word names, else the proved program of the crate."""
    program = os.path.abspath(sys.argv[1] if len(sys.argv) > 1 else f"{TOP}/crates/{crate}/out/{crate}")
    if not os.path.exists(program):
        sys.exit(f"{program} isn't there: run `rt run` in crates/{crate}, or name another program")
    return program


def listed_scenarios():
    """The scenarios of bench/scenarios with their options, as the table of its README.md has them."""
    with open(f"{SCENARIOS}/README.md", encoding="utf-8") as it:
        rows = re.findall(r"^\| (\w+) \|(.*)\|$", it.read(), re.M)
    found = {name: words.replace("`", "").split() for name, words in rows if name != "File"}
    files = {it[:-len(".osc")] for it in os.listdir(SCENARIOS) if it.endswith(".osc")}
    if files != set(found):
        sys.exit(f"bench/scenarios/README.md lists other files than there are: {' '.join(sorted(files ^ set(found)))}")
    return found


def plain_program(name, folder):
    """Compiles bench/NAME.c into the folder. None, after a message, if no C compiler can do so."""
    compiler = next((it for it in ("clang", "cc", "gcc") if shutil.which(it)), None)
    if compiler is None:
        print("no clang, cc or gcc on the path: the plain loops are left out")
        return None
    program = f"{folder}/{name}"
    built = subprocess.run([compiler, "-O2", "-o", program, f"{TOP}/bench/{name}.c"], check=False)
    if built.returncode != 0:
        print(f"{compiler} doesn't build bench/{name}.c: the plain loops are left out")
        return None
    return program
