"""Programs that are made for the benchmarks in a temporary folder, and what their runs take."""

import os
import resource
import shutil
import subprocess
import sys

from made_network import ROOT, run


def write(path, text):
    os.makedirs(os.path.dirname(path), exist_ok=True)
    with open(path, "w", encoding="utf-8") as file:
        file.write(text)


def crates_below(used):
    """The lines of crates.txt of these crates and of all that they stand on."""
    lines = {}
    with open(os.path.join(ROOT, "crates.txt"), encoding="utf-8") as file:
        for line in file:
            if ":" in line and not line.startswith("#"):
                lines[line.split(":")[0]] = line
    below, wanted = set(), list(used)
    while wanted:
        name = wanted.pop()
        if name in lines and name not in below:
            below.add(name)
            wanted += lines[name].split(":")[1].split()
    return {name: line for name, line in lines.items() if name in below}


def proved_program(folder, name, files, used):
    """Proves and builds a program of these files over copies of the crates that it uses, and gives its path."""
    below = crates_below(used)
    write(os.path.join(folder, "crates.txt"), "".join(below.values()) + f"{name}: {' '.join(used)}\n")
    for crate in below:
        shutil.copytree(os.path.join(ROOT, "crates", crate), os.path.join(folder, "crates", crate))
    crate = os.path.join(folder, "crates", name)
    for path, text in files.items():
        write(os.path.join(crate, path), text)
    # Called without words it ends with status 1: what counts is that it was built.
    ran = subprocess.run(["rt", "run"], cwd=crate, capture_output=True, text=True)
    program = os.path.join(crate, "out", name)
    if not os.access(program, os.X_OK):
        sys.exit(f"{name} was not built\n" + ran.stdout + ran.stderr)
    return program


def plain_program(folder, name):
    """Builds the program in plain Rust of this name, plain/NAME.rs, and gives its path."""
    source, program = os.path.join(ROOT, "bench", "plain", f"{name}.rs"), os.path.join(folder, "plain")
    subprocess.run(["rustc", "--edition", "2021", "-C", "opt-level=3", "-o", program, source], check=True)
    return program


def measured(program, words, printed):
    """The seconds of processor, the peak bytes and the printed number of one run."""
    before = resource.getrusage(resource.RUSAGE_CHILDREN)
    status, _, megabytes = run(program, words, printed)
    after = resource.getrusage(resource.RUSAGE_CHILDREN)
    if status != 0:
        sys.exit(f"{program} {' '.join(words)}: status {status}")
    with open(printed, encoding="ascii") as file:
        number = int(file.read())
    return after.ru_utime + after.ru_stime - before.ru_utime - before.ru_stime, megabytes * 1024 * 1024, number


def least(program, words, printed, runs):
    """The least seconds and the least peak bytes of so many runs, and the printed number of the last."""
    all_runs = [measured(program, words, printed) for _ in range(runs)]
    return min(run[0] for run in all_runs), min(run[1] for run in all_runs), all_runs[-1][2]


def runs_of_call(usage):
    """How many runs the command line asks for, 5 where it does not say."""
    words = sys.argv[1:]
    if len(words) > 1 or not all(word.isdigit() and 1 <= int(word) <= 100 for word in words):
        sys.exit(f"usage: {usage}, 1 to 100 runs")
    return int(words[0]) if words else 5
