"""What the scripts of the gate share: which program they run, how they call it, and how they tell what came of it.

Every script runs the program that the environment variable ATS_PROGRAM names, and where that is not set or empty the
one that `rt ci` left built. Each ends with the line `N passed, M failed`, and with the status 1 where M is not 0. A
script that found nothing to compare has shown nothing: what it counts has floors, and below one of them a case has
failed."""

import contextlib
import os
import shutil
import subprocess
import sys

ROOT = os.path.dirname(os.path.dirname(os.path.abspath(__file__)))
PROGRAM = os.path.abspath(os.environ.get("ATS_PROGRAM") or os.path.join(ROOT, "crates", "ats_cli", "out", "ats_cli"))
SCRIPT = os.path.basename(sys.argv[0])

# The exit statuses of the program that the scripts ask for.
DONE, INPUT, REFUSED, READ_FAILED, WRITE_FAILED, NO_MEMORY = 0, 2, 3, 4, 5, 6

# After so many seconds a call is ended, and its case has failed.
LAST_SECONDS = 60

# The most faults of one case that are printed.
MOST_FAULTS = 5

# What a case raises where a text is not of the form that it reads, or a call does not end.
UNREADABLE = (ArithmeticError, AssertionError, LookupError, OSError, ValueError, subprocess.SubprocessError)


def read(path, absent=b""):
    """The bytes of a file, or `absent` where it is not there."""
    try:
        with open(path, "rb") as file:
            return file.read()
    except FileNotFoundError:
        return absent


def due_in(folder, absent=b""):
    """The bytes that are due to a row of rows/, or `absent` where none are there."""
    digits = read(os.path.join(folder, "hex"), None)
    return read(os.path.join(folder, "stdout"), absent) if digits is None else bytes.fromhex(digits.decode())


def write(path, text):
    """Writes a file of this text."""
    with open(path, "w", encoding="ascii") as file:
        file.write(text)


def answer(*words, room=None):
    """The status and the bytes of a call of the program, in a folder where one is given."""
    ran = subprocess.run([PROGRAM, *words], cwd=room, capture_output=True, timeout=LAST_SECONDS, check=False)
    return ran.returncode, ran.stdout


def run(*words, room=None):
    """The status and the lines of a call of the program, in a folder where one is given."""
    status, text = answer(*words, room=room)
    return status, text.decode().splitlines()


def launcher_in(room):
    """The launcher as `install` puts it in place, below a folder, over the program: its path."""
    helpers = os.path.join(room, "libexec", "ats")
    os.makedirs(os.path.join(room, "bin"))
    shutil.copytree(os.path.join(ROOT, "tools", "reporting"), os.path.join(helpers, "reporting"))
    for name in ("hints.py", "table.py"):
        shutil.copy(os.path.join(ROOT, "launcher", name), helpers)
    os.symlink(PROGRAM, os.path.join(helpers, "ats_cli"))
    return shutil.copy(os.path.join(ROOT, "ats"), os.path.join(room, "bin", "ats"))


def numbers(*defaults):
    """The numbers that the words of the script's call give, with these where they are left out."""
    given = [int(word) for word in sys.argv[1:]]
    return given[: len(defaults)] + list(defaults[len(given) :])


def made_in(room, row):
    """Runs the script `make` of a row in a folder, where the row has one."""
    script = os.path.join(ROOT, "rows", row, "make")
    if os.path.exists(script):
        subprocess.run([sys.executable, script], cwd=room, timeout=LAST_SECONDS, check=True)


class Tally:
    """How many cases passed and failed. Each failed one is told with its faults as soon as it is known."""

    def __init__(self, runs_program=True):
        self.passed = self.failed = 0
        if runs_program and not os.access(PROGRAM, os.X_OK):
            self.add(f"{PROGRAM} is not built")
            self.end()

    @staticmethod
    def say(*lines):
        """Prints lines behind the name of the script."""
        for line in lines:
            print(f"{SCRIPT}: {line}", flush=True)

    def add(self, *faults):
        """Counts one case, which passed where there are no faults."""
        self.say(*faults)
        self.failed += bool(faults)
        self.passed += not faults

    @contextlib.contextmanager
    def case(self, what):
        """One case, which passed where nothing was appended to the list of its faults."""
        faults = []
        try:
            yield faults
        except UNREADABLE as fault:
            faults.append(f"no answer of the form that is due: {fault!r}"[:400])
        self.add(*(f"{what}: {fault}" for fault in faults[:MOST_FAULTS]))

    def floor(self, what, number, least):
        """Counts a failed case where fewer things were compared than have to be, at least one."""
        if number < max(1, least):
            self.add(f"{number} {what}, where {max(1, int(least))} are the least")

    def end(self, least=1):
        """Prints how many cases passed and failed, and ends the script; so many are the least, 0 where it said that
        it can try nothing."""
        if least:
            self.floor("cases", self.passed + self.failed, least)
        print(f"{self.passed} passed, {self.failed} failed", flush=True)
        sys.exit(self.failed > 0)
