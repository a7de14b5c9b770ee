"""The rows of data as cases: the words of a call, its files, and the status and the text that are due.

The form of a row is told at the head of `.ci/rows`. The script `make` of a row is run, which makes input files."""

import mmap
import os
import shutil
import subprocess
import sys
import tempfile
from contextlib import contextmanager
from typing import NamedTuple

from second.common import Unread

PARTS = ("words", "stdout", "hex", "status", "changes", "make")
STATUSES = {"words": 1, "input": 2, "refused": 3}
LARGE = 2**26


class Files:
    """The input files of a row: those of a folder, some of them with another text."""

    def __init__(self, folder, others):
        self.folder, self.others = folder, others

    def read(self, name):
        """The bytes of a file."""
        if name in self.others:
            return self.others[name]
        path = os.path.join(self.folder, name)
        if name in PARTS or not os.path.isfile(path):
            raise Unread(name)
        with open(path, "rb") as file:
            large = os.path.getsize(path) > LARGE
            return mmap.mmap(file.fileno(), 0, access=mmap.ACCESS_READ) if large else file.read()


class Case(NamedTuple):
    """A call with what is due, in bytes; a text of None may be any."""

    what: str
    words: list
    files: Files
    status: int
    text: bytes | None


class Row:
    """A folder of rows, whose input files are in this folder once `make` ran."""

    def __init__(self, folder, room):
        self.folder, self.room = folder, room
        words = self.part("words")
        if words is None:
            raise ValueError("its words are missing")
        self.words = words.split(b"\n")[:-1]
        self.text, digits, status = (self.part(name) for name in ("stdout", "hex", "status"))
        if digits is not None:
            self.text = bytes.fromhex(digits.decode())
        self.status = 0 if status is None else int(status)

    def part(self, name):
        """The bytes of a part of the row, which its script may have made, or None where it is not there."""
        for path in (os.path.join(self.room, name), os.path.join(self.folder, name)):
            if os.path.exists(path):
                with open(path, "rb") as file:
                    return file.read()
        return None

    def cases(self):
        """The row, and each line of its changes."""
        changes = self.part("changes")
        if changes is None or self.text is not None:
            yield Case("", self.words, Files(self.room, {}), self.status, self.text or b"")
        if changes is not None:
            yield from self.changed_cases(changes.decode("utf-8").splitlines())

    def changed_cases(self, lines):
        """The cases of the lines of a file of changes."""
        target = next((word for word in map(os.fsdecode, self.words[1:]) if self.is_file(word)), None)
        for count, line in enumerate(lines, 1):
            if line.startswith("file "):
                target = line[5:]
            elif line and not line.startswith("#"):
                yield from self.line_cases(f"changes:{count}", target, line)

    def is_file(self, name):
        """Whether a word names an input file."""
        return name not in PARTS and os.path.isfile(os.path.join(self.room, name))

    def line_cases(self, what, target, line):
        """The cases of one line of changes."""
        left, _, due = line.rpartition(" => ")
        if target is None or not self.is_file(target):
            raise ValueError(f"{what}: there is no file to change")
        data = Files(self.room, {}).read(target)
        texts = cut(data, left) if line.startswith("cut ") else [changed(data, left)]
        status, text = self.due(due)
        for new in texts:
            yield Case(what, self.words, Files(self.room, {target: new}), status, text)

    def due(self, text):
        """The status and the text that are due where a line of changes ends so."""
        if text in ("well", "same"):
            return 0, None if text == "well" else self.text or b""
        if text.startswith("hex "):
            return 0, bytes.fromhex(text.removeprefix("hex "))
        return STATUSES.get(text.split(" ")[0], 0), f"{text}\n".encode()


def cut(data, words):
    """The texts that a line `cut A B` leaves of a file."""
    first, last = (int(word) for word in words.split(" ")[1:])
    if not 0 <= first <= last <= len(data):
        raise ValueError(f"no cuts: {words}")
    return [data[:length] for length in range(first, last + 1)]


def changed(data, changes):
    """The text of a file once each of these changes was made in it."""
    for change in changes.split(" & "):
        old, bar, new = (part.strip(" ").replace(";", "\n").encode() for part in f" {change} ".partition(" | "))
        if not bar or old not in data:
            raise ValueError(f"nothing to change: {change}")
        data = data.replace(old, new, 1) if old else new
    return data


@contextmanager
def row_of(folder):
    """A row whose files are all there while the context lasts."""
    if not os.path.exists(os.path.join(folder, "make")):
        yield Row(folder, folder)
        return
    with tempfile.TemporaryDirectory() as parent:
        room = shutil.copytree(folder, os.path.join(parent, "row"), ignore=shutil.ignore_patterns(*PARTS))
        subprocess.run([sys.executable, os.path.join(folder, "make")], cwd=room, timeout=60, check=True)
        yield Row(folder, room)
