"""Calls of the program, and what came of them."""

import os
import subprocess
import tempfile
from typing import NamedTuple

DONE, WORDS, INPUT, REFUSED = 0, 1, 2, 3


# What the launcher says of where the reason of a refusal stands, which is no matter here.
WHERE = "ats: the reason stands on standard output"


class Answer(NamedTuple):
    """The exit status of a call, the lines that it printed, and what it said on standard error."""

    status: int
    lines: list
    said: str


class Stopped(Exception):
    """A call after which nothing can be shown; it has the answer."""

    def __init__(self, answer):
        super().__init__(answer.status)
        self.answer = answer


class Program:
    """The program `ats`. ATS_PROGRAM names one; else the launcher beside the tools is called, which builds the program
    where it has to, and the program behind it from then on."""

    def __init__(self, top):
        self.named = os.environ.get("ATS_PROGRAM")
        places = ((f"{top}/ats", f"{top}/crates/ats_cli/out/ats_cli"), (f"{top}/bin/ats", f"{top}/libexec/ats/ats_cli"))
        self.launcher, self.behind = next((it for it in places if os.path.isfile(it[0])), places[1])
        self.was_built = False

    def call(self, program, words):
        """Runs a program with these words."""
        try:
            ran = subprocess.run([program, *words], stdin=subprocess.DEVNULL, capture_output=True, check=False)
        except OSError as fault:
            return Answer(8, [], f"{program}: {fault.strerror}\n")
        status = ran.returncode if ran.returncode >= 0 else 128 - ran.returncode
        return Answer(status, ran.stdout.decode("utf-8", "replace").splitlines(), ran.stderr.decode("utf-8", "replace"))

    def ask(self, *words):
        """What the program answers. Where it is not Done, the launcher says on standard error what it means."""
        if self.named:
            return self.call(self.named, words)
        if self.was_built:
            answer = self.call(self.behind, words)
            if answer.status == DONE:
                return answer
        self.was_built = True
        answer = self.call(self.launcher, words)
        said = [line for line in answer.said.splitlines(keepends=True) if not line.startswith(WHERE)]
        return answer._replace(said="".join(said))

    def ask_quietly(self, *words):
        """What the program answers, without the launcher: for words that it may not know."""
        return self.call(self.named or self.behind, words)

    def version(self):
        """Which program this is, or nothing."""
        answer = Answer(WORDS, [], "") if self.named else self.call(self.launcher, ["--version"])
        return answer.lines[0] if answer.status == DONE and answer.lines else ""


def lasting(word, room):
    """The name of a file that can be read several times: this one, or a copy of what a pipe gives."""
    if os.path.isfile(word) or os.path.isdir(word) or not os.path.exists(word):
        return word
    with open(word, "rb") as pipe, tempfile.NamedTemporaryFile(dir=room, delete=False) as copy:
        copy.write(pipe.read())
    return copy.name
