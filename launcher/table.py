"""Makes a table for people of a text of `ats`: table.py COMMAND <TEXT

COMMAND is bound, check, explain, generate, `lrq bound` or `lrq check`, in one word, whose text stands on the standard
input. Times become microseconds and shares of a second percent. All numbers are the program's, and what is rounded is
rounded to the side on which a reader is safe. A line `input`, `refused` or `words` is printed as it stands. The status
is 0, 5 where the table could not be written, and 8 where the text is none of the command. What is printed here is a
help for people and nothing proved."""

import os
import re
import sys

HERE = os.path.dirname(os.path.realpath(__file__))
sys.dont_write_bytecode = True
FOLDERS = [os.path.join(HERE, "reporting"), os.path.join(os.path.dirname(HERE), "tools", "reporting")]
sys.path.insert(0, next(filter(os.path.isdir, FOLDERS), FOLDERS[0]))

from figures import down, up  # noqa: E402
from texts import explained_of  # noqa: E402

WRITE_FAILED, NO_TABLE = 5, 8

# How an answer begins that is no text of a command.
REFUSALS = ("input ", "refused ", "words")

# What is said where a stream has several listeners, whose hops up to where its copies part stand once.
SHARED = "; hops that listeners share stand at the first"

NOTE = "# Rounded {}. Not proved: the exact numbers are what ats {} prints."


class Table:
    """A table: its columns, of which some are texts, and its rows, of cells that are never empty."""

    def __init__(self, columns, texts):
        self.columns, self.texts, self.rows = columns, texts, []

    def add(self, *cells):
        """Adds a row."""
        self.rows.append([str(cell) for cell in cells])

    def lines(self):
        """The lines of the table: texts begin below each other, and numbers end so."""
        rows = [self.columns, *self.rows]
        widths = [max(map(len, column)) for column in zip(*rows)]
        return ["  ".join(map(self.cell, range(len(widths)), row, widths)).rstrip() for row in rows]

    def cell(self, place, text, width):
        """A cell as wide as its column."""
        return text.ljust(width) if self.columns[place] in self.texts else text.rjust(width)


def percent_up(part, whole):
    """A part of a whole as percent, rounded up at the third place."""
    thousandths = -(-part * 100_000 // whole)
    return f"{thousandths // 1000}.{thousandths % 1000:03d}"


def load(ps):
    """Picoseconds of each second as percent, rounded up."""
    return percent_up(ps, 10**12)


def label(words):
    """Whose line it is: a stream, and its listener where it has several."""
    return "/".join(words)


def table_of_bound(lines):
    """The rows of a certificate, in its order, and how they are rounded."""
    columns = ["port", "class", "higher_%", "equal_%", "bursts_bits", "lower_bits", "least_bits", "wait_us", "bound_us"]
    table = Table(columns, ["port"])
    for line in lines[1:]:
        port, cls, higher, equal, bursts, lower, least, wait, bound = line.split(",")
        table.add(port, cls, load(int(higher)), load(int(equal)), bursts, lower, least, up(int(wait)), up(int(bound)))
    return [table.lines()], "up"


def table_of_check(lines):
    """The bound of each hop with its stream, and the sums, which have no port."""
    table, accepted = Table(["stream", "port", "bound_us"], ["stream", "port"]), []
    for words in map(str.split, lines):
        if words[0] == "hop":
            table.add(label(words[1:-2]), words[-2], up(int(words[-1])))
        elif words[0] == "sum":
            table.add(label(words[1:-1]), "sum", up(int(words[-1])))
        else:
            accepted.append(" ".join(words))
    return [table.lines(), accepted], "up" + (SHARED if any("/" in row[0] for row in table.rows) else "")


def streams_of(sums):
    """The table of the streams, of which the one with the least left comes first."""
    table = Table(["stream", "sum_us", "deadline_us", "slack_us"], ["stream"])
    for it in sums:
        table.add(label(it.label.split()), up(it.sum), down(it.deadline), down(it.left))
    return table


def hops_of(sums):
    """The table of the hops, each with its stream."""
    columns = ["stream", "port", "class", "lower_us", "sender", "bursts_us", "higher_us", "frame_us", "latency_us"]
    table = Table([*columns, "bound_us", "stay_us", "residence_us"], ["stream", "port", "sender"])
    for it in sums:
        for hop in it.hops:
            parts = [up(part) for part in (hop.bursts, hop.higher, hop.frame, hop.latency, hop.bound)]
            over = "!" if hop.stay is not None and hop.stay > hop.residence else ""
            stay = ["-", "-"] if hop.stay is None else [up(hop.stay) + over, down(hop.residence)]
            table.add(label(it.label.split()), hop.port, hop.cls, up(hop.lower), hop.sender, *parts, *stay)
    return table


def table_of_explain(lines):
    """The streams, their hops, the loads of the ports, and the counts of the last line."""
    explained = explained_of(lines)
    sums = sorted(explained.sums, key=lambda it: it.left)
    loads = Table(["port", "load_%"], ["port"])
    for port, ps in sorted(explained.loads.items(), key=lambda it: -it[1]):
        loads.add(port, load(ps))
    total = explained.total
    counts = f"{total.streams} streams, {total.late} late, {total.over} stays over a residence"
    rounded = "up, but deadlines, residences and slack down; slack below 0 is late"
    rounded += "; ! is a stay over its residence" if total.over else ""
    rounded += SHARED if any(" " in it.label for it in sums) else ""
    return [streams_of(sums).lines(), hops_of(sums).lines(), loads.lines(), [counts]], rounded


def table_of_generate(lines):
    """What came of each sender's frames. The one that came closest to its bound comes first."""
    columns = ["sender", "frames", "sunk", "late", "size", "worst_us", "bound_us", "worst_%"]
    table, found = Table(columns, ["sender"]), []
    for words in map(str.split, lines[:-1]):
        at = len(words) - 12  # names may be words of the text, too
        counts, worst, bound = words[at + 1 : at + 8 : 2], int(words[at + 9]), words[at + 11]
        shown = [up(int(bound)), percent_up(worst, int(bound))] if bound != "-" else ["-", "-"]
        cells = (label(words[1:at]), *counts, up(worst), *shown)
        found.append((-worst / int(bound) if bound != "-" else 1, cells))
    for _, cells in sorted(found, key=lambda it: it[0]):
        table.add(*cells)
    return [table.lines(), [lines[-1]]], "up"


TABLES = {
    "bound": table_of_bound,
    "check": table_of_check,
    "explain": table_of_explain,
    "generate": table_of_generate,
    "lrq bound": table_of_bound,
    "lrq check": table_of_check,
}


def made(command, text):
    """The table of a text of a command."""
    lines = text.splitlines()
    if not lines or text.startswith(REFUSALS):
        return text
    parts, rounded = TABLES[command](lines)
    parts = [[NOTE.format(rounded, command)], *(part for part in parts if part)]
    return "\n\n".join("\n".join(part) for part in parts) + "\n"


def main(command):
    """Makes the table. Gives the exit status."""
    try:
        table = made(command, sys.stdin.buffer.read().decode("utf-8", "replace"))
    except (ArithmeticError, LookupError, ValueError, StopIteration):
        return NO_TABLE
    if sys.stdout.isatty():
        table = re.sub(r"[^\n -~]", "?", table)
    try:
        sys.stdout.buffer.write(table.encode())
        sys.stdout.flush()
    except OSError:
        os.dup2(os.open(os.devnull, os.O_WRONLY), 1)
        return WRITE_FAILED
    return 0


if __name__ == "__main__":
    sys.exit(main(*sys.argv[1:]))
