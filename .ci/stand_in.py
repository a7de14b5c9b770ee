"""A program that answers as the real one, but wrongly in one way: stand_in.py WRONG PROGRAM WORD..

WRONG is a key of ASKS or WRONGS below; `none` changes nothing. `wrong_programs` runs the scripts of the gate over
it."""

import os
import re
import subprocess
import sys

# What waits are lowered by, and above which they are, in picoseconds.
LESS, ABOVE = 1000, 2000


def call(program, words):
    """The status of the real program, and what it printed."""
    ran = subprocess.run([program, *words], stdout=subprocess.PIPE, check=False)
    return ran.returncode, ran.stdout.decode("utf-8", "surrogateescape")


def is_about(words, *verbs):
    """Whether the words are of one of these commands."""
    return words[:1] and words[0] in verbs


def without_frames(words, status, text):
    """Runs of no frames."""
    if not is_about(words, "replay", "capture"):
        return status, text
    counts = [line for line in text.splitlines() if line.startswith("records ")]
    return status, "\n".join(["total frames 0 sunk 0 late 0 size 0", *counts]) + "\n"


def without_releases(words, status, text):
    """Captures of no releases, with the right counts."""
    lines = text.splitlines(keepends=True)
    return status, lines[-1] if is_about(words, "capture") and lines else text


def always_refused(words, status, text):
    """A `bound` that refuses everything."""
    return (3, "refused overloaded s0>b0 1 1000000000001\n") if is_about(words, "bound") else (status, text)


def always_accepted(words, status, text):
    """A `check` that refuses nothing."""
    return (0, "accepted 1\n") if is_about(words, "check") and status == 3 else (status, text)


def never_late(words, status, text):
    """Sums of `check` that are ten times as long, so that each run is within them."""
    if not is_about(words, "check"):
        return status, text
    return status, re.sub(r"^((?:hop \S+|sum) \S+ \d+)$", r"\g<1>0", text, flags=re.M)


def never_full(words, status, text):
    """A `buffers` in whose runs no port holds anything."""
    return status, re.sub(r" peak \d+$", " peak 0", text, flags=re.M) if is_about(words, "buffers") else text


def always_conforming(words, status, text):
    """A `conform` to which all releases conform."""
    return (0, "conforms 12\n") if is_about(words, "conform") else (status, text)


def latest_excess(words, status, text):
    """A `conform` that names the broken frame twice in place of the one from which on it breaks."""
    return status, re.sub(r"bucket \d+ (\d+)", r"bucket \1 \1", text)


def worst_of_nothing(words, status, text):
    """Summaries in which no frame took any time."""
    return status, re.sub(r"worst \d+", "worst 0", text)


def worst_one_less(words, status, text):
    """Summaries whose longest delays are less by one."""
    return status, re.sub(r"worst (\d+)", lambda found: f"worst {int(found[1]) - 1}", text)


def one_less(words, status, text):
    """The last number of each line is less by one."""
    return status, re.sub(r"\b([1-9]\d*)$", lambda found: str(int(found[1]) - 1), text, flags=re.M)


def always_admitted(words, status, text):
    """An `admit` that answers each request in the same way."""
    return status, re.sub(r"^denied (\S+) .*$", r"withdrawn \1", text, flags=re.M) if is_about(words, "admit") else text


def sums_one_less(words, status, text):
    """An `admit` whose sums are less by one."""
    named = r"^(admitted \S+ \d) (\d+)$"
    return status, re.sub(named, lambda found: f"{found[1]} {int(found[2]) - 1}", text, flags=re.M)


def never_over(words, status, text):
    """A `fit` by which nothing is over what is declared."""
    return status, re.sub(r" over \d+$", " over 0", text, flags=re.M) if is_about(words, "fit") else text


def bursts_one_less(words, status, text):
    """A `fit` whose bursts are less by one."""
    less = re.sub(r" burst ([1-9]\d*) of", lambda found: f" burst {int(found[1]) - 1} of", text)
    return status, less if is_about(words, "fit") else text


def always_tight(words, status, text):
    """A `witness` that prints the bound as the delay."""
    named = r"^(witness \S+(?: \S+)? delay) \d+ (bound (\d+) gap) \d+$"
    return status, re.sub(named, r"\1 \3 \2 0", text, flags=re.M) if is_about(words, "witness") else text


def without_rivals(words, status, text):
    """A `witness` that leaves the last release out."""
    return status, re.sub(r"^release .*\n(?=witness)", "", text, flags=re.M) if is_about(words, "witness") else text


def octets_whole(words, status, text):
    """A `record` whose original lengths count the check sequence."""
    data, at = bytearray(text.encode("utf-8", "surrogateescape")), 24
    while is_about(words, "record") and status == 0 and at < len(data):
        length = int.from_bytes(data[at + 12 : at + 16], "little") + 4
        data[at + 12 : at + 16] = length.to_bytes(4, "little")
        at += 16 + data[at + 8]
    return status, bytes(data).decode("utf-8", "surrogateescape")


def status_of_success(words, status, text):
    """The status is always 0."""
    return 0, text


def nothing_printed(words, status, text):
    """Nothing is printed, and the status is 0."""
    return 0, ""


def read_as_done(words, status, text):
    """A file that cannot be read counts as an empty one."""
    return (0, "") if status == 4 else (status, text)


def routes_back(words, status, text):
    """Paths in which the last two ports change places, or where there is one port, it and what stands before it."""
    return status, re.sub(r"^((?:stream|listener|flow) .*?) (\S+) (\S+)$", r"\1 \3 \2", text, flags=re.M)


def arrivals_late(words, status, text):
    """Runs in which each frame arrives at its listener a picosecond later."""
    return status, re.sub(r"^sink (\d+)$", lambda found: f"sink {int(found[1]) + 1}", text, flags=re.M)


# What a run tells of a copy: its listener and its hops, and then when it arrives.
COPY = re.compile(r"^(listener \S+\n(?:hop .*\n)*)sink (\d+)$", re.M)


def copies_late(words, status, text):
    """Runs in which each frame arrives at its further listeners a picosecond later."""
    return status, COPY.sub(lambda found: f"{found[1]}sink {int(found[2]) + 1}", text)


def copies_lost(words, status, text):
    """Runs in which no frame arrives at its further listeners."""
    return status, COPY.sub(r"\1discard", text)


def shifted_row(line, by):
    """A row of a certificate with this more of wait and bound, where the wait is a long one."""
    fields = line.split(",")
    if len(fields) == 9 and fields[7].isdigit() and int(fields[7]) > (ABOVE if by < 0 else ABOVE - LESS):
        fields[7:] = [str(int(number) + by) for number in fields[7:]]
    return ",".join(fields)


def other_file(name, change):
    """A copy of a file with this change in its text."""
    with open(name, encoding="ascii") as file:
        text = change(file.read())
    with open(f"{name}.other", "w", encoding="ascii") as file:
        file.write(text)
    return f"{name}.other"


def shifted_text(text):
    """A network file whose residences are a nanosecond longer, or a certificate whose waits are."""
    text = re.sub(r"residence_ns = (\d+)", lambda found: f"residence_ns = {int(found[1]) + 1}", text)
    return "\n".join(shifted_row(line, LESS) for line in text.split("\n"))


def short_waits(program, words):
    """Each wait above 2 ns is 1 ns too small, in `bound` and `check` alike, and so what is printed of residences."""
    if not is_about(words, "bound", "check"):
        return call(program, words)
    status, text = call(program, [words[0], *(other_file(name, shifted_text) for name in words[1:])])
    text = "\n".join(shifted_row(line, -LESS) for line in text.split("\n"))
    if status == 3:
        named = r"(refused (?:wait|residence) .*) (\d+)$"
        text = re.sub(named, lambda it: f"{it[1]} {int(it[2]) - LESS}", text, flags=re.M)
    return status, text


def slow_links(program, words):
    """Links of 5, 40 and 50 Gb/s count as such of 2.5 Gb/s, but for `show`."""
    verbs = "bound explain check buffers conform replay capture generate admit record witness releases fit".split()
    if is_about(words, *verbs):
        rate = r"^mbps = (5000|40000|50000)$"
        words = (words[0], other_file(words[1], lambda text: re.sub(rate, "mbps = 2500", text, flags=re.M)), *words[2:])
    return call(program, words)


def clocks_passed_over(program, words):
    """Clocks that bridges declare count for nothing, as if each showed true time."""
    with_clocks = [name for name in words if name.endswith(".toml")]

    def without(text):
        return re.sub(r"^clock_(ppm|step_ps) = .*\n", "", text, flags=re.M)

    return call(program, [other_file(word, without) if word in with_clocks else word for word in words])


def orders_early(program, words):
    """A `capture` whose order is `early`, whatever is asked."""
    return call(program, (*words[:-1], "early") if is_about(words, "capture") else words)


def records_early(program, words):
    """A `record` whose order is `early`, whatever is asked."""
    return call(program, (*words[:3], "early", *words[4:]) if is_about(words, "record") else words)


def seeds_as_1(program, words):
    """A `generate` to which all seeds but the least and the greatest are the seed 1."""
    if is_about(words, "generate") and words[2] not in ("0", str(2**64 - 1)):
        words = (*words[:2], "1", *words[3:])
    return call(program, words)


def lrq_as_declared(program, words):
    """An `lrq` that judges networks as they are declared, as the plain commands do."""
    return call(program, words[1:] if is_about(words, "lrq") and words[1] in ("bound", "check") else words)


def lrq_by_buckets(program, words):
    """An `lrq` that shapes by token buckets, as the plain command does."""
    return call(program, words[1:] if is_about(words, "lrq") and words[1] == "shape" else words)


def worst_halved(program, words):
    """Summaries whose longest delays are half as long, of networks of format 2 and of those with `classes`."""
    status, text = call(program, words)
    if not is_about(words, "generate"):
        return status, text
    with open(words[1], encoding="ascii") as file:
        more = re.search("^format = 2$|^classes = ", file.read(), re.M)
    return status, re.sub(r"worst (\d+)", lambda it: f"worst {int(it[1]) // 2}", text) if more else text


def one_less_of(verb):
    """A program that answers one command with numbers that are less by one at the ends of lines."""
    return lambda words, status, text: one_less(words, status, text) if is_about(words, verb) else (status, text)


# What answers for the wrong programs that ask the right one otherwise, or look into its files.
ASKS = {
    it.__name__.replace("_", "-"): it
    for it in (
        short_waits, slow_links, orders_early, records_early, seeds_as_1, lrq_as_declared, lrq_by_buckets, worst_halved,
        clocks_passed_over,
    )
}  # fmt: skip

# What each other wrong program makes of the words, the status and the text of the right one.
WRONGS = {
    "none": lambda words, status, text: (status, text),
    "output-lost": lambda words, status, text: (status, text),
    **{
        f"one-less-{verb}": one_less_of(verb)
        for verb in "show explain shape conform settings buffers lrq releases fit".split()
    },
    **{
        it.__name__.replace("_", "-"): it
        for it in (
            without_frames, without_releases, always_refused, always_accepted, never_late, never_full,
            always_conforming, latest_excess, worst_of_nothing, worst_one_less, one_less, always_admitted,
            sums_one_less, status_of_success, nothing_printed, read_as_done, routes_back, arrivals_late, copies_late,
            copies_lost, never_over, bursts_one_less, always_tight, without_rivals, octets_whole,
        )
    },
}  # fmt: skip


def main(wrong, program, *words):
    """Runs the real program, and prints and answers otherwise."""
    if wrong in ASKS:
        status, text = ASKS[wrong](program, words)
    else:
        status, text = WRONGS[wrong](words, *call(program, words))
    left = text.encode("utf-8", "surrogateescape")
    try:
        while left:
            left = left[os.write(1, left) :]
    except OSError:
        return 0 if wrong == "output-lost" else 5
    return status


if __name__ == "__main__":
    sys.exit(main(*sys.argv[1:]))
