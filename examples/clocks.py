"""Changes settings for clocks that are not exact: reads what `ats settings NET` prints, and prints it with the rate and
the burst that each bridge needs, and its residence.

The numbers say by how many parts in a million the clocks of bridges deviate, and in steps of how many picoseconds they
count; then the same of the talkers, by whose clocks the rates and bursts of NET are kept. A bridge that sends frames of
its own is a talker of these. Where bridges can only be set to multiples of a rate and of a burst, these follow. With NET
behind the numbers, it is the network file that is printed, with the rates and bursts that bounds have to be asked for.
Where NET declares clocks, its settings have them already: then the numbers of the bridges are 0 0, no steps follow, and
what bridges begin stays as it is, which they keep by the clocks declared.

Usage: ats settings NET | python3 clocks.py PPM STEP TALKER_PPM TALKER_STEP [RATE_STEP BURST_STEP] [NET]
From Python 3.11 on."""

import csv
import os
import re
import sys
import tomllib

MILLION = 10**6
SECOND = 10**12


def up(number, divisor):
    """A division, rounded up."""
    return -(-number // divisor)


def in_true_time(rate, burst, ppm, step):
    """The rate and burst in true time of frames that keep a rate and burst by such a clock."""
    return up(rate * (MILLION + ppm), MILLION), burst + up(rate * (MILLION * step + ppm), MILLION * SECOND)


def of_scheduler(rate, burst, clock, steps):
    """The rate and burst by such a clock, in such steps, for a scheduler of frames that keep others in true time."""
    own = up(up(MILLION * rate, MILLION - clock[0]), steps[0]) * steps[0]
    return own, up(burst + up(own * clock[1], SECOND), steps[1]) * steps[1]


def change(settings, kept, clock, steps):
    """Changes the settings of a stream whose talker keeps this rate and burst in true time, and gives what its frames
    keep behind the last bridge, of several last ones the greatest. Each bridge receives from the port that the one
    before sends to; one that copies has a setting for each port on which it sends, and one scheduler for all. A talker
    that is a bridge may send to several."""
    by_reception = {}
    for it in settings:
        by_reception.setdefault(it["received_from"], []).append(it)
    firsts = by_reception.keys() - {it["sent_to"] for it in settings}
    ahead, last = [(first, kept) for first in firsts or [None]], []
    for port, kept in ahead:
        own = of_scheduler(*kept, clock, steps)
        for it in by_reception.get(port, []):
            it["rate_bps"], it["burst_bits"] = own
            it["residence_ns"] = up(
                1000 * int(it["residence_ns"]) * (MILLION + clock[0]) + MILLION * clock[1], 1000 * MILLION
            )
            ahead.append((it["sent_to"], in_true_time(*own, *clock)))
        last += [] if port in by_reception else [kept]
    return tuple(map(max, zip(*last)))


def declared(path, settings_of, clock, talker, steps):
    """The text of a network file with the last rate and burst of each stream in place of its own, and of a table for
    each port, whose frames go on nowhere, those that its talkers keep in true time."""
    with open(path, encoding="utf-8") as file:
        text = file.read()
    last, bridges = [], bridges_with_clocks(text)
    if bridges and (any(clock) or max(steps) > 1):
        sys.exit(f"{path} declares clocks of bridges, and its settings have them: give 0 0 for these, and no steps")
    for kind, it in rated(text):
        kept = in_true_time(it["rate_bps"], it["burst_bits"], *((0, 0) if talker_of(it) in bridges else talker))
        own = settings_of.get(it["name"], []) if kind == "stream" else []
        last.append(change(own, kept, clock, steps))
    for key, values in zip(("rate_bps", "burst_bits"), zip(*last)):
        found = iter(values)
        text = re.sub(rf"\b{key}(\s*=\s*)[0-9_]+", lambda match: f"{key}{match[1]}{next(found, 0)}", text)
    if [(it["rate_bps"], it["burst_bits"]) for _, it in rated(text)] != last:
        sys.exit("rate_bps or burst_bits stands elsewhere than once in each stream, as in a comment")
    return text


def rated(text):
    """The tables of a network file that have a rate, each with its kind, in the order in which the kinds begin."""
    tables = tomllib.loads(text)
    return [(kind, it) for kind in tables if kind in ("stream", "link_local") for it in tables[kind]]


def bridges_with_clocks(text):
    """The names of the bridges of a network file, if one of them declares a clock that is not ideal."""
    bridges = tomllib.loads(text).get("bridge", [])
    is_declared = any(it.get(key) for it in bridges for key in ("clock_ppm", "clock_step_ps"))
    return {it["name"] for it in bridges} if is_declared else set()


def talker_of(table):
    """The node at which a stream begins; none of a table for each port, whose talkers are stations and bridges."""
    paths = table.get("paths") or [table.get("path") or [table.get("from")]]
    return paths[0][0]


def clock_of(ppm, step):
    """The deviation and the step of a clock."""
    if ppm >= MILLION or (ppm and not step):
        sys.exit("a clock deviates by less than 1000000 parts in a million, and then has steps of 1 ps or more")
    return ppm, step


def main():
    """Reads the words and the settings, and prints the settings or the file."""
    words = sys.argv[1:]
    numbers = [int(word) for word in words if word.isdigit()]
    paths = words[len(numbers) :]
    if len(numbers) not in (4, 6) or len(paths) > 1 or 0 in numbers[4:]:
        sys.exit(__doc__)
    clock, talker, steps = clock_of(*numbers[:2]), clock_of(*numbers[2:4]), numbers[4:] or [1, 1]
    table = csv.DictReader(sys.stdin)
    rows, settings_of = list(table), {}
    for row in rows:
        if row["rate_bps"]:
            settings_of.setdefault(row["stream"], []).append(row)
    if paths:
        print(declared(paths[0], settings_of, clock, talker, steps), end="")
        return
    for settings in settings_of.values():
        kept = int(settings[0]["rate_bps"]), int(settings[0]["burst_bits"])
        change(settings, in_true_time(*kept, *talker), clock, steps)
    out = csv.DictWriter(sys.stdout, table.fieldnames, lineterminator="\n")
    out.writeheader()
    out.writerows(rows)


try:
    main()
    sys.stdout.flush()
except BrokenPipeError:
    os.dup2(os.open(os.devnull, os.O_WRONLY), 1)
    sys.exit(5)
