"""Why bounds are as they are, and why there are none, in words."""

from figures import down, percent, rate, text, up, used
from tables import PARTS, to_listener

# How many of the parts of a delay are named as the reason for it, how many names of streams stand in one of them, and
# of how many late streams reasons are told.
REASONS, NAMES, MOST_LATE = 3, 3, 24

# What the number in a refusal is, as the program prints it.
NUMBERS = {
    "overloaded": "picoseconds of each second",
    "residence": "picoseconds",
    "deadline": "picoseconds",
}


def named(names):
    """Names of streams, of which the first few stand there."""
    told = ", ".join(f"<b>{name}</b>" for name in names[:NAMES])
    rest = len(names) - NAMES
    return told + (f" and {rest} more" if rest > 0 else "")


def has_rest(model, number, hop):
    """Whether a stream's own burst has more than the shortest frame at a port; so it is held to be where the file is
    not known."""
    table = model.declared.tables.get(model.shown.streams[number].name)
    return table is None or table["burst_bits"] * model.shown.ports[hop.port].ps_per_bit > hop.frame


def bursts_told(model, number, hop):
    """Whose bursts a frame may have to wait for, in words: its stream's own alone, or those of others."""
    own = model.shown.streams[number].name
    others = [name for name in model.bursting(hop.port, hop.cls) if name != own]
    if not others:
        return "the rest of its own burst, sent before it"
    more = ", and for the rest of its own" if has_rest(model, number, hop) else ""
    return f"waiting for bursts of its class or higher ones: of {named(others)}{more}"


def part_told(model, number, hop, name):
    """One part of a bound, in words."""
    if name == "bursts":
        return bursts_told(model, number, hop)
    flows = [flow.name for flow in model.shown.flows]
    kind = "best effort" if hop.sender in flows else "a lower class"
    return {
        "lower": f"waiting for one frame of <b>{hop.sender}</b> ({kind}) that has begun",
        "higher": "what the rates of higher classes add meanwhile",
        "frame": "sending the frame itself",
        "latency": "propagation and processing",
    }[name]


def reasons_of(model, number):
    """The longest parts of a delay, in words, each with its share of all."""
    it = model.explained.sums[number]
    parts = [(getattr(hop, name), hop, name) for hop in model.hops(number) for name, _ in PARTS]
    longest = sorted(parts, key=lambda part: -part[0])[:REASONS]
    told = (
        f"<li><b>{up(ps)} &micro;s</b> ({used(ps, it.sum)} of it) at <code>{text(hop.port)}</code>: "
        f"{part_told(model, number, hop, name)}</li>"
        for ps, hop, name in longest if ps
    )  # fmt: skip
    return f"<ul>{''.join(told)}</ul>"


def stream_link(model, number):
    """The name of a stream, which leads to its hops."""
    return f'<a href="#h{number}"><b>{model.explained.sums[number].label}</b></a>'


def tightest_told(model):
    """Which stream is closest to its deadline, and why; of late ones `late_told` speaks."""
    number = model.tightest()
    if number is None:
        return "<p>The network declares no streams, so nothing is promised.</p>"
    it = model.explained.sums[number]
    if it.left < 0:
        return late_told(model)
    told = f"Closest to its deadline is {stream_link(model, number)}: its worst-case delay{to_listener(model, number)} "
    share = f"{used(it.sum, it.deadline)} of its deadline of {down(it.deadline)} &micro;s"
    told += f"is {up(it.sum)} &micro;s, {share}, and {down(it.left)} are left"
    reasons = reasons_of(model, number) + fullest_told(model)
    return f'<p class="lead">{told}. The longest parts of that delay:</p>{reasons}'


def fullest_told(model):
    """The stream that uses the greatest share of its deadline, where that is another one than the tightest."""
    sums, tightest = model.explained.sums, model.tightest()
    fullest = max(range(len(sums)), key=lambda number: (sums[number].sum / sums[number].deadline, number == tightest))
    it = sums[fullest]
    if fullest == tightest or used(it.sum, it.deadline) == used(sums[tightest].sum, sums[tightest].deadline):
        return ""
    told = f"The greatest share of its deadline is used by {stream_link(model, fullest)}: "
    told += f"{used(it.sum, it.deadline)} of {down(it.deadline)} &micro;s, which leaves {down(it.left)}."
    return f"<p>{told}</p>"


def late_told(model):
    """All late streams, the latest first, each with its reasons."""
    told, late = [], model.late()
    for place, number in enumerate(late[:MOST_LATE]):
        it = model.explained.sums[number]
        name = ("The latest stream is " if not place else "Late too is ") + stream_link(model, number)
        share = f"{used(it.sum, it.deadline)} of its deadline of {down(it.deadline)} &micro;s"
        words = f"{name}: its worst-case delay{to_listener(model, number)} is {up(it.sum)} &micro;s"
        words += f", {share}, late by {up(-it.left)}."
        told.append(f'<p class="lead">{words} The longest parts of that delay:</p>{reasons_of(model, number)}')
    rest = len(late) - MOST_LATE
    more = f'<p class="bad">{rest} more streams are late: they stand first in the table of streams.</p>'
    return "".join(told) + (more if rest > 0 else "")


def overstays_told(model):
    """All stays in bridges that may be longer than is allowed."""
    told = (
        f"<li>behind <code>{text(hop.port)}</code>, class {hop.cls}: {up(hop.stay)} &micro;s, "
        f"of {down(hop.residence)} that are allowed</li>"
        for hop in model.overstays()
    )
    told = "".join(told)
    return f"<p>Where a scheduler may have to hold a frame for too long:</p><ul>{told}</ul>" if told else ""


def counts_told(model):
    """How many streams are in time, and where frames may have to stay for too long."""
    total = model.explained.total
    # The program counts late listeners, so where some stream has several, all are counted.
    what, count = ("listeners", len(model.explained.sums)) if model.is_forked() else ("streams", total.streams)
    late = f"Late {what}: {total.late} of {count}." if total.late else ""
    over = "Frames may have to stay in bridges for longer than their maximum residence time." if total.over else ""
    if late or over:
        return f'<p class="bad">{late} {over}</p>{overstays_told(model)}'
    told = f"{what.capitalize()} within their deadlines: {count} of {count}."
    return f'<p class="good">{told}</p>' if total.streams else ""


def rates_told(model, port, cls):
    """Which streams have a class or a higher one at a port, with their rates."""
    names = model.bursting(port, cls)
    tables = [model.declared.tables.get(name) for name in names]
    told = [f"<b>{name}</b>" + (f" ({rate(table['rate_bps'])})" if table else "") for name, table in zip(names, tables)]
    rest = f" and {len(told) - MOST_LATE} more" if len(told) > MOST_LATE else ""
    return f"{', '.join(told[:MOST_LATE])}{rest}"


def refusal_told(model, line):
    """What a refusal of `bound` means."""
    words = line.split()
    if line.startswith("refused overloaded "):
        told = f"The rates of class {words[3]} and above take {percent(int(words[4]))} of the link at <code>"
        whose = rates_told(model, words[2], int(words[3]))
        return f"{told}{text(words[2])}</code>, which is more than there is: those of {whose}. No bound holds then."
    if line.startswith("refused residence "):
        told = f"Behind <code>{text(words[2])}</code> a frame of class {words[3]} may have to stay for "
        return f"{told}{up(int(words[4]))} &micro;s, longer than the bridge's maximum residence time."
    if line.startswith("refused deadline "):
        told = f"The worst-case delay of <b>{' '.join(words[2:-1])}</b> is {up(int(words[-1]))} &micro;s"
        return f"{told}, over its deadline."
    return ""


def line_told(line):
    """A line of the program, with the unit of its number."""
    unit = NUMBERS.get((line.split() + [""])[1], "")
    more = f", in {unit}" if unit and line.startswith("refused ") else ""
    return f'<p class="note">The program says so in its own words{more}: <code>{text(line)}</code></p>'


def verdict(model):
    """What the program decided, in words and in its own line."""
    if not model.refusals:
        return ""
    told = "".join(f"<p>{refusal_told(model, line)}</p>{line_told(line)}" for line in model.refusals)
    said = f"<pre>{text(model.said)}</pre>" if model.said else ""
    return f'<div class="refused"><h2>There is no certificate, so nothing is promised</h2>{told}{said}</div>'
