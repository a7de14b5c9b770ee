"""The timeline of a run: a lane for each port, with a box for each transmission and what the frame waited before."""

from figures import exact, text

# The height of a lane, and where in it the line is on which boxes stand; below it is what frames waited.
LANE, GROUND = 34, 25

# How many steps of time are written, and how wide a box has to be, in shares of the span, to have its name in it.
STEPS, NAMED = 8, 0.045


def thousandth(ps):
    """Picoseconds as nanoseconds of a drawing."""
    return f"{ps / 1000:.3f}".rstrip("0").rstrip(".")


def told_of(it):
    """What became of a frame at a port, in words."""
    words = f"frame {it.frame} {it.name}, {it.octets} octets, at {it.port}: came {exact(it.arrival)}"
    if it.verdict == "size":
        return f"{words} \N{MICRO SIGN}s, discarded: its size is not declared"
    if it.verdict == "late":
        return f"{words}, discarded: eligible only at {exact(it.eligible)} \N{MICRO SIGN}s"
    return f"{words}, eligible {exact(it.eligible)}, sent {exact(it.start)} to {exact(it.end)} \N{MICRO SIGN}s"


def rect(kind, start, end, top, height, first, more=""):
    """A box from one time to another."""
    place = f'x="{thousandth(start - first)}" width="{thousandth(end - start)}" y="{top:g}" height="{height:g}"'
    return f'<rect class="{kind}" {place}{more or "/"}>'


def boxes(it, lane, cls, first):
    """The boxes of a crossing: held by the scheduler, waiting in the queue, and sent. The higher the class, the taller
    the box."""
    ground, found = lane * LANE + GROUND, []
    if it.eligible is not None and it.eligible > it.arrival:
        found.append(rect("held", it.arrival, it.eligible, ground + 3, 2, first))
    if it.start is not None:
        if it.start > it.eligible:
            found.append(rect("waits", it.eligible, it.start, ground + 2, 4, first))
        height = 14 + 1.5 * cls
        title = f' data-n="{it.name}" data-f="{it.frame}"><title>{text(told_of(it))}</title></rect'
        found.append(rect(f"c{cls}", it.start, it.end, ground - height, height, first, title))
    return "".join(found)


def labels(it, lane, cls, first, span):
    """The name in a wide box, or the cross of a frame that was discarded."""
    top = f"top:{lane * LANE}px"
    if it.start is None:
        left = 100 * (it.arrival - first) / span
        return f'<b class="cross" style="left:{left:.3f}%;{top}" title="{text(told_of(it))}">&times;</b>'
    seen = min(it.end, first + span) - max(it.start, first)
    if seen < NAMED * span:
        return ""
    left, width = 100 * (max(it.start, first) - first) / span, 100 * seen / span
    return f'<span class="t{cls}" style="left:{left:.3f}%;width:{width:.3f}%;{top}">{it.name}</span>'


def steps(first, last):
    """The times that are written above the lanes."""
    size = 10 ** max(0, len(str((last - first) // STEPS)) - 1)
    size *= next(k for k in (1, 2, 5, 10) if k * size * STEPS >= last - first)
    times = range(-(-first // size) * size, last, size)
    span = max(1, last - first)
    return "".join(f'<span style="left:{100 * (at - first) / span:.3f}%">{exact(at)}</span>' for at in times)


def timeline(shown, crossings, classes, first, last):
    """The timeline of crossings within a span; `classes` has the class of a sender at a port."""
    ports = sorted({it.port for it in crossings}, key=lambda name: shown.ports[name].number)
    lanes, span = {name: lane for lane, name in enumerate(ports)}, max(1, last - first)
    names = "".join(f'<div style="height:{LANE}px">{text(name)}</div>' for name in ports)
    drawn = [boxes(it, lanes[it.port], classes[it.name, it.port], first) for it in crossings]
    named = [labels(it, lanes[it.port], classes[it.name, it.port], first, span) for it in crossings]
    ground = "".join(
        f'<line x1="0" x2="100%" y1="{k * LANE + GROUND}" y2="{k * LANE + GROUND}"/>' for k in range(len(ports))
    )
    size = f'height="{len(ports) * LANE}" viewBox="0 0 {thousandth(span)} {len(ports) * LANE}"'
    return (
        f'<div class="lanes"><div class="names"><div class="corner">&micro;s</div>{names}</div>'
        f'<div class="run" id="run" tabindex="0" data-first="{first}" data-span="{span}" data-lane="{LANE}" '
        'aria-label="The timeline: arrow keys move along it, plus and minus zoom, full stop and comma choose a frame">'
        '<div class="times">'
        f'{steps(first, last)}</div><div class="field"><svg {size} preserveAspectRatio="none" width="100%">'
        f'<g class="ground">{ground}</g>\n'
        + "\n".join(drawn)
        + f'\n</svg><div class="over">{"".join(named)}</div></div></div></div>'
    )
