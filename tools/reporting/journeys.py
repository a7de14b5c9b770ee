"""Runs: what `replay` printed of each frame, and a span of it that is drawn."""

from typing import NamedTuple

# The most crossings of ports that are drawn, and the most ports.
MOST_BOXES, MOST_PORTS = 3000, 40


class Crossing(NamedTuple):
    """A line `hop` of `replay`, with its frame. Of a frame that was discarded `start` and `end` are None, and of one of
    a size that is not declared `eligible` is too."""

    frame: int
    name: str
    octets: int
    port: str
    arrival: int
    verdict: str
    eligible: int | None
    start: int | None
    end: int | None


class Delay(NamedTuple):
    """The greatest delay of a stream's frames in a run: of which frame, from its release to its arrival."""

    delay: int
    frame: int
    release: int


class Told(NamedTuple):
    """What a run comes to: how many frames and crossings it has, its end, which is the last arrival or discard, the
    greatest delay of each stream or further listener, and the line of totals."""

    frames: int
    crossings: int
    end: int
    worst: dict
    totals: str


class Journey(NamedTuple):
    """A frame's release, and what became of it: for each of its listeners the label of `explain`, and when it came
    there, or None where it was discarded on the way."""

    frame: int
    name: str
    octets: int
    release: int
    ends: list


def told_of(lines):
    """What the lines of a run come to."""
    frame = crossings = end = at = release = 0
    label, worst = "", {}
    for line in lines:
        word, _, rest = line.partition(" ")
        if word == "hop":
            crossings += 1
            if " eligible " not in line:
                end = max(end, int(rest.split()[1]))
        elif word == "frame":
            frame, name, _, at = rest.split()
            label, release = name, int(at)
        elif word == "listener":
            label = f"{name} {rest}"
        elif word == "sink":
            delay, end = int(rest) - release, max(end, int(rest))
            if label not in worst or delay > worst[label].delay:
                worst[label] = Delay(delay, int(frame), release)
    words = lines[-1].split()
    return Told(int(words[2]), crossings, end, worst, lines[-1])


def crossing_of(words, journey):
    """What the words of a line `hop` say."""
    times = [int(words[k]) if len(words) > k else None for k in (4, 6, 8)]
    return Crossing(journey.frame, journey.name, journey.octets, words[1], int(words[2]), words[3], *times)


def span_of(lines, first, last):
    """The crossings that touch a span, and the journeys of their frames, in order."""
    crossings, journeys, frame = [], [], None
    for line in lines:
        words = line.split()
        if words[0] == "frame":
            frame = Journey(int(words[1]), words[2], int(words[3]), int(words[4]), [])
            label, touched = words[2], False
        elif words[0] == "listener":
            label = f"{frame.name} {words[1]}"
        elif words[0] == "hop":
            found = crossing_of(words, frame)
            if found.arrival <= last and (found.end or found.arrival) >= first:
                crossings.append(found)
                journeys += [] if touched else [frame]
                touched = True
        elif words[0] in ("sink", "discard"):
            frame.ends.append((label, int(words[1]) if words[0] == "sink" else None))
    return crossings, journeys


def chosen_span(told, label):
    """The span that is drawn where none is asked for: the whole run where it is short, and else the time about the
    longest journey of the stream with this label, or of any."""
    if told.crossings <= MOST_BOXES or not told.worst:
        return 0, told.end
    worst = told.worst.get(label) or max(told.worst.values())
    return max(0, worst.release - worst.delay), worst.release + 2 * worst.delay


def drawn_of(crossings):
    """The crossings that are drawn, in the order of their arrivals: so many of the first, and at so many ports."""
    crossings = sorted(crossings, key=lambda it: it.arrival)[:MOST_BOXES]
    ports = list(dict.fromkeys(it.port for it in crossings))[:MOST_PORTS]
    return [it for it in crossings if it.port in ports]
