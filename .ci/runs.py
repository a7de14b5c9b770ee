"""Releases, and the text of a run: what the scripts need that replay schedules. The rules are those of
docs/DEFINITIONS.md, written here once more; nothing here asks the program."""

from itertools import accumulate, zip_longest

from networks import SECOND, bits_of, buffers_due


def schedule_text(rows):
    """The text of a schedule of these releases: time, name and octets of each."""
    return "at_ps,sender,octets\n" + "".join(f"{at},{name},{octets}\n" for at, name, octets in rows)


def conforms(sender, frames):
    """Whether frames, each with its time and its octets, keep a rate and a burst: those from each to each later one."""
    sent = [0, *accumulate(bits_of(octets) for _, octets in frames)]
    return all(
        SECOND * (sent[last + 1] - sent[first]) <= sender.rate * (frames[last][0] - at) + SECOND * sender.burst
        for first, (at, _) in enumerate(frames)
        for last in range(first, len(frames))
    )


def keeps(sender, rows):
    """Whether all releases of a sender have declared sizes, and those of a stream keep its bucket."""
    frames = [(at, octets) for at, name, octets in rows if name == sender.name]
    sizes = all(sender.least <= octets <= sender.most for _, octets in frames)
    return sizes and (not sender.is_stream() or conforms(sender, frames))


def keeping_nodes(ports, senders, rows):
    """The nodes that keep their buckets: each sender that begins there keeps what it declares, and where none begins
    there is nothing to keep."""
    broken = {ports[sender.path[0]].start for sender in senders if not keeps(sender, rows)}
    return {port.start for port in ports} - broken


def nodes_along(ports, sender, route):
    """The nodes that the ports of a route leave, given by their places: the talker, and the bridges on the way."""
    return [ports[sender.path[at]].start for at in route]


def kept_releases(draw, sender, span, most=12):
    """At most so many releases of a sender that keep what it declares, a stream's as fast as its bucket allows."""
    at, level, out = draw.randint(0, 10**6), (sender.burst or 0) * SECOND, []
    while at < span and len(out) < most:
        octets = draw.randint(sender.least, sender.most)
        if sender.is_stream():
            short = bits_of(octets) * SECOND - level
            wait = max(0, -(-short // sender.rate)) + draw.choice((0, 0, 1, 10**8))
            at += wait
            level = min(sender.burst * SECOND, level + wait * sender.rate) - bits_of(octets) * SECOND
        else:
            at += draw.randint(0, 2 * 10**7)
        if at < span:
            out.append((at, sender.name, octets))
    return out


class Record:
    """One hop of a frame: its port, arrival, verdict ('eligible', 'late' or 'size'), time of the verdict, start and
    end."""

    def __init__(self, words):
        self.port, self.arrival, self.verdict = words[1], int(words[2]), words[3]
        self.eligible = int(words[4]) if len(words) > 4 else None
        self.start, self.end = (int(words[6]), int(words[8])) if len(words) > 8 else (None, None)


class Leg:
    """What the text of a run tells of a frame on its way to a listener, behind those before: its hops, and its arrival
    or None; and the listener's name, which the first one has not."""

    def __init__(self, listener=None):
        self.listener, self.hops, self.sink = listener, [], None

    def lines(self):
        """The lines that tell it."""
        yield from [] if self.listener is None else [f"listener {self.listener}"]
        for hop in self.hops:
            words = [hop.verdict] + ([] if hop.eligible is None else [str(hop.eligible)])
            words += [] if hop.start is None else ["start", str(hop.start), "end", str(hop.end)]
            yield " ".join(["hop", hop.port, str(hop.arrival)] + words)
        yield "discard" if self.sink is None else f"sink {self.sink}"


class Journey:
    """What the text of a run tells of one frame: its name, octets and release, and its legs, one for each listener."""

    def __init__(self, words):
        self.name, self.octets, self.release, self.legs = words[2], int(words[3]), int(words[4]), [Leg()]

    @property
    def hops(self):
        """Its hops on the way to the first listener."""
        return self.legs[0].hops

    @property
    def sink(self):
        """Its arrival at the first listener, or None."""
        return self.legs[0].sink

    def lines(self, frame):
        """The lines that tell it, where it has this number."""
        yield f"frame {frame} {self.name} {self.octets} {self.release}"
        for leg in self.legs:
            yield from leg.lines()

    def records(self, sender):
        """Its hops by the places of its sender's ports."""
        return {at: hop for places, leg in zip(sender.legs(), self.legs) for at, hop in zip(places, leg.hops)}

    def ways(self, sender):
        """For each listener the hops on the way there, and its arrival or None."""
        records = self.records(sender)
        for route, leg in zip(sender.routes(), self.legs):
            yield [records[at] for at in route if at in records], leg.sink


def journeys_of(lines):
    """The journeys that the text of a run tells, but for its last line, in order."""
    out = []
    for text in lines:
        words = text.split()
        if words[0] == "frame":
            out.append(Journey(words))
            assert int(words[1]) == len(out) - 1, text
        elif words[0] == "listener":
            out[-1].legs.append(Leg(words[1]))
        elif words[0] == "hop":
            out[-1].legs[-1].hops.append(Record(words))
        elif words[0] == "sink":
            out[-1].legs[-1].sink = int(words[1])
        else:
            assert words[0] == "discard", text
    return out


def text_of(journeys):
    """The lines that tell these journeys."""
    return [line for frame, journey in enumerate(journeys) for line in journey.lines(frame)]


def releases_of(journeys):
    """The releases of journeys: time, name and octets of each."""
    return [(journey.release, journey.name, journey.octets) for journey in journeys]


def peaks_of(network, journeys):
    """The most bits of each class that a run's frames had at each port, by port and class: a frame is there from when
    it comes until its transmission ends."""
    moments, senders = {}, {it.name: it for it in network.senders}
    for journey in journeys:
        places = senders[journey.name].places()
        for at, hop in journey.records(senders[journey.name]).items():
            if hop.end is not None:
                bits = bits_of(journey.octets)
                moments.setdefault(places[at], []).extend([(hop.arrival, bits), (hop.end, -bits)])
    # At one time what ends comes first.
    return {place: max(accumulate(bits for _, bits in sorted(found))) for place, found in moments.items()}


class PeakJudge:
    """What is found against the lines of `buffers` beside a run. `good` are the nodes that keep their buckets."""

    def __init__(self, network, good, journeys, lines, count):
        self.network, self.good, self.found = network, good, []
        peaks = peaks_of(network, journeys)
        due = buffers_due(network.ports, network.senders, peaks)
        if lines != due:
            line, other = next(pair for pair in zip_longest(lines, due) if pair[0] != pair[1])
            self.found.append(f"{line!r} is printed, and {other!r} is due")
            return
        for words in map(str.split, lines[:-1]):
            self.row(words[1], int(words[2]), int(words[3]), int(words[5]), count)

    def row(self, port, cls, buffer, peak, count):
        """The row of a port and a class."""
        number = next(k for k, it in enumerate(self.network.ports) if it.name() == port)
        if not self.asked(number, cls) <= self.good:
            count.above += peak > buffer
            return
        if peak > buffer:
            self.found.append(f"the peak of {port} in class {cls} is {peak}, above its buffer {buffer}")
        count.peaks, count.fullest = count.peaks + 1, max(count.fullest, peak / buffer)

    def asked(self, number, cls):
        """The nodes that have to keep their buckets for a port's buffer of a class: the talkers of the class there, and
        the nodes that the port, and the port before it on their routes, leaves."""
        found, ports = set(), self.network.ports
        for sender in (it for it in self.network.senders if (number, cls) in it.places()):
            at = sender.places().index((number, cls))
            before = sender.before().get(at, at)
            found |= {self.network.ends_of(sender)[0], *nodes_along(ports, sender, (before, at))}
        return found
