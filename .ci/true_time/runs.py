"""Runs of a network by clocks, by the rules of crates/ats_trace/specs/Clocks.antt alone: what senders release, and what
ports, links and groups make of it. What the rules leave open is drawn: ties, latencies, and when a frame is sent that
may be sent at several times."""

import heapq
from typing import NamedTuple

from true_time.rates import SECOND, bits_of
from true_time.readings import quotient

# Of one time arrivals come first, then frames that become eligible, and then ports take their choice.
ARRIVAL, ELIGIBLE, CHOICE = range(3)

# How much faster than declared babblers send, in hundredths.
HASTE = (101, 110, 200, 1000)


class Frame(NamedTuple):
    """A frame: its number, its sender, its octets, and when it is released."""

    number: int
    sender: object
    octets: int
    release: int


class Sent(NamedTuple):
    """What a port did with a frame: when it came to the node and was eligible, in true time, what the node's clock told
    it, when its transmission began and ended, and when it arrived behind the port."""

    frame: Frame
    came: int
    eligible: int
    told: int
    start: int
    end: int
    arrival: int


class Bucket:
    """A token bucket: the time from which on it has all tokens for a frame, as the time when it was empty, both as bits
    of the rate."""

    def __init__(self, declared):
        self.rate, self.burst = declared
        self.empty = -SECOND * self.burst

    def first(self, octets):
        """The first time at which it has tokens for so many octets."""
        return quotient(max(0, self.empty + SECOND * bits_of(octets)), self.rate)

    def take(self, time, octets):
        """Takes these at a time."""
        self.empty = max(self.empty, self.rate * time - SECOND * self.burst) + SECOND * bits_of(octets)


def kept(draw, sender, reading, count, start):
    """Releases that keep what a sender declares by a clock, a stream's mostly as soon as its bucket allows, or late in
    a tick."""
    bucket, time, greedy = Bucket(sender.declared), start, draw.random() < 0.8
    for _ in range(count):
        octets = draw.choice((sender.least, sender.most)) if draw.random() < 0.3 else sender.most
        if sender.is_flow():
            time += draw.choice((0, 0, draw.randrange(5 * 10**7)))
        else:
            time = reading.first(time, bucket.first(octets))
            if reading.tick > 1 and draw.random() < 0.3:
                time = reading.first(time, reading(time) + 1) - 1
            if not greedy and draw.random() < 0.3:
                time += draw.randrange(2 * 10**8)
            bucket.take(reading(time), octets)
        yield time, octets


def babbled(draw, sender, count, start):
    """Releases that keep nothing: too fast, all at once, or of sizes that are not declared."""
    haste, own_sizes = draw.choice(HASTE), draw.random() < 0.3
    rate, time, at_once = max(1, sender.declared.rate or 10**6) * haste, start, draw.random() < 0.2
    for _ in range(count):
        octets = draw.randint(64, 1600) if own_sizes else draw.choice((sender.least, sender.most, sender.most))
        yield time, octets
        time += 0 if at_once else 100 * SECOND * bits_of(octets) // rate


def frames_of(draw, network, readings):
    """The frames of all senders in the order of their releases. In some networks some nodes babble."""
    share = draw.choice((0, 0, 0.3, 0.6))
    babblers = {node for node in range(len(network.clocks))
                if draw.random() < (share / 3 if network.is_bridge(node) else share)}  # fmt: skip
    count, together, found = draw.choice((10, 20, 40)), draw.random() < 0.6, []
    for place, sender in enumerate(network.senders):
        start = 10**6 if together else draw.randrange(10**8)
        if sender.talker in babblers:
            releases = babbled(draw, sender, count, start)
        else:
            releases = kept(draw, sender, readings[sender.talker], count, start)
        found += [(time, place, octets) for time, octets in releases]
    found.sort(key=lambda it: it[0])
    return [Frame(number, network.senders[place], octets, time) for number, (time, place, octets) in enumerate(found)]


class Group:
    """The schedulers of the streams of one class behind a port, in the time of the bridge's clock."""

    def __init__(self):
        self.time, self.buckets = 0, {}

    def told(self, sender, has, shown, octets, residence):
        """The time by the clock at which a frame is eligible that arrives when the clock shows this, or None."""
        bucket = self.buckets.setdefault(sender, Bucket(has))
        told = max(shown, self.time, bucket.first(octets))
        if told > shown + residence:
            return None
        bucket.take(told, octets)
        self.time = told
        return told


class Run:
    """A run: what each port sent, which frames were let through behind it, with the times of arrival, told by the clock
    and of eligibility, and which ones were discarded there."""

    def __init__(self, draw, network, rows, rules, readings):
        self.draw, self.network, self.rules, self.readings = draw, network, rules, readings
        self.residences = rules.residences(network, rows)
        self.frames = frames_of(draw, network, readings)
        self.sent, self.let_through = [[] for _ in network.ports], [[] for _ in network.ports]
        self.eligible, self.lost = {}, set()
        self.has = {}
        self.groups, self.waiting = {}, [[] for _ in network.ports]
        self.free, self.last = [0] * len(network.ports), [-1] * len(network.ports)
        self.ties, self.pace = draw.randrange(4), draw.randrange(4)
        self.events, self.count = [], 0
        for frame in self.frames:
            told = readings[frame.sender.talker](frame.release)
            for port in frame.sender.next[None]:
                self.due(frame.release, ELIGIBLE, port, (frame, frame.release, frame.release, told))
        while self.events:
            time, kind, _, port, what = heapq.heappop(self.events)
            (self.arrive, self.enter, self.choose)[kind](time, port, what)

    def due(self, time, kind, port, what=None):
        """Notes what is due at a time."""
        self.count += 1
        heapq.heappush(self.events, (time, kind, self.count, port, what))

    def tie(self, eligible):
        """By what frames are chosen that were told the same: as they came, against it, against the order in which they
        were eligible in true time, or at random."""
        return (0, -self.count, -eligible, self.draw.getrandbits(20))[self.ties]

    def enter(self, time, port, what):
        """A frame is eligible at a port."""
        frame, _, eligible, told = what
        key = -frame.sender.classes[port], told, self.tie(eligible), self.count
        heapq.heappush(self.waiting[port], (key, what))
        self.due(max(time, self.free[port]), CHOICE, port)

    def choose(self, time, port, _):
        """A port sends a frame, if it is free and one is there: of the highest class that which was told the least."""
        if self.free[port] > time or not self.waiting[port]:
            return
        it = self.network.ports[port]
        frame, came, eligible, told = heapq.heappop(self.waiting[port])[1]
        self.free[port] = end = time + it.ps_per_bit * bits_of(frame.octets)
        self.due(end, CHOICE, port)
        wait = (it.earliest, it.latest, self.draw.choice((it.earliest, it.latest)),
                self.draw.randint(it.earliest, it.latest))[self.pace]  # fmt: skip
        self.last[port] = arrival = max(end + wait, self.last[port] + 1)
        self.sent[port].append(Sent(frame, came, eligible, told, time, end, arrival))
        self.due(arrival, ARRIVAL, port, frame)

    def arrive(self, time, port, frame):
        """A frame arrives behind a port, and goes on if it does not end there and is let through."""
        sender, node = frame.sender, self.network.ports[port].leads_to
        if port not in sender.next:
            return
        told = self.told(time, port, frame, self.readings[node](time))
        if told is None:
            self.lost.add((frame.number, port))
            return
        eligible = self.readings[node].first(time, told)
        self.eligible[frame.number, port] = eligible
        self.let_through[port].append((frame, time, told, eligible))
        for further in sender.next[port]:
            self.due(eligible, ELIGIBLE, further, (frame, time, eligible, told))

    def told(self, time, port, frame, shown):
        """What the clock behind a port tells a frame, or None where it is discarded."""
        sender, cls = frame.sender, frame.sender.classes[port]
        if not sender.least <= frame.octets <= sender.most:
            return None
        if cls == 0:
            return shown
        if (sender, port) not in self.has:
            self.has[sender, port] = self.rules.set_behind(self.network, sender, port)
        group = self.groups.setdefault((port, cls), Group())
        residence = 1000 * self.residences[self.network.ports[port].leads_to]
        return group.told(sender, self.has[sender, port], shown, frame.octets, residence)
