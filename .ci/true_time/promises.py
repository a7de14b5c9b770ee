"""What is promised of a run in true time, and what of it is broken: bounds of hops and sums, no discard, containment
and buffers, by crates/ats_soundness_law/specs and crates/ats_buffer_law/specs."""

from collections import Counter
from itertools import accumulate

from true_time.rates import SECOND, bits_of


def conforms(declared, frames):
    """Whether frames, each with a time and its octets, keep a rate and a burst in each window."""
    sent, least = 0, 0
    for time, octets in frames:
        least = min(least, SECOND * sent - declared.rate * time) if sent else -declared.rate * time
        sent += bits_of(octets)
        if SECOND * sent - declared.rate * time - least > SECOND * declared.burst:
            return False
    return True


def keeps(sender, reading, frames):
    """Whether a sender's frames have declared sizes, and those of a stream keep its bucket by its talker's clock."""
    sizes = all(sender.least <= it.octets <= sender.most for it in frames)
    return sizes and (sender.is_flow() or conforms(sender.declared, [(reading(it.release), it.octets)
                                                                     for it in frames]))  # fmt: skip


class Judge:
    """What is found against a run, and how much was compared."""

    def __init__(self, run, rows):
        self.run, self.rows, self.network = run, rows, run.network
        self.found, self.count = Counter(), Counter()
        frames = {sender: [] for sender in self.network.senders}
        for frame in run.frames:
            frames[frame.sender].append(frame)
        self.babblers = {sender.talker for sender, its in frames.items()
                         if not keeps(sender, run.readings[sender.talker], its)}  # fmt: skip
        self.arrivals = {}
        for port in range(len(self.network.ports)):
            self.note(port)
        for port in range(len(self.network.ports)):
            self.hops(port)
        for sender, its in frames.items():
            for route in sender.routes if not sender.is_flow() else ():
                for frame in its:
                    self.way(frame, route)
        self.buffers()
        self.count["frames"] += len(run.frames)
        self.count["discarded frames"] += len(run.lost)

    def note(self, port):
        """Notes what a port sent, and counts the frames that another one of their class overtook which became eligible
        after them, and was told no later."""
        latest = {}
        for sent in self.run.sent[port]:
            self.arrivals[sent.frame.number, port] = sent
            cls = sent.frame.sender.classes[port]
            self.count["overtaken in a tick"] += sent.eligible < latest.get(cls, 0)
            latest[cls] = max(sent.eligible, latest.get(cls, 0))

    def ask(self, what, holds):
        """Counts a promise, and what is broken of it."""
        self.count[what] += 1
        if not holds:
            self.found[what] += 1

    def bound(self, frame, port):
        """The bound of a frame's class at a port."""
        return self.rows[port, frame.sender.classes[port]].bound

    def hops(self, port):
        """Where the node that a port leaves keeps its buckets, each frame that it sends is behind it within the bound,
        and no one is discarded there."""
        if self.network.ports[port].leaves in self.babblers:
            return
        for sent in self.run.sent[port]:
            place = sent.frame.number, port
            if sent.frame.sender.is_flow():
                continue
            if port in sent.frame.sender.next:
                self.ask("no discard", place not in self.run.lost)
            behind = self.run.eligible.get(place, sent.arrival)
            stay, bound = behind - sent.eligible, self.bound(sent.frame, port)
            self.ask("bounds of hops", stay <= bound)
            self.count["bounds met exactly"] += stay == bound

    def way(self, frame, route):
        """On its way to a listener a frame is within the sum of bounds from its release on, or where its talker or a
        bridge on the way babbles, from the next bridge on, if that let it through."""
        nodes = [self.network.ports[port].leaves for port in route]
        first = max((place + 1 for place, node in enumerate(nodes) if node in self.babblers), default=0)
        if first == len(route) or (frame.number, route[first]) not in self.arrivals:
            return
        what = "contained frames" if first else "sums"
        since, last = self.arrivals[frame.number, route[first]].eligible, (frame.number, route[-1])
        due = since + sum(self.bound(frame, port) for port in route[first:])
        self.ask(what, last in self.arrivals and self.arrivals[last].arrival <= due)
        self.count["ways beside babblers"] += first == 0 and bool(self.babblers)

    def asked(self, port, cls):
        """The nodes that have to keep their buckets for the buffer of a port and a class."""
        nodes = {self.network.ports[port].leaves}
        for sender in (it for it in self.network.senders_at[port] if it.classes[port] == cls):
            before = sender.before[port]
            nodes |= {sender.talker} | ({self.network.ports[before].leaves} if before is not None else set())
        return nodes

    def buffers(self):
        """What a port holds of a class is at most its buffer, where the nodes keep their buckets that are asked: a
        frame is there from when it comes until it is sent. At one time what ends comes first."""
        for (port, cls), bits in self.run.rules.buffers(self.network, self.rows).items():
            moments = []
            for sent in (it for it in self.run.sent[port] if it.frame.sender.classes[port] == cls):
                wire = bits_of(sent.frame.octets)
                moments += [(sent.came, wire), (sent.end, -wire)]
            if moments and not self.asked(port, cls) & self.babblers:
                peak = max(accumulate(wire for _, wire in sorted(moments)))
                self.ask("buffers", peak <= bits)
                self.count["buffers filled"] += peak == bits
