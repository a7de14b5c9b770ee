"""The run of releases on a network in one order: a loop over moments at which a frame comes to a node, or a port looks
for a frame. By the rules of ports, links and groups and the key and wait of the order there is just one such run."""

from dataclasses import replace
from heapq import heapify, heappop, heappush
from itertools import chain
from typing import Callable, NamedTuple

from second.clocks import scheduled
from second.common import wire_bits
from second.groups import ELIGIBLE, LATE, SIZE, Group, is_declared_size

COMES, LOOKS = 0, 1  # at one time all frames come before a port looks
SINK = "sink"


class Order(NamedTuple):
    """What an order leaves no choice in: the key of a frame, by its sender and number, and how long after the earliest
    latency it arrives behind a port, by its number and the port's spread."""

    key: Callable
    wait: Callable


EARLY = Order(lambda sender, frame: frame, lambda frame, spread: 0)
LATEST = Order(lambda sender, frame: 2**32 * (2**32 - 1 - sender) + frame, lambda frame, spread: spread)


def mixed(mask):
    """The order `mixed` with this number."""
    return Order(
        lambda sender, frame: 2**32 * (sender ^ mask) + frame,
        lambda frame, spread: (frame ^ mask) % (spread + 1),
    )


class Crossing(NamedTuple):
    """A frame of so many bits that was sent at a port, where it has a class: when it came there, and when its
    transmission ended. The place is the port and the class."""

    place: tuple
    came: int
    end: int
    bits: int


class Sending:
    """A port while frames come and go: until when it sends, what it holds by class, and when its last frame arrives."""

    def __init__(self, port):
        self.port, self.until, self.held, self.arrival = port, 0, [[] for _ in range(8)], -1

    def take(self, now):
        """Takes the held frame that the port sends at this time, or None."""
        held = next((it for it in reversed(self.held) if it and it[0][0] <= now), None)
        return heappop(held) if held else None

    def send(self, now, bits, frame, order):
        """Sends a frame of so many bits at this time; its end is `until`, and its arrival behind the port `arrival`."""
        self.until = now + self.port.ps_per_bit * bits
        wait = order.wait(frame, self.port.spread)
        self.arrival = max(self.until + self.port.earliest + wait, self.arrival + 1)


class Run:
    """A run: the lines of each frame along each leg of its sender, how it ended for each listener, and when; and what
    crossed each port. A frame that comes to a bridge is judged once, whatever ports it goes on by."""

    def __init__(self, network, releases, order):
        self.network, self.releases, self.order = network, releases, order
        self.senders = network.senders
        self.ports = [Sending(port) for port in network.ports]
        self.groups, self.schedulers, self.crossings = {}, {}, []
        legs = [len(self.senders[release.sender].legs) for release in releases]
        self.ends = [[None] * count for count in legs]
        self.lines = [[[] for _ in range(count)] for count in legs]
        self.agenda = [(release.at, COMES, frame, -1) for frame, release in enumerate(releases)]
        heapify(self.agenda)
        self.play()

    def play(self):
        """Plays the run to its end."""
        while self.agenda:
            now, phase, which, place = heappop(self.agenda)
            if phase == COMES:
                self.come(now, which, place)
            else:
                self.look(now, which)

    def release_text(self, frame, release):
        """The line of a release."""
        return f"frame {frame} {self.senders[release.sender].name} {release.octets} {release.at}"

    def verdict(self, sender, now, octets, place):
        """The verdict on a frame of a sender that comes behind the port of a place, and its eligibility time; before
        the first place it is at its talker."""
        if place < 0:
            return ELIGIBLE, now
        if sender.is_flow:
            return (ELIGIBLE, now) if is_declared_size(sender, octets) else (SIZE, None)
        number, traffic_class = sender.hops[place]
        group = self.groups.setdefault((number, traffic_class), Group(self.network.ports[number].residence))
        return group.judge(self.scheduler(sender, number), now, octets)

    def scheduler(self, sender, number):
        """A stream with the rate and burst of its scheduler behind a port."""
        if self.network.topology.is_ideal:
            return sender
        if (sender.name, number) not in self.schedulers:
            rate, burst = scheduled(self.network, sender, number)
            self.schedulers[sender.name, number] = replace(sender, rate=rate, burst=burst)
        return self.schedulers[sender.name, number]

    def come(self, now, frame, place):
        """A frame comes behind the port of a place: to a listener, or to a bridge; or it is released."""
        release = self.releases[frame]
        sender = self.senders[release.sender]
        onward = sender.onward.get(place, []) if place >= 0 else sender.starts
        if not onward:
            leg = self.leg_of(sender, place)
            self.ends[frame][leg] = SINK, now
            self.lines[frame][leg].append(f"sink {now}")
            return
        verdict, eligible = self.verdict(sender, now, release.octets, place)
        for there in onward:
            port = self.ports[sender.ports[there]]
            text = f"hop {port.port.name} {now} {verdict}"
            if verdict == ELIGIBLE:
                key = self.order.key(release.sender, frame)
                heappush(port.held[sender.classes[there]], (eligible, key, frame, there, now, f"{text} {eligible}"))
                heappush(self.agenda, (eligible, LOOKS, port.port.number, 0))
            else:
                self.lines[frame][self.leg_of(sender, there)].append(text if verdict == SIZE else f"{text} {eligible}")
        if verdict != ELIGIBLE:
            self.discard(frame, sender, set(onward), (verdict, now))

    def discard(self, frame, sender, onward, end):
        """A frame ends before these places, for each listener behind."""
        for leg, route in enumerate(sender.routes):
            if onward & set(route):
                self.ends[frame][leg] = end
                self.lines[frame][leg].append("discard")

    def leg_of(self, sender, place):
        """The leg that has a place."""
        return next(leg for leg, places in enumerate(sender.legs) if place in places)

    def lines_of(self, frame):
        """What `replay` prints of a frame."""
        release = self.releases[frame]
        sender = self.senders[release.sender]
        yield self.release_text(frame, release)
        for leg, lines in enumerate(self.lines[frame]):
            if leg:
                yield f"listener {self.network.called(sender, leg).split()[1]}"
            yield from lines

    def look(self, now, number):
        """A port looks for a frame to send."""
        port = self.ports[number]
        taken = port.take(now) if port.until <= now else None
        if taken is None:
            return
        *_, frame, place, came, text = taken
        release = self.releases[frame]
        sender, bits = self.senders[release.sender], wire_bits(release.octets)
        port.send(now, bits, frame, self.order)
        self.crossings.append(Crossing(sender.hops[place], came, port.until, bits))
        self.lines[frame][self.leg_of(sender, place)].append(f"{text} start {now} end {port.until}")
        heappush(self.agenda, (port.arrival, COMES, frame, place))
        heappush(self.agenda, (port.until, LOOKS, number, 0))


def counts_text(ends):
    """In how many cases a frame ended in each way."""
    ways = [how for how, _ in ends]
    return f"sunk {ways.count(SINK)} late {ways.count(LATE)} size {ways.count(SIZE)}"


def departed(network, releases, order):
    """What `replay` prints."""
    run = Run(network, releases, order)
    for frame in range(len(releases)):
        yield from run.lines_of(frame)
    yield f"total frames {len(releases)} {counts_text(chain.from_iterable(run.ends))}"
