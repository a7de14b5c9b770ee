"""Clocks: what the clocks of bridges make of the rate and the burst of a stream from hop to hop."""

from fractions import Fraction
from functools import lru_cache
from math import ceil
from typing import NamedTuple

from second.common import MOST_BURST, MOST_RATE, SECOND

MILLION = 10**6
MOST_DEVIATION = 1000  # parts in a million
MOST_STEP = 10**7  # picoseconds


class Clock(NamedTuple):
    """A clock: how far its rate may be off, in parts in a million, and its step, in picoseconds."""

    deviation: int = 0
    step: int = 0

    @lru_cache(2**16)
    def scheduler_for(self, rate, burst):
        """The rate and burst of a scheduler that goes by this clock, for frames of that rate and burst: as much in true
        time while the clock is slow, and beside it what comes in a step."""
        own = ceil(Fraction(rate) / (1 - Fraction(self.deviation, MILLION)))
        return own, burst + ceil(Fraction(own * self.step, SECOND))

    @lru_cache(2**16)
    def output_of(self, rate, burst):
        """What frames keep in true time that a scheduler with that rate and burst lets through by this clock."""
        off = Fraction(self.deviation, MILLION)
        return ceil(rate * (1 + off)), burst + ceil(rate * (self.step + off) / SECOND)

    def need_by(self, need):
        """How long a time may be by this clock, its step included."""
        return need + self.step + ceil(Fraction(self.deviation * need, MILLION))


def committed(network, sender, number):
    """The rate and burst that the frames of a sender keep in true time at one of its ports."""
    if network.topology.is_ideal:
        return sender.rate, sender.burst
    ports = [network.ports[sender.ports[place]] for place in sender.route_to(sender.ports.index(number))]
    kept = network.topology.clock_of(ports[0].leaves).output_of(sender.rate, sender.burst)
    for port in ports[:-1]:
        clock = network.topology.clock_of(port.leads_to)
        kept = clock.output_of(*clock.scheduler_for(*kept))
    return kept


def scheduled(network, sender, number):
    """The rate and burst that the scheduler of a sender has behind one of its ports."""
    kept = committed(network, sender, number)
    return network.topology.clock_of(network.ports[number].leads_to).scheduler_for(*kept)


def is_overrated(network, sender):
    """Whether a rate or a burst of a sender at one of its ports is greater than that of a scheduler may be."""
    if network.topology.is_ideal:
        return False
    pairs = (told(network, sender, number) for number in sender.ports for told in (committed, scheduled))
    return any(rate > MOST_RATE or burst > MOST_BURST for rate, burst in pairs)
