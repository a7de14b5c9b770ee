"""The other regulator, that of length-rate quotients: the verdicts of one group, and the network whose bursts are those
that it lets through."""

from dataclasses import replace

from second.common import SECOND, quotient_up, wire_bits
from second.groups import ELIGIBLE, LATE, SIZE, is_declared_size


class Regulator:
    """A group: `time` is its eligibility time, and `last` has for each stream the eligibility time and the bits of the
    frame that was accepted last."""

    def __init__(self, residence):
        self.residence, self.time, self.last = residence, 0, {}

    def judge(self, stream, arrival, octets):
        """The verdict on a frame of a stream, and its eligibility time where it has a declared size."""
        if not is_declared_size(stream, octets):
            return SIZE, None
        eligible = max(arrival, self.time)
        if stream.name in self.last:
            before, bits = self.last[stream.name]
            eligible = max(eligible, before + quotient_up(SECOND * bits, stream.rate))
        if eligible > arrival + self.residence:
            return LATE, eligible
        self.time, self.last[stream.name] = eligible, (eligible, wire_bits(octets))
        return ELIGIBLE, eligible


def narrowed(network):
    """The network with the wire bits of each stream's longest frame as its burst."""
    streams = [replace(stream, burst=wire_bits(stream.greatest)) for stream in network.streams]
    return replace(network, streams=streams)
