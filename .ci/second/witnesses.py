"""Delays that can happen: the burst at each hop of a stream's path, the delay of the stream in its run, and what
`witness` prints."""

from second.bounds import least_certificate, sum_to
from second.common import Refusal, wire_bits
from second.runs import LATEST, SINK, Order, Run
from second.schedules import Release

MOST_FRAMES = 40


def stream_called(network, word):
    """The number of the stream that a word names."""
    found = next((number for number, stream in enumerate(network.streams) if stream.name == word), None)
    if found is None:
        raise Refusal(f"stream {word}")
    return found


def travel_of(network, sender, at):
    """How long the longest frame of a sender takes over the ports before this one, each latency being the greatest."""
    before = [network.ports[sender.ports[place]] for place in sender.route_to(sender.ports.index(at))[:-1]]
    return sum(port.ps_per_bit * wire_bits(sender.greatest) + port.latency for port in before)


def burst_at(network, at, traffic_class):
    """The releases of the burst at a port for a class, by time and then by sender."""
    there = [(number, sender) for number, sender in enumerate(network.senders) if at in sender.ports]
    travels = {number: travel_of(network, sender, at) for number, sender in there}
    since, releases = 1 + max(travels.values()), []
    for number, sender in there:
        rivals = sender.classes[sender.ports.index(at)] >= traffic_class
        count = min(MOST_FRAMES, sender.burst // wire_bits(sender.greatest)) if rivals else 1
        releases += [Release(since - travels[number] - (not rivals), number, sender.greatest)] * count
    return sorted(releases, key=lambda release: (release.at, release.sender))


def goes_last(stream):
    """The order in which the frames of this stream go last of those that tie, and each takes as long as it may."""
    return Order(lambda sender, frame: (sender == stream, frame), LATEST.wait)


def delay_in(network, stream, leg, releases):
    """The greatest delay of a stream for a listener in the run of these releases."""
    ends = [(*it[leg], release.at) for it, release in zip(Run(network, releases, goes_last(stream)).ends, releases)
            if release.sender == stream]
    return max(when - at for how, when, at in ends if how == SINK)


def witnessed_for(network, stream, leg, rows):
    """What `witness` prints for a listener."""
    sender = network.streams[stream]
    hops = sender.hops_to(leg)
    bursts = [burst_at(network, *hop) for hop in hops]
    delays = [delay_in(network, stream, leg, burst) for burst in bursts]
    for (at, _), delay in zip(hops, delays):
        yield f"hop {network.ports[at].name} {delay}"
    worst, bound = max(delays), sum_to(sender, leg, rows)
    for release in bursts[delays.index(worst)]:
        yield f"release {release.at} {network.senders[release.sender].name} {release.octets}"
    yield f"witness {network.called(sender, leg)} delay {worst} bound {bound} gap {bound - worst}"


def witnessed(network, stream):
    """What `witness` prints."""
    rows, reason = least_certificate(network)
    if reason:
        raise Refusal(reason)
    sender = network.streams[stream]
    for leg in range(len(sender.legs)):
        if leg:
            yield f"listener {network.called(sender, leg)}"
        yield from witnessed_for(network, stream, leg, rows)
