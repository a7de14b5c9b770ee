"""Schedules: the releases that a file declares, or its first fault; whether every talker keeps its buckets by them; and
the schedule of some releases."""

from typing import NamedTuple

from second.common import LAST_RELEASE, MOST_FRAMES, MOST_HOPS, SECOND, Fault, Refusal, number, wire_bits
from second.groups import is_declared_size
from second.tables import rows_of

HEADER = "at_ps,sender,octets"
MOST_BYTES = 33_554_432


class Release(NamedTuple):
    """A release: its time, the number of its sender, and its octets."""

    at: int
    sender: int
    octets: int


def release_of(names, count, fields, releases):
    """The release that a record declares in view of those before it, or its first fault."""
    at, name, octets = fields
    if name not in names:
        raise Fault(f"unknown-name {count}")
    release = Release(number(at), names[name], number(octets))
    if release.at is None or release.octets is None:
        raise Fault(f"bad-number {count}")
    if not 64 <= release.octets <= 2000:
        raise Fault(f"bad-size {count}")
    if releases and release.at < releases[-1].at:
        raise Fault(f"time-back {count}")
    if release.at > LAST_RELEASE or len(releases) == MOST_FRAMES:
        raise Fault(f"limit {count}")
    return release


def releases_of(network, data):
    """The releases that the bytes of a schedule declare, or their first fault."""
    if len(data) > MOST_BYTES:
        raise Fault("too-long")
    names, releases, ports = {sender.name: count for count, sender in enumerate(network.senders)}, [], 0
    for count, fields in rows_of(data, HEADER):
        releases.append(release_of(names, count, fields, releases))
        ports += len(network.senders[releases[-1].sender].ports)
        if ports > MOST_HOPS:
            raise Fault(f"limit {count}")
    return releases


class Meter:
    """What a stream has released: from which of its frames on it sent most beyond its rate, and by how much.

    The excess from frame i to frame j is `SECOND * bits(i to j) - rate * time(i to j) - SECOND * burst`. With `sent` as
    the bits before a frame, it is a number of j less `SECOND * sent - rate * time` of i, whose least is kept."""

    def __init__(self, stream):
        self.stream, self.sent, self.least, self.since = stream, 0, None, None

    def broken_since(self, frame, release):
        """The frame from which on this frame is most beyond the bucket, or None where it is within."""
        credit = SECOND * self.sent - self.stream.rate * release.at
        if self.least is None or credit < self.least:
            self.least, self.since = credit, frame
        bits = wire_bits(release.octets)
        self.sent += bits
        return self.since if credit + SECOND * (bits - self.stream.burst) > self.least else None


def conformed(network, releases):
    """What `conform` prints."""
    meters = {count: Meter(stream) for count, stream in enumerate(network.streams)}
    for frame, release in enumerate(releases):
        if not is_declared_size(network.senders[release.sender], release.octets):
            raise Refusal(f"size {frame}")
        since = meters[release.sender].broken_since(frame, release) if release.sender in meters else None
        if since is not None:
            raise Refusal(f"bucket {since} {frame}")
    yield f"conforms {len(releases)}"


def scheduled(network, releases):
    """The schedule of these releases, which `releases` prints."""
    yield HEADER
    yield from (f"{release.at},{network.senders[release.sender].name},{release.octets}" for release in releases)
