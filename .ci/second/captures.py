"""Captures (pcap 2.4): the records that the bytes show, or their first fault, and what they come to at a station."""

from struct import Struct
from typing import NamedTuple

from second.common import LAST_RELEASE, MOST_FRAMES, MOST_HOPS, Fault
from second.runs import departed
from second.schedules import Release

MAGICS = {
    bytes.fromhex("a1b2c3d4"): (">", 1000),
    bytes.fromhex("d4c3b2a1"): ("<", 1000),
    bytes.fromhex("a1b23c4d"): (">", 1),
    bytes.fromhex("4d3cb2a1"): ("<", 1),
}
PCAPNG = bytes.fromhex("0a0d0d0a")
TAG = bytes.fromhex("8100")
MOST_BYTES = 268_435_456
MOST_RECORDS = 1_000_000
MOST_CAPTURED = 262_144
HEADER = 24


class Record(NamedTuple):
    """A record: its time in nanoseconds, its octets, and the first bytes of the frame that were captured."""

    at: int
    octets: int
    head: bytes


def order_of(data):
    """The order of bytes and the nanoseconds of a fraction, or the first fault of the header."""
    magic = bytes(data[:4])
    if len(magic) == 4 and magic not in MAGICS:
        raise Fault("pcapng" if magic == PCAPNG else "bad-magic")
    order, fraction = MAGICS.get(magic, (">", 1))
    if len(data) >= 8 and Struct(order + "HH").unpack(data[4:8]) != (2, 4):
        raise Fault("bad-version")
    if len(data) >= HEADER and Struct(order + "I").unpack(data[20:24]) != (1,):
        raise Fault("bad-link")
    if len(data) < HEADER:
        raise Fault("cut-short 0")
    return order, fraction


def records_of(data):
    """The records that the bytes of a capture show, one after another, and the first fault."""
    order, fraction = order_of(data)
    numbers, at, count = Struct(order + "IIII"), HEADER, 0
    while at < len(data):
        count += 1
        if count > MOST_RECORDS:
            raise Fault(f"limit {count}")
        if len(data) < at + numbers.size:
            raise Fault(f"cut-short {count}")
        seconds, part, captured, original = numbers.unpack_from(data, at)
        at += numbers.size + captured
        if captured > MOST_CAPTURED:
            raise Fault(f"record-too-long {count}")
        if len(data) < at:
            raise Fault(f"cut-short {count}")
        head = bytes(data[at - captured : at - captured + min(captured, 16)])
        yield Record(seconds * 10**9 + part * fraction, max(original, 60) + 4, head)


def whole_records_of(data):
    """The same of a file that may be longer than a capture."""
    try:
        yield from records_of(memoryview(data)[:MOST_BYTES] if len(data) > MOST_BYTES else data)
    except Fault as fault:
        if len(data) <= MOST_BYTES or not str(fault).startswith("cut-short"):
            raise
    if len(data) > MOST_BYTES:
        raise Fault("too-long")


def identity_of(head):
    """The destination address and the VLAN identifier by which a frame is known, or None."""
    if len(head) < 16 or head[12:14] != TAG:
        return None
    return int.from_bytes(head[:6], "big"), int.from_bytes(head[14:16], "big") & 0xFFF


class Traffic:
    """What the records up to one come to at a station: releases, counts, and the first record that is over a limit."""

    def __init__(self, network, station):
        self.network, self.ports = network, 0
        begins = {port.number for port in network.ports if port.leaves == station}
        numbered = enumerate(network.streams)
        self.streams = {it.identity: number for number, it in numbered if it.ports[0] in begins and it.identity}
        self.releases, self.records, self.unidentified, self.oversize = [], 0, 0, 0
        self.first = self.greatest = self.over = None

    def take(self, record):
        """Takes the next record."""
        self.records += 1
        self.first = record.at if self.first is None else self.first
        self.greatest = max(record.at, self.first if self.greatest is None else self.greatest)
        stream = self.streams.get(identity_of(record.head))
        if stream is None:
            self.unidentified += 1
        elif record.octets > 2000:
            self.oversize += 1
        else:
            self.release(1000 * (self.greatest - self.first), stream, record.octets)

    def release(self, at, stream, octets):
        """Adds a release."""
        ports = self.ports + len(self.network.streams[stream].ports)
        if at > LAST_RELEASE or len(self.releases) == MOST_FRAMES or ports > MOST_HOPS:
            self.over = self.over or self.records
        else:
            self.releases.append(Release(at, stream, octets))
            self.ports = ports


def traffic_of(network, station, data):
    """What the bytes of a capture come to at a station, or their first fault: one of form before a limit."""
    traffic = Traffic(network, station)
    for record in whole_records_of(data):
        traffic.take(record)
    if traffic.over:
        raise Fault(f"limit {traffic.over}")
    return traffic


def captured(network, traffic, order):
    """What `capture` prints."""
    yield from departed(network, traffic.releases, order)
    yield f"records {traffic.records} unidentified {traffic.unidentified} oversize {traffic.oversize}"
