"""Buffers: how many bits a port has to be able to hold of each class by a certificate that holds, how many it held at
most in a run, and what `buffers` prints."""

from second.bounds import need_of, refusal_of, written
from second.clocks import committed
from second.common import SECOND, Refusal
from second.runs import Run


def windows_of(network, rows, stream):
    """Each hop of a stream with the port at which its frames were eligible before, this one where it is the first, and
    the time within which those that are together here became eligible there."""
    for place, hop in enumerate(stream.hops):
        row, before = rows[hop], stream.before.get(place)
        way = 0 if before is None else need_of(network, rows[stream.hops[before]])
        window = row.wait + network.ports[row.port].ps_per_bit * row.least + way
        yield hop, stream.ports[place if before is None else before], window


def buffers_of(network, rows):
    """The bits of each row's buffer, by port and class."""
    buffers = dict.fromkeys(rows, 0)
    for stream in network.streams:
        for hop, number, window in windows_of(network, rows, stream):
            rate, burst = committed(network, stream, number)
            buffers[hop] += burst + rate * window // SECOND
    return buffers


def peak_of(crossings):
    """The most bits that are there at one time: a frame is from when it comes until its transmission ends. What ends at
    a time is gone when another comes at that time."""
    moments = [(it.came, 1, it.bits) for it in crossings] + [(it.end, 0, -it.bits) for it in crossings]
    held = peak = 0
    for _, _, change in sorted(moments):
        held += change
        peak = max(peak, held)
    return peak


def peaks_of(run):
    """The most bits that each port held of each class, where it sent any."""
    found = {}
    for crossing in run.crossings:
        found.setdefault(crossing.place, []).append(crossing)
    return {place: peak_of(crossings) for place, crossings in found.items()}


def buffered(network, rows, releases=None, order=None):
    """What `buffers` prints, with the peaks of a run where there are releases."""
    refusal = refusal_of(network, rows)
    if refusal:
        raise Refusal(refusal)
    peaks = None if releases is None else peaks_of(Run(network, releases, order))
    for place, bits in buffers_of(network, rows).items():
        text = f"buffer {written(network, place)} {bits}"
        yield text if peaks is None else f"{text} peak {peaks.get(place, 0)}"
    yield f"rows {len(rows)}"
