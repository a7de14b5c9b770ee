"""A network whose streams may send many frames at once, made for the benchmarks of `witness`."""

import os

from made_hostile import long_line

# The ports of each path, and the frames of 64 octets that a stream may send at once, of which `witness` plays so many.
PORTS, FRAMES = 16, 40


def crowded(folder, streams, more=0):
    """Writes a line of 15 bridges with so many streams from end to end, and gives the words of a call. The frames of
    each second stream have so many octets more; then each port has a burst of its own, else all have one."""
    before = os.getcwd()
    os.chdir(folder)
    long_line(streams, octets=64, mbps=10_000, frames=FRAMES, more=more)(1)
    os.chdir(before)
    return ["witness", os.path.join(folder, "n.toml"), "stream_0"]


def hops_of(streams):
    """How many hops its frames have in all bursts, a burst a port: at each port all streams send all frames, which have
    all ports."""
    return PORTS * streams * FRAMES * PORTS
