"""Schedules of a size, made for the benchmarks."""

MAX_RELEASES = 200_000

# A frame of 64 octets has 672 bits on the wire, which a stream of a made network gets back in so many picoseconds.
PAUSE_PS = 672_000_000


def schedule_file(releases, streams):
    """A schedule by which the first streams of a made network keep their buckets: they send in turn, as often as they
    may."""
    lines = ["at_ps,sender,octets"]
    for k in range(releases):
        lines.append(f"{k * -(-PAUSE_PS // streams)},stream_{k % streams},64")
    return "\n".join(lines) + "\n"
