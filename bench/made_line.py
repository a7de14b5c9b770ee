"""A line of eight bridges, and schedules of a length for it, made for the benchmarks."""

BRIDGES = 8

# Stations at each end of the line, and the streams from each to its partner at the other end.
STATIONS = 4
STREAMS_OF_A_STATION = 10

# The ports of each path: that of the talker, and one of each bridge.
PORTS_OF_A_PATH = BRIDGES + 1

# What the rate of a stream, 10 Mb/s, gives to its longest frame, of 12336 wire bits, in picoseconds.
PERIOD = 1_233_600_000


def line_network():
    """The text of the network file."""
    lines = ["format = 1"]
    for i in range(STATIONS):
        lines.append(f'[[station]]\nname = "t{i}"\n[[station]]\nname = "u{i}"')
    for i in range(BRIDGES):
        lines.append(f'[[bridge]]\nname = "b{i}"\nprocessing_ns = 1000\nresidence_ns = 1000000')
    links = [(f"t{i}", "b0") for i in range(STATIONS)] + [(f"u{i}", f"b{BRIDGES - 1}") for i in range(STATIONS)]
    for a, b in links + [(f"b{i}", f"b{i + 1}") for i in range(BRIDGES - 1)]:
        lines.append(f'[[link]]\na = "{a}"\nb = "{b}"\nmbps = 1000\npropagation_ns = 500')
    for i in range(STATIONS):
        for k in range(STREAMS_OF_A_STATION):
            lines.append(
                f'[[stream]]\nname = "talk_{i}_{k}"\nfrom = "t{i}"\nto = "u{i}"\nclass = 6\nrate_bps = 10000000\n'
                f"burst_bits = 12336\nmin_octets = 64\nmax_octets = 1522\ndeadline_ns = 10000000"
            )
    return "\n".join(lines) + "\n"


def line_schedule(releases):
    """The text of a schedule: the streams release in turn, and each keeps its bucket."""
    names = [f"talk_{i}_{k}" for i in range(STATIONS) for k in range(STREAMS_OF_A_STATION)]
    lines = ["at_ps,sender,octets"]
    for n in range(releases):
        turn, place = divmod(n, len(names))
        lines.append(f"{turn * PERIOD + place * 1_000_000},{names[place]},{64 + n * 37 % 1459}")
    return "\n".join(lines) + "\n"
