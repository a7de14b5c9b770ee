"""Inputs at and past each limit, and of the worst form that there is, made for bench/limits. Each maker writes files
into a folder, in pieces, and takes a share of the full size: 1, or 4 for a quarter of it."""

MAX_BYTES = 16_777_216
MAX_SCHEDULE_BYTES = 33_554_432
MAX_CAPTURE_BYTES = 268_435_456
MAX_RECORDS = 1_000_000
MAX_FRAMES = 200_000
MAX_PORTS = 3_200_000
MAX_PORTS_TOGETHER = 65_536
MAX_REQUESTS = 10_000

PIECE = 1 << 16

STATIONS = '[[station]]\nname = "s1"\n[[station]]\nname = "s2"\n'
BRIDGE = '[[bridge]]\nname = "b1"\nprocessing_ns = 1000\nresidence_ns = 1000000\n'
LINKS = (
    '[[link]]\na = "s1"\nb = "b1"\nmbps = 1000\npropagation_ns = 500\n'
    '[[link]]\na = "b1"\nb = "s2"\nmbps = 1000\npropagation_ns = 500\n'
)
STREAM = (
    '[[stream]]\nname = "a"\npath = ["s1", "b1", "s2"]\nclass = 6\nrate_bps = 100000000\nburst_bits = 12336\n'
    'min_octets = 64\nmax_octets = 1522\naddress = "02:00:00:00:00:01"\nvlan = 1\n'
)

# s1 - b1 - s2 with stream a from s1 to s2.
SMALL_NETWORK = f"format = 1\n{STATIONS}{BRIDGE}{LINKS}{STREAM}"

CERTIFICATE_HEADER = "port,class,higher,equal,bursts,lower,least,wait,bound\n"
CERTIFICATE = CERTIFICATE_HEADER + (
    "s1>b1,6,0,100000000000,12336,0,672,11664000,13836000\nb1>s2,6,0,100000000000,12336,0,672,11664000,12836000\n"
)
SCHEDULE_HEADER = "at_ps,sender,octets\n"
CAPTURE_HEADER = bytes.fromhex("d4c3b2a1020004000000000000000000ffff000001000000")


def write(path, begin, part, size, end=""):
    """Writes a file of this size: its beginning, this part as often as it fits, and its end; what is left are line
    ends."""
    begin, part, end = (text.encode() if isinstance(text, str) else text for text in (begin, part, end))
    times, left = divmod(size - len(begin) - len(end), len(part))
    at_once = max(1, PIECE // len(part))
    with open(path, "wb") as file:
        file.write(begin)
        for _ in range(times // at_once):
            file.write(part * at_once)
        file.write(part * (times % at_once) + end + b"\n" * left)


def write_lines(path, lines, begin=""):
    """Writes a file of these lines, each with its end, behind this beginning."""
    with open(path, "w", encoding="ascii") as file:
        file.write(begin)
        file.writelines(lines)


def small(name, text):
    """A maker of a small file."""

    def make(share):
        del share
        write_lines(name, (), text)

    return make


def padded(name, begin, part, size, end=""):
    """A maker of a file of a size, or of a share of it."""

    def make(share):
        around = len(begin) + len(end)
        write(name, begin, part, size if share == 1 else around + (size - around) // share, end)

    return make


def repeated(name, begin, count, line):
    """A maker of a file of so many lines, or a share of them, the k-th of which `line` gives."""

    def make(share):
        write_lines(name, (line(k) for k in range(count // share)), begin)

    return make


def nested(depth, opening, closing):
    """A maker of a network whose key x nests so deep."""
    return small("n.toml", f"format = 1\nx = {opening * depth}1{closing * depth}\n")


def letters(k):
    """The number k in five letters."""
    out = ""
    for _ in range(5):
        k, place = divmod(k, 26)
        out = chr(97 + place) + out
    return out


def capture(records):
    """A maker of a capture of so many records without captured bytes."""

    def make(share):
        write("c.pcap", CAPTURE_HEADER, bytes(16), len(CAPTURE_HEADER) + records // share * 16)

    return make


def sized_capture(records, more):
    """A maker of a capture of so many records of one length, the last of which ends where a file may end, and of so
    many bytes behind it."""
    length = MAX_CAPTURE_BYTES // records

    def make(share):
        size = records // share * length
        with open("c.pcap", "wb") as file:
            file.write(CAPTURE_HEADER)
            for at in range(len(CAPTURE_HEADER), size, length):
                captured = min(length, size - at) - 16
                file.seek(at)
                file.write(bytes(8) + captured.to_bytes(4, "little") * 2)
            file.truncate(size + more)

    return make


def station_capture(own, other):
    """A maker of a capture of so many frames of stream a and so many of none, spread evenly, a millisecond apart."""
    frame = bytes.fromhex("020000000001" "020000000011" "8100c0010800")
    stranger = bytes.fromhex("0200000000ff" "020000000011" "8100c0010800")

    def make(share):
        with open("c.pcap", "wb") as file:
            file.write(CAPTURE_HEADER)
            for k in range((own + other) // share):
                second, milli = divmod(k, 1000)
                at = second.to_bytes(4, "little") + (1000 * milli).to_bytes(4, "little")
                kind = frame if k * own // (own + other) != (k + 1) * own // (own + other) else stranger
                file.write(at + len(kind).to_bytes(4, "little") + (1518).to_bytes(4, "little") + kind)

    return make


# A torus of bridges, in which any two bridges that are apart in row and column have several least walks, with
# stations at some of them: 1024 nodes. A walk from a bridge to the one 7 rows and 7 columns on has 14 links, and 3432
# of them tie.
ROWS, COLUMNS, APART = 28, 32, 7
TORUS_STATIONS = 1024 - ROWS * COLUMNS


# Stations stand in diagonals, so that the one 7 rows and 7 columns on has one too.
PLACES = [(row, (row + shift) % COLUMNS) for shift in (0, 8, 16, 24) for row in range(ROWS)]
PLACES += [(row, (row + 4) % COLUMNS) for row in range(TORUS_STATIONS - len(PLACES))]


def bridge(row, column):
    """The name of a bridge of the torus; that of the station at it begins with s in place of b."""
    return f"b{row % ROWS}_{column % COLUMNS}"


def station(row, column):
    """The name of a station of the torus."""
    return "s" + bridge(row, column)[1:]


def start_of(k):
    """The row and the column at which stream or flow k begins."""
    diagonal, row = divmod(k * 37 % (4 * ROWS), ROWS)
    return PLACES[diagonal * ROWS + row % (ROWS - APART)]


def torus_routes(senders):
    """The ports of each sender: of two that a bridge's links to the right and down give, the first is the one to the
    right, so the first of all least walks goes to the right first."""
    for k in range(senders):
        row, column = start_of(k)
        nodes = [station(row, column)] + [bridge(row, column + step) for step in range(APART)]
        nodes += [bridge(row + step, column + APART) for step in range(APART + 1)]
        nodes.append(station(row + APART, column + APART))
        yield [f"{a}>{b}" for a, b in zip(nodes, nodes[1:])]


def has_torus_routes(senders):
    """A test of what `show` printed: whether the senders have these ports."""

    def test(lines):
        shown = [line.split() for line in lines if line.startswith(b"stream ") or line.startswith(b"flow ")]
        due = torus_routes(senders)
        return len(shown) == senders and all([word.decode() for word in line[3:]] == next(due) for line in shown)

    return test


def torus_lines(streams, flows, share):
    """The lines of the network of ties, each of whose streams and flows has 16 ports."""
    yield "format = 1\n"
    for place in PLACES:
        yield f'[[station]]\nname = "{station(*place)}"\n'
    bridges = [(row, column) for row in range(ROWS) for column in range(COLUMNS)]
    for place in bridges:
        yield f'[[bridge]]\nname = "{bridge(*place)}"\nprocessing_ns = 1000\nresidence_ns = 1000000000\n'
    links = [(bridge(r, c), other) for r, c in bridges for other in (bridge(r, c + 1), bridge(r + 1, c))]
    links += [(station(*place), bridge(*place)) for place in PLACES]
    for a, b in links:
        yield f'[[link]]\na = "{a}"\nb = "{b}"\nmbps = 100000\npropagation_ns = 500\n'
    for k in range((streams + flows) // share):
        row, column = start_of(k)
        ends = f'from = "{station(row, column)}"\nto = "{station(row + APART, column + APART)}"\n'
        if k < streams // share:
            yield (
                f'[[stream]]\nname = "stream_{k}"\n{ends}class = {1 + k % 7}\nrate_bps = 1000000\nburst_bits = 12336\n'
                "min_octets = 64\nmax_octets = 1522\n"
            )
        else:
            yield f'[[flow]]\nname = "flow_{k}"\n{ends}max_octets = 1522\n'


def torus_requests(count):
    """A maker of so many requests to enter the network of ties, each by a route of 16 ports and in the lowest class
    that there is; every fourth of them withdraws the stream before it."""

    def request(k):
        if k % 4 == 3:
            return f"withdraw new_{k - 1}\n"
        row, column = start_of(k)
        ends = f"{station(row, column)} {station(row + APART, column + APART)}"
        return f"admit new_{k} {ends} lowest 1000000 12336 64 1522 1000000000\n"

    return repeated("r.txt", "", count, request)


def torus(streams, flows):
    """A maker of the network of ties."""

    def make(share):
        write_lines("n.toml", torus_lines(streams, flows, share))

    return make


def padded_name(name, length):
    """A name of at least this length."""
    return name + "_" * (length - len(name))


def long_line(streams, length=0, flows=0, rate=1_000_000, octets=2000, mbps=1000, frames=1, more=0):
    """A maker of a line of 15 bridges with streams and flows from end to end: 16 ports, as many as a path may have.
    All names have at least this length, frames at most so many octets, those of each second stream so many more, and
    bursts so many of them."""
    nodes = [padded_name(name, length) for name in ["t"] + [f"b{k}" for k in range(15)] + ["u"]]
    ends = f'from = "{nodes[0]}"\nto = "{nodes[-1]}"\n'

    def lines(share):
        yield f'format = 1\n[[station]]\nname = "{nodes[0]}"\n[[station]]\nname = "{nodes[-1]}"\n'
        for name in nodes[1:-1]:
            yield f'[[bridge]]\nname = "{name}"\nprocessing_ns = 1000\nresidence_ns = 1000000000\n'
        for a, b in zip(nodes, nodes[1:]):
            yield f'[[link]]\na = "{a}"\nb = "{b}"\nmbps = {mbps}\npropagation_ns = 500\n'
        for k in range(streams // share):
            most = octets + more * (k % 2)
            yield (
                f'[[stream]]\nname = "{padded_name(f"stream_{k}", length)}"\n{ends}'
                f"class = {6 if rate > 100_000 else 1 + k % 7}\nrate_bps = {rate}\n"
                f"burst_bits = {frames * 8 * (most + 20)}\nmin_octets = 64\nmax_octets = {most}\n"
                f'address = "02:00:00:00:{k >> 8:02x}:{k & 255:02x}"\nvlan = 1\n'
            )
        for k in range(flows // share):
            yield f'[[flow]]\nname = "flow_{k}"\n{ends}max_octets = {octets}\n'

    def make(share):
        write_lines("n.toml", lines(share if flows else 1))

    return make


# The most listeners of a stream, all stations around a bridge but its talker; the most streams to all of them; and the
# most frames of such streams in a run.
LISTENERS, TREES = 1022, 64
TREE_FRAMES = MAX_PORTS // (LISTENERS + 1)


# What a bridge has whose clock deviates and steps.
CLOCK = "clock_ppm = 100\nclock_step_ps = 8000\n"


def hub(streams, grows=True, clock=""):
    """A maker of a bridge with as many stations as there may be, and of streams from the first one to all others, or of
    a share of these where that is asked for. The bridge has this clock."""
    names = [f"s{k}" for k in range(LISTENERS + 1)]
    to = ", ".join(f'"{name}"' for name in names[1:])

    def lines(share):
        yield 'format = 3\n[[bridge]]\nname = "b"\nprocessing_min_ns = 1000\nprocessing_max_ns = 1000\n'
        yield "residence_ns = 1000000000\n" + clock
        for name in names:
            yield f'[[station]]\nname = "{name}"\n[[link]]\na = "{name}"\nb = "b"\nmbps = 1000\npropagation_ns = 500\n'
        for k in range(streams // share):
            yield f'[[stream]]\nname = "stream_{k}"\nfrom = "s0"\nto = [{to}]\nclass = {1 + k % 7}\n'
            yield "rate_bps = 1000000\nburst_bits = 672\nmin_octets = 64\nmax_octets = 64\n"

    def make(share):
        write_lines("n.toml", lines(share if grows else 1))

    return make


# The most ports of a route in format 3. And what a line of bridges has but for its ends, as many as nodes may be: its
# 2046 ports with two streams and two flows each are nearly as many of both as there may be.
LONG_PORTS = 64
NEIGHBOURS = 1022


def long_route(streams, grows=True, octets=64, clock=""):
    """A maker of a line of 63 bridges with streams from end to end, each of which has 64 ports, or with a share of them
    where that is asked for. Each bridge has this clock."""
    nodes = ["t"] + [f"b{k}" for k in range(LONG_PORTS - 1)] + ["u"]
    ends = f'from = "{nodes[0]}"\nto = "{nodes[-1]}"\n'

    def lines(share):
        yield f'format = 3\n[[station]]\nname = "{nodes[0]}"\n[[station]]\nname = "{nodes[-1]}"\n'
        for name in nodes[1:-1]:
            yield f'[[bridge]]\nname = "{name}"\nprocessing_min_ns = 1000\nprocessing_max_ns = 1000\n'
            yield "residence_ns = 1000000000\n" + clock
        for a, b in zip(nodes, nodes[1:]):
            yield f'[[link]]\na = "{a}"\nb = "{b}"\nmbps = 1000\npropagation_ns = 500\n'
        for k in range(streams // share):
            yield f'[[stream]]\nname = "stream_{k}"\n{ends}class = {1 + k % 7}\nrate_bps = 100000\n'
            yield f"burst_bits = {8 * (octets + 20)}\nmin_octets = 64\nmax_octets = {octets}\n"

    return lambda share: write_lines("n.toml", lines(share if grows else 1))


def neighbours(streams, flows, clock=""):
    """A maker of a line of bridges alone, with so many tables for streams, and for flows, at each of its ports. Each
    bridge has this clock."""

    def lines(share):
        bridges = NEIGHBOURS // share + 2
        yield "format = 3\n"
        for k in range(bridges):
            yield f'[[bridge]]\nname = "b{k}"\nprocessing_min_ns = 1000\nprocessing_max_ns = 1000\n'
            yield "residence_ns = 1000000000\n" + clock
        for k in range(bridges - 1):
            yield f'[[link]]\na = "b{k}"\nb = "b{k + 1}"\nmbps = 1000\npropagation_ns = 500\n'
        for k in range(streams):
            yield f'[[link_local]]\nname = "own_{k}"\nclass = {7 - k % 7}\nrate_bps = 100000\nburst_bits = 672\n'
            yield "min_octets = 64\nmax_octets = 64\n"
        for k in range(flows):
            yield f'[[link_local_flow]]\nname = "other_{k}"\nmax_octets = 64\n'

    return lambda share: write_lines("n.toml", lines(share))


def late_requests(count):
    """A maker of so many requests to enter the line from end to end, with a deadline that is met in no class."""
    return repeated("r.txt", "", count, lambda k: f"admit new_{k} t u lowest 1000 672 64 64 1\n")


# What a rate of 1 Mb/s gives to a frame of 64 octets, of 672 wire bits.
PAUSE_PS = 672_000_000


def releases(streams, pause, octets=64, begin=0, length=0, count=MAX_FRAMES):
    """A maker of a schedule of as many frames as a run may have, or of so many, of these streams in turn, so many
    picoseconds apart and from this time on. The streams' names have at least this length."""
    names = [padded_name(f"stream_{k}", length) for k in range(streams)]

    def release(k):
        return f"{begin + k * pause},{names[k % streams]},{octets}\n"

    return repeated("s.csv", SCHEDULE_HEADER, count, release)
