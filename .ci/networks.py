"""Networks of small size and the rules of docs/DEFINITIONS.md that several scripts judge by, written here once more:
ports, routes, what senders make of a port, waits, bounds, and the reason against a network. Nothing here asks the
program."""

import tomllib
from typing import NamedTuple

SECOND = 10**12

# The rates that a link may have, in megabits per second.
RATES = (10, 100, 1000, 2500, 5000, 10000, 25000, 40000, 50000, 100000)

HEADER = "port,class,higher,equal,bursts,lower,least,wait,bound"


def bits_of(octets):
    """The bits of a frame on the wire: preamble, start delimiter and gap are 20 octets more."""
    return 8 * (octets + 20)


class Port(NamedTuple):
    """A port: its ends, the picoseconds of a bit, the least and the greatest latency behind it, and the maximum
    residence time of the bridge that it leads to (None: a station), all in picoseconds."""

    start: str
    end: str
    ps_per_bit: int
    earliest: int
    latency: int
    residence: int | None

    def name(self):
        """The port as it is written."""
        return f"{self.start}>{self.end}"


class Sender(NamedTuple):
    """A stream or a flow: its name, the numbers of its ports, its class at each of them, and what it declares. A flow
    has class 0, and neither rate nor burst. The ports are those of the path to the first listener, and then for each
    further listener those by which only it is reached of those so far; `branches` has for each of these the place of
    the first such port, and that of the port before it, or None where the talker sends it there."""

    name: str
    path: tuple
    classes: tuple
    rate: int
    burst: int
    least: int
    most: int
    deadline_ns: int = 10**9
    branches: tuple = ()

    def is_stream(self):
        """Whether it is a stream."""
        return self.classes[0] > 0

    def legs(self):
        """For each listener the places of the ports by which only it is reached of those so far."""
        firsts = [0, *(first for first, _ in self.branches), len(self.path)]
        return [range(*ends) for ends in zip(firsts, firsts[1:])]

    def before(self):
        """For each place that of the port before; the talker's ports have none."""
        found = {place: place - 1 for place in range(1, len(self.path))} | dict(self.branches)
        return {place: before for place, before in found.items() if before is not None}

    def routes(self):
        """For each listener the places of the ports on the route there."""
        before, routes = self.before(), [[leg[-1]] for leg in self.legs()]
        for route in routes:
            while route[0] in before:
                route.insert(0, before[route[0]])
        return routes

    def with_class(self, cls):
        """The same with this class at each port."""
        return self._replace(classes=(cls,) * len(self.path))

    def places(self):
        """Each of its ports with its class there."""
        return list(zip(self.path, self.classes))


class Each(NamedTuple):
    """A table that stands for a stream, or a flow, at each port: its text, and all these."""

    text: str
    senders: list


class Row(NamedTuple):
    """The fields of a row of the least certificate, behind its port and class. Of an overload wait and bound are
    None."""

    higher: int
    equal: int
    bursts: int
    lower: int
    least: int
    wait: int | None
    bound: int | None


def clock_text(clock):
    """The lines that declare a clock: its deviation and its step, each of which may be None."""
    named = zip(("clock_ppm", "clock_step_ps"), clock)
    return "".join(f"\n{key} = {number}" for key, number in named if number is not None)


def node_tables(bridges, fmt, stations, clocks):
    """The tables of the nodes; a bridge is its least and its greatest processing and its residence, in nanoseconds.
    Some may have clocks, by name."""
    yield f"format = {fmt}"
    yield from (f'[[station]]\nname = "{name}"' for name in stations)
    for name, (least, most, residence) in bridges.items():
        times = f"processing_min_ns = {least}\nprocessing_max_ns = {most}" if fmt > 1 else f"processing_ns = {most}"
        clock = clock_text(clocks.get(name, ()))
        yield f'[[bridge]]\nname = "{name}"\n{times}\nresidence_ns = {residence}{clock}'


def topology_text(fmt, stations, bridges, links, clocks=None):
    """The text of a network file as far as its links, each of which has two ends, a rate and a propagation."""
    tables = list(node_tables(bridges, fmt, stations, clocks or {}))
    for a, b, mbps, propagation in links:
        tables.append(f'[[link]]\na = "{a}"\nb = "{b}"\nmbps = {mbps}\npropagation_ns = {propagation}')
    return "\n".join(tables) + "\n"


def listed(names):
    """Names as an array of a network file."""
    return "[" + ", ".join(f'"{name}"' for name in names) + "]"


def ports_of(bridges, links):
    """The ports of the links, in order."""
    ports = []
    for a, b, mbps, propagation in links:
        for start, end in ((a, b), (b, a)):
            least, most, residence = bridges.get(end, (0, 0, None))
            stay = None if residence is None else 1000 * residence
            passing = [1000 * (propagation + processing) for processing in (least, most)]
            ports.append(Port(start, end, 10**6 // mbps, *passing, stay))
    return ports


def trunk(shape, count):
    """The links between so many bridges in a line, a tree or a ring."""
    if shape == "tree":
        return [(f"b{(i - 1) // 2}", f"b{i}") for i in range(1, count)]
    links = [(f"b{i}", f"b{i + 1}") for i in range(count - 1)]
    return links + ([(f"b{count - 1}", "b0")] if shape == "ring" and count > 2 else [])


def one_on(ports, ways, level):
    """The nodes that are one port further than those of a level and were not reached before, each with its first
    way."""
    found = {}
    for node in level:
        for number, port in enumerate(ports):
            if port.start == node and port.end not in ways:
                way = ways[node] + (number,)
                found[port.end] = min(way, found.get(port.end, way))
    return found


def least_walk(ports, start, end):
    """The ports from one node to another: the fewest, and of such ways the first by the numbers of its ports."""
    ways, level = {start: ()}, [start]
    while level and end not in ways:
        found = one_on(ports, ways, level)
        ways.update(found)
        level = list(found)
    return ways.get(end)


def row_at(port, cls, there):
    """The row of a port and class, of the senders there, each behind its class at this port."""
    higher = port.ps_per_bit * sum(sender.rate for other, sender in there if other > cls)
    equal = port.ps_per_bit * sum(sender.rate for other, sender in there if other == cls)
    bursts = sum(sender.burst for other, sender in there if other >= cls)
    lower = max([0] + [bits_of(sender.most) for other, sender in there if other < cls])
    least = min(bits_of(sender.least) for other, sender in there if other == cls)
    if higher + equal > SECOND:
        return Row(higher, equal, bursts, lower, least, None, None)
    wait = -(-SECOND * port.ps_per_bit * (lower + bursts - least) // (SECOND - higher))
    return Row(higher, equal, bursts, lower, least, wait, wait + port.ps_per_bit * least + port.latency)


def rows_of(ports, senders):
    """The row of each port and class that a stream uses, in order."""
    there = {number: [] for number in range(len(ports))}
    for sender in senders:
        for number, cls in sender.places():
            there[number].append((cls, sender))
    places = sorted({(number, cls) for number, users in there.items() for cls, _ in users if cls > 0})
    return {(number, cls): row_at(ports[number], cls, there[number]) for number, cls in places}


def certificate_of(ports, rows):
    """The lines of the certificate of these rows."""
    return [HEADER] + [f"{ports[k].name()},{cls},{','.join(map(str, row))}" for (k, cls), row in rows.items()]


def tree_of(walks, ports):
    """The ports of walks from one node, of which each further one leaves the others for good, and the branches. Walks
    by which a listener would be on the way to another one are left out."""
    path, branches, reached, lasts = list(walks[0]), [], {ports[number].end for number in walks[0]}, {walks[0][-1]}
    for walk in walks[1:]:
        own = [number for number in walk if number not in path]
        before = walk[len(walk) - len(own) - 1] if len(own) < len(walk) else None
        if not own or before in lasts or reached & {ports[number].end for number in own}:
            continue
        branches.append((len(path), None if before is None else path.index(before)))
        path += own
        reached |= {ports[number].end for number in own}
        lasts.add(walk[-1])
    return tuple(path), tuple(branches)


def called(ports, sender, leg):
    """How a listener is called: by its stream, and but for the first one by its station too."""
    return f"{sender.name} {ports[sender.path[sender.legs()[leg][-1]]].end}" if leg else sender.name


def sum_of(rows, sender, leg=0):
    """The sum of the bounds along a stream's route to a listener."""
    places = sender.places()
    return sum(rows[places[at]].bound for at in sender.routes()[leg])


def listeners_of(senders):
    """The listeners of the streams, each as its stream and its leg."""
    return [(sender, leg) for sender in senders if sender.is_stream() for leg in range(1 + len(sender.branches))]


def overload(ports, rows):
    """The first overload, as it is printed; None where there is none."""
    loads = ((ports[k].name(), cls, row.higher + row.equal) for (k, cls), row in rows.items())
    return next((f"overloaded {name} {cls} {load}" for name, cls, load in loads if load > SECOND), None)


def overstay(ports, rows):
    """The first wait and spread that are longer than the residence behind; None where there is none."""
    needs = ((ports[k], cls, row.wait + ports[k].latency - ports[k].earliest) for (k, cls), row in rows.items())
    behind = ((port, cls, need) for port, cls, need in needs if port.residence is not None)
    return next((f"residence {port.name()} {cls} {need}" for port, cls, need in behind if need > port.residence), None)


def first_late(ports, senders, rows):
    """The first listener for which the least bounds make a stream late; None where there is none."""
    sums = ((it, leg, sum_of(rows, it, leg)) for it, leg in listeners_of(senders))
    late = ((it, leg, total) for it, leg, total in sums if total > 1000 * it.deadline_ns)
    return next((f"deadline {called(ports, it, leg)} {total}" for it, leg, total in late), None)


def reason_against(ports, senders, rows):
    """The first reason why no certificate holds, as it is printed behind `refused`; None where one holds."""
    return overload(ports, rows) or overstay(ports, rows) or first_late(ports, senders, rows)


def bound_due(ports, senders):
    """The status and the lines that are due to `bound`."""
    rows = rows_of(ports, senders)
    reason = reason_against(ports, senders, rows)
    return (0, certificate_of(ports, rows)) if reason is None else (3, [f"refused {reason}"])


def check_due(ports, senders):
    """The lines that are due to `check` of the least certificate, where it holds."""
    lines, rows, streams = [], rows_of(ports, senders), [sender for sender in senders if sender.is_stream()]
    for sender, leg in listeners_of(streams):
        own = [sender.places()[at] for at in sender.legs()[leg]]
        lines += [f"hop {sender.name} {ports[k].name()} {rows[k, cls].bound}" for k, cls in own]
        lines.append(f"sum {called(ports, sender, leg)} {sum_of(rows, sender, leg)}")
    return [*lines, f"accepted {len(streams)}"]


def narrowed(senders):
    """The senders, each stream of them with the wire bits of its longest frame as its burst."""
    return [it._replace(burst=bits_of(it.most)) if it.is_stream() else it for it in senders]


def buffers_of(ports, senders, rows):
    """The buffer of each row, in bits: what each stream of the class sends within the time by which frames that are
    together at the port differ."""
    found = dict.fromkeys(rows, 0)
    for sender in filter(Sender.is_stream, senders):
        ways = {}
        for at, (number, cls) in enumerate(sender.places()):
            port, row = ports[number], rows[number, cls]
            time = row.wait + port.ps_per_bit * row.least + ways.get(sender.before().get(at), 0)
            found[number, cls] += sender.burst + sender.rate * time // SECOND
            ways[at] = row.wait + port.latency - port.earliest
    return found


def buffers_due(ports, senders, peaks=None):
    """The lines that are due to `buffers` of the least certificate, where it holds; with these peaks, if any."""
    buffers = buffers_of(ports, senders, rows_of(ports, senders))
    lines = [f"buffer {ports[number].name()} {cls} {bits}" for (number, cls), bits in buffers.items()]
    if peaks is not None:
        lines = [f"{line} peak {peaks.get(place, 0)}" for line, place in zip(lines, buffers)]
    return [*lines, f"rows {len(buffers)}"]


def declared_in(path):
    """The ports and the senders of a network file of format 1 in which routes are given by their ends."""
    with open(path, "rb") as file:
        tables = tomllib.load(file)
    bridges = {it["name"]: (it["processing_ns"], it["processing_ns"], it["residence_ns"]) for it in tables["bridge"]}
    ports = ports_of(bridges, [(it["a"], it["b"], it["mbps"], it["propagation_ns"]) for it in tables["link"]])
    senders = []
    for it in tables["stream"]:
        way = least_walk(ports, it["from"], it["to"])
        numbers = [it[key] for key in ("rate_bps", "burst_bits", "min_octets", "max_octets", "deadline_ns")]
        senders.append(Sender(it["name"], way, (it["class"],) * len(way), *numbers))
    return ports, senders


class Network:
    """A random network: its nodes and links as text, its ports, its stations and its nodes. Senders are added by those
    who draw it, and with them in `of_each` the tables that stand for some at each port."""

    # How many bridges there may be, how many stations more, rates and propagations of links, and the greatest
    # processing and the residences of bridges, in nanoseconds.
    BRIDGES, MORE_STATIONS, RATES, PROPAGATIONS = (1, 2, 3, 4), (1, 2), (100, 1000, *RATES), (0, 500)
    PROCESSING, RESIDENCES = (0, 1000, 5000), (100_000, 400_000, 10_000_000)

    # The formats of its file. In format 3 half of the streams have several listeners, and half begin or may end at
    # bridges. Some networks of it are long lines, and in some there are streams, or flows, at each port.
    FORMATS = (1, 2)
    LONG, LONG_BRIDGES, OF_EACH_PORT = 0.15, (17, 24, 40), 0.3

    # The share of networks of format 3 whose bridges have clocks, and what these may deviate and step. No rule of this
    # file reckons with a clock: there are some only where what is due is worked out elsewhere.
    CLOCKED, DEVIATIONS, STEPS = 0, (1, 20, 100, 1000), (1, 8000, 200_000, 10_000_000)

    def __init__(self, draw):
        self.draw, self.fmt, count = draw, draw.choice(self.FORMATS), draw.choice(self.BRIDGES)
        self.is_long = self.fmt > 2 and draw.random() < self.LONG
        count = draw.choice(self.LONG_BRIDGES) if self.is_long else count
        self.stations = [f"s{i}" for i in range(4 if self.is_long else count + draw.choice(self.MORE_STATIONS))]
        self.bridges = {f"b{i}": self.bridge() for i in range(count)}
        has_clocks = self.fmt > 2 and self.CLOCKED and draw.random() < self.CLOCKED
        self.clocks = {name: self.clock() for name in self.bridges} if has_clocks else {}
        self.nodes, self.of_each = [*self.stations, *self.bridges], []
        places = (0, count - 1, 1, count // 2) if self.is_long else range(len(self.stations))
        ends = [(name, f"b{i % count}") for i, name in zip(places, self.stations)]
        ends += trunk("line" if self.is_long else draw.choice(("line", "tree", "ring")), count)
        links = [(a, b, draw.choice(self.RATES), draw.choice(self.PROPAGATIONS)) for a, b in ends]
        self.text = topology_text(self.fmt, self.stations, self.bridges, links, self.clocks)
        self.ports = ports_of(self.bridges, links)

    def bridge(self):
        """The least and the greatest processing of a bridge, and its residence, in nanoseconds."""
        most = self.draw.choice(self.PROCESSING)
        least = self.draw.choice((0, most // 2, most)) if self.fmt > 1 else most
        return least, most, self.draw.choice(self.RESIDENCES)

    def clock(self):
        """The deviation and the step of a bridge's clock: none, one of them or both."""
        draw, ranges = self.draw, (self.DEVIATIONS, self.STEPS)
        deviation, step = (draw.choice((*of, draw.randint(0, of[-1]))) for of in ranges)
        return draw.choice(((None, None), (deviation, None), (None, step), (deviation, step), (deviation, step)))

    def walk(self, ends):
        """The path of a sender between two nodes."""
        return least_walk(self.ports, *ends)

    def ends(self, count):
        """So many different nodes: stations, or in format 3 half of the time bridges too."""
        nodes = self.nodes if self.fmt > 2 and self.draw.random() < 0.5 else self.stations
        return self.draw.sample(nodes, min(count, len(nodes)))

    def at_each_port(self, kind, sender):
        """The streams or flows of a table that stands for one at each port; they are like this one there."""
        text = f'[[{kind}]]\nname = "{sender.name}"\n{self.numbers_text(sender)}'
        alike = [sender._replace(name=f"{sender.name}-{number}", path=(number,)) for number in range(len(self.ports))]
        self.of_each.append(Each(text, alike))
        return alike

    def streams_at_ports(self):
        """Streams at each port, as time synchronisation: in format 3 some networks have them, a few of two kinds."""
        found, draw = [], self.draw
        for name in ("g", "h"):
            if self.fmt < 3 or draw.random() >= self.OF_EACH_PORT:
                break
            least, most, cls = 64, draw.choice((64, 90, 300)), draw.choice((7, 7, draw.randint(1, 7)))
            burst = bits_of(most) * draw.choice((1, 1, 2))
            found += self.at_each_port("link_local", Sender(name, (), (cls,), 8800, burst, least, most))
        return found

    def flows_at_ports(self):
        """Flows at each port, as neighbour discovery: in format 3 some networks have them."""
        if self.fmt < 3 or self.draw.random() >= self.OF_EACH_PORT:
            return []
        return self.at_each_port("link_local_flow", Sender("l", (), (0,), None, None, 64, self.draw.randint(64, 2000)))

    def ends_of(self, sender):
        """The talker of a sender and its first listener."""
        return self.ports[sender.path[0]].start, self.ports[sender.path[sender.legs()[0][-1]]].end

    def route_text(self, sender):
        """The lines that declare a sender's routes, by their ends or, of some with several listeners, by all nodes."""
        start, ends = self.ends_of(sender)[0], [self.ports[sender.path[leg[-1]]].end for leg in sender.legs()]
        if len(ends) == 1:
            return f'from = "{start}"\nto = "{ends[0]}"'
        if sender.most % 2 == 0:
            return f'from = "{start}"\nto = {listed(ends)}'
        routes = [[start, *(self.ports[sender.path[at]].end for at in route)] for route in sender.routes()]
        return f"paths = [{', '.join(map(listed, routes))}]"

    def numbers_text(self, sender):
        """The lines that declare a sender's numbers, with one class, or with one at each port where they differ."""
        text = f"max_octets = {sender.most}\n"
        if not sender.is_stream():
            return text
        one = len(set(sender.classes)) == 1
        classes = f"class = {sender.classes[0]}" if one else f"classes = {list(sender.classes)}"
        return (
            f"{text}{classes}\nrate_bps = {sender.rate}\nburst_bits = {sender.burst}\nmin_octets = {sender.least}\n"
            f"deadline_ns = {sender.deadline_ns}\n"
        )

    def table(self, sender):
        """The table of a stream or a flow."""
        kind = "stream" if sender.is_stream() else "flow"
        return f'[[{kind}]]\nname = "{sender.name}"\n{self.route_text(sender)}\n{self.numbers_text(sender)}'

    def tables(self, senders):
        """The tables of streams, or of flows. A table for each port stands in the place of those that it stands for,
        where they are the last of all."""
        texts = []
        for each in reversed(self.of_each):
            if each.senders == senders[-len(each.senders) :]:
                texts.insert(0, each.text)
                senders = senders[: -len(each.senders)]
        return "".join([*map(self.table, senders), *texts])

    def file(self, senders):
        """The text of the network file with these senders."""
        senders = list(senders)
        streams, flows = ([it for it in senders if it.is_stream() == kind] for kind in (True, False))
        return self.text + self.tables(streams) + self.tables(flows)


class Varied(Network):
    """A random network with streams and flows of many kinds, over links of every rate."""

    RATES, PROPAGATIONS = RATES, (0, 10, 500)
    PROCESSING, RESIDENCES = (0, 100, 1000, 5000), (50_000, 1_000_000, 10_000_000)
    ALIKE = False

    # The least and the most streams and flows, and the rates of streams.
    STREAMS, FLOWS, STREAM_RATES = (1, 6), (0, 2), (10_000, 300_000, 1_000_000, 4_999_999)

    def __init__(self, draw):
        super().__init__(draw)
        self.senders = [self.stream(f"s{k}") for k in range(draw.randint(*self.STREAMS))]
        self.senders += self.streams_at_ports()
        self.senders += [self.flow(f"f{k}") for k in range(draw.randint(*self.FLOWS))]
        self.senders += self.flows_at_ports()

    def way(self):
        """The path between two nodes."""
        return self.walk(self.ends(2))

    def tree(self):
        """The ports of a stream, and its branches: to one listener, or in format 3 half of the time to several."""
        if self.fmt < 3 or self.draw.random() < 0.5:
            return self.way(), ()
        start, *ends = self.ends(self.draw.randint(2, len(self.stations)))
        return tree_of([self.walk((start, end)) for end in ends], self.ports)

    def stream(self, name):
        """A stream of this name, four in ten of them with a class at each port."""
        draw, (path, branches) = self.draw, self.tree()
        least, most = draw.randint(64, 300), draw.randint(300, 2000)
        burst = bits_of(most) + draw.choice((0, 1, 5000, 30000))
        classes = [draw.randint(1, 7)] * len(path)
        if draw.random() < 0.4:
            classes = [draw.randint(1, 7) for _ in path]
        rate = draw.choice(self.STREAM_RATES)
        return Sender(name, path, tuple(classes), rate, burst, least, most, branches=branches)

    def flow(self, name):
        """A flow of this name."""
        path = self.way()
        return Sender(name, path, (0,) * len(path), None, None, 64, self.draw.randint(64, 2000))


class Alike(Varied):
    """A random network of equal links, and of equal streams but for their bursts: frames meet, tie and would overtake
    each other. Of the bursts the first lets twelve of the longest frames go at once."""

    RATES, PROPAGATIONS, PROCESSING, RESIDENCES = (1000,), (0,), (1_000_000,), (10_000_000,)
    ALIKE, STREAM_RATES, BURSTS = True, (100_000_000,), (200_000, 200_000, 60_000)

    def bridge(self):
        least, most, residence = super().bridge()
        return (0 if least < most else least), most, residence

    def stream(self, name):
        (path, branches), burst = self.tree(), self.draw.choice(self.BURSTS)
        return Sender(name, path, (6,) * len(path), *self.STREAM_RATES, burst, 64, 1522, branches=branches)

    def flow(self, name):
        path = self.way()
        return Sender(name, path, (0,) * len(path), None, None, 64, 1522)
