"""Network files: the form of the tables, nodes and links, routes, and the first fault of all these; what `show` prints.

The text is parsed by `tomllib` of Python, which knows TOML 1.0. A text that it refuses is not judged where something
stands in it that TOML 1.1 may allow: an inline table, the escapes `\\e` and `\\x`, a time without seconds (from memory,
not looked up)."""

import re
import tomllib
from collections import Counter
from dataclasses import dataclass, field
from functools import cached_property, lru_cache

from second.clocks import MOST_DEVIATION, MOST_STEP, Clock, committed, is_overrated, scheduled
from second.common import MOST_BYTES, MOST_PORTS, Fault, Unjudged, first_of, is_name, rules_of_stream

MBPS = (10, 100, 1000, 2500, 5000, 10000, 25000, 40000, 50000, 100000)
ARRAYS = ("station", "bridge", "link", "stream", "link_local", "flow", "link_local_flow")
MOST = {"station": 1024, "bridge": 1024, "link": 2048, "stream": 4096, "flow": 1024}
MOST_IN_ALL = 4096  # streams, and flows, with those of each port
OF_EACH_PORT = {"link_local": "stream", "link_local_flow": "flow"}
LONGEST_NAME = 26  # of those that stand for a sender at each port
STREAM = "name path paths from to class classes rate_bps burst_bits min_octets max_octets deadline_ns address vlan"
KEYS = {
    "top": ["format", *ARRAYS],
    "station": ["name"],
    "link": ["a", "b", "mbps", "propagation_ns"],
    "stream": STREAM.split(),
    "flow": ["name", "path", "from", "to", "max_octets"],
    "link_local": "name class rate_bps burst_bits min_octets max_octets deadline_ns".split(),
    "link_local_flow": ["name", "max_octets"],
}
CLOCK = ("clock_ppm", "clock_step_ps")
BRIDGES = {
    1: ["name", "processing_ns", "residence_ns"],
    2: ["name", "processing_min_ns", "processing_max_ns", "residence_ns"],
}
BRIDGES[3] = [*BRIDGES[2], *CLOCK]
MAY_BE_ABSENT = ("classes", "deadline_ns", "paths", *CLOCK)
PARTNER = {"from": "to", "to": "from", "address": "vlan", "vlan": "address"}
NARROW = (
    "processing_ns", "processing_min_ns", "processing_max_ns", "residence_ns", "mbps", "propagation_ns", *CLOCK
)  # fmt: skip
ADDRESS = re.compile("[0-9A-Fa-f]{2}(?::[0-9A-Fa-f]{2}){5}")
NEWER = re.compile(r"\\[ex]|\{|(?<![:\w])\d\d:\d\d(?![:\w])")
MOST_NESTED = 80
LONGEST = {1: 16, 2: 16, 3: 64}  # the most links of a route, by the format
MOST_DEADLINE = 10**9  # nanoseconds
IDEAL = Clock()


@dataclass(frozen=True)
class Port:
    """A port: its times are in picoseconds, and the residence is None where it leads to a station."""

    number: int
    leaves: str
    leads_to: str
    ps_per_bit: int
    latency: int
    earliest: int
    residence: int | None

    @property
    def name(self):
        """The port as it is written."""
        return f"{self.leaves}>{self.leads_to}"

    @property
    def spread(self):
        """The greatest latency less the least."""
        return self.latency - self.earliest


@dataclass(frozen=True)
class Sender:
    """A stream, or a flow, which has class 0 at each port, no rate and no burst; the deadline is in picoseconds.

    The ports are those of the path to the first listener, and then for each further listener those that lead there and
    to no listener before it. `branches` has for each further listener the place of the first of these among all ports,
    and the place of the port that leads to the bridge from where they go on, or None where this is the talker."""

    name: str
    ports: tuple
    classes: tuple
    least: int
    greatest: int
    rate: int = 0
    burst: int = 0
    deadline: int = 0
    identity: tuple | None = None
    branches: tuple = ()

    @property
    def hops(self):
        """The ports, each with the class there."""
        return list(zip(self.ports, self.classes))

    @cached_property
    def legs(self):
        """For each listener the places of the ports that lead there and to none before."""
        firsts = [0, *(first for first, _ in self.branches), len(self.ports)]
        return [range(*ends) for ends in zip(firsts, firsts[1:])]

    @cached_property
    def before(self):
        """For each place that of the port before; the talker's ports have none."""
        found = {place: place - 1 for place in range(1, len(self.ports))} | dict(self.branches)
        return {place: before for place, before in found.items() if before is not None}

    @cached_property
    def starts(self):
        """The places of the ports that leave the talker."""
        return [place for place in range(len(self.ports)) if place not in self.before]

    @cached_property
    def onward(self):
        """For each place those of the ports that leave the bridge to which its port leads."""
        found = {}
        for place, before in sorted(self.before.items()):
            found.setdefault(before, []).append(place)
        return found

    @cached_property
    def routes(self):
        """For each listener the places of the ports on the route there, in order."""
        return [self.route_to(leg[-1]) for leg in self.legs]

    def route_to(self, place):
        """The places of the ports on the way to this one, itself included."""
        route = [place]
        while route[-1] in self.before:
            route.append(self.before[route[-1]])
        return route[::-1]

    def hops_to(self, leg):
        """The ports on the route to a listener, each with the class there."""
        return [(self.ports[place], self.classes[place]) for place in self.routes[leg]]

    @property
    def is_flow(self):
        """Whether this is a flow."""
        return self.rate == 0


@dataclass
class Topology:
    """Stations, bridges in their order, the ports between nodes, the nodes at which routes may begin and end, and the
    clocks of the bridges."""

    stations: set
    bridges: list
    ports: list
    ends: set
    clocks: dict  # of the bridges, by name
    distances: dict = field(default_factory=dict)

    @cached_property
    def is_ideal(self):
        """Whether each clock is ideal."""
        return not any(any(clock) for clock in self.clocks.values())

    def clock_of(self, node):
        """The clock of a node; that of a station is ideal."""
        return self.clocks.get(node, IDEAL)

    @cached_property
    def between(self):
        """The number of the port from one node to another, for each two that a link joins."""
        return {(port.leaves, port.leads_to): port.number for port in self.ports}

    @cached_property
    def joined(self):
        """For each node the ports that leave it, by number."""
        found = {}
        for port in self.ports:
            found.setdefault(port.leaves, []).append(port)
        return found

    def distances_to(self, end):
        """The fewest ports from each node to this one, for each node that a walk leads from."""
        if end in self.distances:
            return self.distances[end]
        found, edge = {end: 0}, [end]
        for node in edge:
            new = [port.leads_to for port in self.joined.get(node, []) if port.leads_to not in found]
            found.update(dict.fromkeys(new, found[node] + 1))
            edge.extend(new)
        self.distances[end] = found
        return found

    def route(self, start, end):
        """The ports of the walk of fewest ports, and of those the first by port numbers, or None without a walk."""
        distances, node, walk = self.distances_to(end), start, []
        while node in distances and node != end:
            port = next(it for it in self.joined[node] if distances.get(it.leads_to) == distances[node] - 1)
            walk.append(port.number)
            node = port.leads_to
        return tuple(walk) if node == end else None

    def is_valid(self, nodes):
        """Whether a path over these nodes begins and ends at different ones where it may, and visits no node twice."""
        ends = {nodes[0], nodes[-1]}
        return len(ends) == 2 and ends <= self.ends and len(set(nodes)) == len(nodes)

    def nodes_of(self, walk):
        """The nodes that a walk of one port or more visits."""
        return [self.ports[walk[0]].leaves, *(self.ports[number].leads_to for number in walk)]


@dataclass
class Network:
    """A topology with streams and flows over it."""

    topology: Topology
    streams: list
    flows: list
    longest: int  # the most links of a route

    @property
    def ports(self):
        """The ports, by number."""
        return self.topology.ports

    @property
    def senders(self):
        """The streams, and then the flows."""
        return [*self.streams, *self.flows]

    @cached_property
    def users(self):
        """For each port the senders that have it, each with its class there."""
        found = {}
        for sender, (number, traffic_class) in ((it, hop) for it in self.senders for hop in it.hops):
            found.setdefault(number, []).append((sender, traffic_class))
        return found

    def called(self, sender, leg):
        """How a listener is called: by the stream, and but for the first one by its station too."""
        station = self.ports[sender.ports[sender.legs[leg][-1]]].leads_to
        return f"{sender.name} {station}" if leg else sender.name


def parts_of(value):
    """The values of an array or a table; none of another value."""
    if isinstance(value, dict):
        return value.values()
    return value if isinstance(value, list) else ()


def depth(value, kinds):
    """How deep values of these kinds are nested in a value."""
    return isinstance(value, kinds) + max((depth(part, kinds) for part in parts_of(value)), default=0)


def has_long_integer(value):
    """Whether a whole number in a value does not fit 64 bits."""
    return type(value) is int and not -(2**63) <= value < 2**63 or any(map(has_long_integer, parts_of(value)))


def parsed(text):
    """The tree of tables that a text declares, as far as TOML 1.0 tells."""
    try:
        return tomllib.loads(text.removeprefix("\ufeff"))
    except ValueError:
        if NEWER.search(text):
            raise Unjudged("TOML 1.1 may allow what TOML 1.0 does not") from None
        raise Fault("not-toml") from None


def tree_of(data):
    """The tree of tables that the bytes of a file declare, or their first fault."""
    if len(data) > MOST_BYTES:
        raise Fault("too-long")
    try:
        tree = parsed(data.decode("utf-8"))
        judge_nesting(tree)
        if has_long_integer(tree):
            raise Fault("not-toml")
    except UnicodeDecodeError:
        raise Fault("not-toml") from None
    except RecursionError:
        raise Unjudged("arrays or tables are nested more deeply than Python follows") from None
    return tree


def judge_nesting(tree):
    """Names arrays that are nested too deeply; not judged where it matters whether tables count."""
    deep = [value for value in tree.values() if depth(value, (list, dict)) >= MOST_NESTED]
    if any(depth(value, list) - are_tables(value) > MOST_NESTED for value in deep):
        raise Fault("not-toml")
    if any(depth(value, dict) for value in deep):
        raise Unjudged("arrays and tables are nested in each other about as deeply as may be")


def is_whole(value, least, greatest):
    """Whether a value is a whole number within a range."""
    return type(value) is int and least <= value <= greatest


def are(value, test):
    """Whether a value is an array whose values all pass a test."""
    return isinstance(value, list) and all(map(test, value))


def are_tables(value):
    """Whether a value is an array of tables."""
    return are(value, lambda it: isinstance(it, dict))


def is_named(value):
    """Whether a value is a string that is a name."""
    return isinstance(value, str) and is_name(value)


def is_path(value):
    """Whether a value is an array of two names or more."""
    return are(value, is_named) and len(value) >= 2


def is_of_kind(key, table, entry, has_routes):
    """Whether what stands with a key of a table is of the kind that is asked there; some have several routes."""
    value = entry[key]
    if key == "to" and has_routes and isinstance(value, list):
        return bool(value) and are(value, is_named)
    if key == "paths":
        return bool(value) and are(value, is_path) and not {"path", "from", "to"} & set(entry)
    if key in ARRAYS:
        return are_tables(value)
    if key in ("name", "a", "b", "from", "to"):
        return is_named(value) and (table not in OF_EACH_PORT or len(value) <= LONGEST_NAME)
    if key == "path":
        return is_path(value) and not ({"from", "to"} | ({"paths"} if has_routes else set())) & set(entry)
    if key == "classes":
        return are(value, lambda it: is_whole(it, 0, 2**63 - 1)) and "class" not in entry
    if key == "address":
        return isinstance(value, str) and bool(ADDRESS.fullmatch(value))
    ranges = {"format": (1, 3), "vlan": (1, 4094)}
    return is_whole(value, *ranges.get(key, (0, 2**32 - 1 if key in NARROW else 2**63 - 1)))


def is_missing(key, table, entry, keys):
    """Whether a key has to stand in a table and does not."""
    if key in entry or key in MAY_BE_ABSENT or table == "top" and key != "format":
        return False
    if key in PARTNER:
        return PARTNER[key] in entry
    if key == "path":
        return not ({"from", "to"} | ({"paths"} & set(keys))) & set(entry)
    return key != "class" or "classes" not in keys or "classes" not in entry


def judge_form(table, count, entry, keys):
    """Names the first fault of form of one table, if it has one."""
    has_routes = "paths" in keys
    missing = next((key for key in keys if is_missing(key, table, entry, keys)), None)
    if missing:
        raise Fault(f"missing {table} {count} {missing}")
    if set(entry) - set(keys):
        raise Fault(f"unknown {table} {count}")
    wrong = next((key for key in keys if key in entry and not is_of_kind(key, table, entry, has_routes)), None)
    if wrong:
        raise Fault(f"kind {table} {count} {wrong}")


def is_over(table, tree):
    """Whether an array has more entries than it may, or stands for more senders than there may be in all."""
    counts = {name: len(tree.get(name, [])) for name in ARRAYS}
    if table in OF_EACH_PORT:
        return counts[OF_EACH_PORT[table]] + 2 * counts["link"] * counts[table] > MOST_IN_ALL
    return counts[table] + (counts["station"] if table == "bridge" else 0) > MOST[table]


def judge_array(table, tree):
    """Names the first fault of form of an array of tables, if it has one."""
    if is_over(table, tree):
        raise Fault(f"limit {table}")
    keys = BRIDGES[tree["format"]] if table == "bridge" else KEYS[table]
    if tree["format"] != 3:
        keys = [key for key in keys if key != "paths"]
    for count, entry in enumerate(tree.get(table, []), 1):
        judge_form(table, count, entry, keys)


def judge_forms(tree):
    """Names the first fault of form of all tables, if they have one."""
    is_third = type(tree.get("format")) is int and tree["format"] == 3
    judge_form("top", 0, tree, [key for key in KEYS["top"] if is_third or key not in OF_EACH_PORT])
    for table in ARRAYS:
        judge_array(table, tree)


def again(values):
    """The place, counted from 1, of the first value that stands earlier too, or None."""
    seen = set()
    return next((place for place, it in enumerate(values, 1) if it in seen or seen.add(it)), None)


def place_of(truths):
    """The place, counted from 1, of the first that is true, or None."""
    return next((place for place, it in enumerate(truths, 1) if it), None)


def processing_of(bridge):
    """The least and the greatest processing of a bridge."""
    one = bridge.get("processing_ns")
    return (bridge["processing_min_ns"], bridge["processing_max_ns"]) if one is None else (one, one)


def clock_of(bridge):
    """The clock of a bridge."""
    return Clock(bridge.get("clock_ppm", 0), bridge.get("clock_step_ps", 0))


def is_over_clock(clock):
    """Whether a number of a clock is over its limit."""
    return clock.deviation > MOST_DEVIATION or clock.step > MOST_STEP


def judge_topology(stations, bridges, links):
    """Names the first fault of nodes and links, if there is one."""
    nodes = [node["name"] for node in (*stations, *bridges)]
    known, ends = set(nodes), Counter(end for link in links for end in (link["a"], link["b"]))
    places = [
        ("node-twice", again(nodes)),
        ("link-twice", again(frozenset((link["a"], link["b"])) for link in links)),
        ("self-link", place_of(link["a"] == link["b"] for link in links)),
        ("unknown-node", place_of(not {link["a"], link["b"]} <= known for link in links)),
        ("station-links", place_of(ends[node["name"]] != 1 for node in stations)),
        ("bad-rate", place_of(link["mbps"] not in MBPS for link in links)),
        ("limit", place_of(link["propagation_ns"] > 10**6 for link in links)),
        ("limit", place_of(processing_of(it)[1] > 10**6 or it["residence_ns"] > 10**9 for it in bridges)),
        ("limit", place_of(is_over_clock(clock_of(it)) for it in bridges)),
        ("bad-processing", place_of(processing_of(it)[0] > processing_of(it)[1] for it in bridges)),
    ]
    fault, place = next(((fault, place) for fault, place in places if place), (None, None))
    if fault == "limit":
        raise Fault("limit")
    if fault:
        raise Fault(f"{fault} {place + (len(stations) if fault == 'bad-processing' else 0)}")


def topology_of(tree):
    """The topology of a tree without faults of form, or the first fault of its nodes and links."""
    stations, bridges, links = (tree.get(table, []) for table in ("station", "bridge", "link"))
    judge_topology(stations, bridges, links)
    times = {it["name"]: (*processing_of(it), it["residence_ns"]) for it in bridges}
    ports = []
    for link, way in ((link, way) for link in links for way in (("a", "b"), ("b", "a"))):
        leaves, leads_to = (link[end] for end in way)
        least, greatest, residence = times.get(leads_to, (0, 0, None))
        latencies = [1000 * (link["propagation_ns"] + it) for it in (greatest, least)]
        stay = None if residence is None else 1000 * residence
        ports.append(Port(len(ports), leaves, leads_to, 10**6 // link["mbps"], *latencies, stay))
    names = {node["name"] for node in stations}
    ends = names | set(times) if tree["format"] == 3 else names
    clocks = {it["name"]: clock_of(it) for it in bridges}
    return Topology(names, [node["name"] for node in bridges], ports, ends, clocks)


def route_between(topology, start, end):
    """The ports of the shortest route from one node to another, or None where there is none."""
    walk = topology.route(start, end)
    return walk if walk and topology.is_valid(topology.nodes_of(walk)) else None


def route_over(topology, nodes):
    """The ports of the route over these nodes, or None where it is no valid one."""
    walk = [topology.between.get(pair) for pair in zip(nodes, nodes[1:])]
    return tuple(walk) if None not in walk and topology.is_valid(nodes) else None


def routes_of(topology, entry):
    """The ports of each route that an entry declares, None in the place of one that is not valid."""
    if "from" in entry:
        ends = entry["to"] if isinstance(entry["to"], list) else [entry["to"]]
        return [route_between(topology, entry["from"], end) for end in ends]
    return [route_over(topology, nodes) for nodes in entry.get("paths") or [entry["path"]]]


def tree_of_routes(topology, routes):
    """The ports of a tree of routes, in the order of its legs, and its branches; or None where they make no tree."""
    if None in routes:
        return None
    ports, places, branches, lasts = [], {}, [], set()
    talker = topology.ports[routes[0][0]].leaves
    reached = {talker}
    for route in routes:
        shared = next((place for place, number in enumerate(route) if number not in places), len(route))
        own = [topology.ports[number].leads_to for number in route[shared:]]
        if topology.ports[route[0]].leaves != talker or not own or not reached.isdisjoint(own):
            return None
        if shared and route[shared - 1] in lasts:  # a listener is on the way to another
            return None
        if ports:
            branches.append((len(ports), places[route[shared - 1]] if shared else None))
        for number in route[shared:]:
            places[number] = len(ports)
            ports.append(number)
        reached.update(own)
        lasts.add(route[-1])
    return tuple(ports), tuple(branches)


def stream_fault(ports, classes, sender, deadline, longest):
    """The first rule that a stream breaks, or None, where a route has so many links at the most; its classes are as
    they are given, its deadline in nanoseconds."""
    numbers = rules_of_stream(sender.rate, sender.burst, sender.least, sender.greatest)
    right = len(classes) in (1, len(ports)) and all(1 <= it <= 7 for it in classes)
    limits = [("limit", max(map(len, sender.routes)) > longest), ("limit", not 1 <= deadline <= MOST_DEADLINE)]
    return first_of([("bad-class", not right), *numbers, *limits])


def stream_of(topology, entry, longest):
    """The stream that a table declares, and the first rule that it breaks, if it breaks one."""
    tree = tree_of_routes(topology, routes_of(topology, entry))
    if tree is None:
        return None, "bad-path"
    ports, branches = tree
    given = entry.get("classes", [entry.get("class")])
    classes = tuple(given) if len(given) == len(ports) else tuple(given[:1]) * len(ports)
    deadline = entry.get("deadline_ns", MOST_DEADLINE)
    identity = (int(entry["address"].replace(":", ""), 16), entry["vlan"]) if "address" in entry else None
    numbers = (entry[key] for key in ("min_octets", "max_octets", "rate_bps", "burst_bits"))
    sender = Sender(entry["name"], ports, classes, *numbers, 1000 * deadline, identity, branches)
    fault = stream_fault(ports, given, sender, deadline, longest)
    if fault is None and is_overrated(Network(topology, [], [], longest), sender):
        fault = "limit"
    return sender, fault


def flow_of(topology, entry, longest):
    """The flow that a table declares, and the first rule that it breaks, if it breaks one."""
    (ports,) = routes_of(topology, entry)
    if ports is None:
        return None, "bad-path"
    greatest = entry["max_octets"]
    rules = [("bad-sizes", not 64 <= greatest <= 2000), ("limit", len(ports) > longest)]
    return Sender(entry["name"], ports, (0,) * len(ports), 64, greatest), first_of(rules)


def entries_of(topology, tree, kind):
    """The entries of an array of streams or flows, each with its table and number; then what those stand for that
    stand for one at each port."""
    (each,) = (table for table, alike in OF_EACH_PORT.items() if alike == kind)
    yield from ((kind, count, entry) for count, entry in enumerate(tree.get(kind, []), 1))
    for count, entry in enumerate(tree.get(each, []), 1):
        for port in topology.ports:
            there = {"name": f"{entry['name']}-{port.number}", "path": [port.leaves, port.leads_to]}
            yield each, count, entry | there


def senders_of(topology, entries, names, read, longest):
    """The senders of these entries, whose names are added to those that are taken, or the first fault of one."""
    found, identities, total = [], set(), 0
    for table, count, entry in entries:
        sender, fault = read(topology, entry, longest)
        if fault:
            raise Fault(f"bad-path {table} {count}" if fault == "bad-path" else f"{table} {count} {fault}")
        if sender.name in names:
            raise Fault(f"sender-twice {table} {count}")
        if sender.identity in identities:
            raise Fault(f"identity-twice {count}")
        total += len(sender.ports)
        if not sender.is_flow and total > MOST_PORTS:
            raise Fault(f"limit {table}")
        names.add(sender.name)
        identities |= {sender.identity} - {None}
        found.append(sender)
    return found


@lru_cache(maxsize=2)
def network_of(data):
    """The network that the bytes of a file declare, or their first fault."""
    tree = tree_of(data)
    judge_forms(tree)
    topology, names, longest = topology_of(tree), set(), LONGEST[tree["format"]]
    streams = senders_of(topology, entries_of(topology, tree, "stream"), names, stream_of, longest)
    flows = senders_of(topology, entries_of(topology, tree, "flow"), names, flow_of, longest)
    return Network(topology, streams, flows, longest)


def port_text(port):
    """What `show` prints of a port."""
    earliest = f" {port.earliest}" if port.spread else ""
    return f"port {port.number} {port.name} {port.ps_per_bit} {port.latency}{earliest}"


def sender_text(network, kind, sender):
    """What `show` prints of a stream or flow: a line for each listener."""
    for leg, places in enumerate(sender.legs):
        classes = [sender.classes[place] for place in places]
        classes = classes[:1] if len(set(classes)) == 1 else classes
        ports = " ".join(network.ports[sender.ports[place]].name for place in places)
        first = "listener" if leg else kind
        yield f"{first} {network.called(sender, leg)} {','.join(map(str, classes))} {ports}"


def rates_text(network, stream):
    """What `show` prints of the rates and bursts of a stream: at each port what its scheduler has behind the port
    before, and what the port sees; at one of the talker just this, if it is not what is declared. There is no line
    where all are as declared."""
    declared, found = (stream.rate, stream.burst), []
    for place, number in enumerate(stream.ports):
        seen = committed(network, stream, number)
        if place in stream.before:
            found += [scheduled(network, stream, stream.ports[stream.before[place]]), seen]
        elif seen != declared:
            found.append(seen)
    if any(pair != declared for pair in found):
        yield " ".join(["rates", stream.name, *(f"{rate}:{burst}" for rate, burst in found)])


def stream_text(network, stream):
    """What `show` prints of a stream."""
    yield from sender_text(network, "stream", stream)
    yield from rates_text(network, stream)


def shown(network):
    """What `show` prints."""
    streams, flows = network.streams, network.flows
    yield from map(port_text, network.ports)
    yield from (line for it in streams for line in stream_text(network, it))
    yield from (line for it in flows for line in sender_text(network, "flow", it))
    yield f"total ports {len(network.ports)} streams {len(streams)} flows {len(flows)}"
