"""Random networks: trees of bridges with clocks, and streams and flows over them."""

from typing import NamedTuple

from second.clocks import Clock

from true_time.rates import SECOND, Kept, bits_of

# Clocks that a bridge may declare: deviation and step.
CLOCKS = [
    Clock(*it)
    for it in ((0, 0), (0, 8000), (20, 8000), (100, 8000), (100, 0), (100, 1), (0, 200_000), (0, 2_000_000),
               (1000, 1), (1000, 1_000_000), (1000, 10_000_000))
]  # fmt: skip

# Rates so small that rounding shows, and rates of any size, in bits per second.
SLOW = (1, 2, 7, 500, 998, 999, 1000, 12_345)
RATES = (10**6, 5 * 10**6, 9_999_000, 2 * 10**7, 33_333_333, 10**8)

# How often a network is tried to be made to fit its links.
TRIES = 8


class Port(NamedTuple):
    """A port: its number, the nodes it leaves and leads to, the picoseconds of a bit, and the least and the greatest
    latency."""

    number: int
    leaves: int
    leads_to: int
    ps_per_bit: int
    earliest: int
    latest: int


class Sender:
    """A stream, or a flow, which has class 0 and neither rate nor burst. Of each of its ports it has the one before (of
    those that leave the talker None), how many bridges lie before it, and its class there."""

    def __init__(self, talker, routes, sizes, classes):
        self.talker, self.routes, self.classes = talker, routes, classes
        self.least, self.most = sizes
        self.declared = Kept(0, 0)
        self.before = {port: before for route in routes for before, port in zip([None, *route], route)}
        self.places = {port: place for route in routes for place, port in enumerate(route)}
        self.next = {}
        for port, before in self.before.items():
            self.next.setdefault(before, []).append(port)

    def is_flow(self):
        """Whether it is a flow."""
        return not any(self.classes.values())


class Network:
    """A network. The bridges are its first nodes, so many as it says."""

    def __init__(self, bridges, clocks, ports, senders):
        self.bridges, self.clocks, self.ports, self.senders = bridges, clocks, ports, senders
        self.senders_at = [[sender for sender in senders if port in sender.before] for port in range(len(ports))]

    def is_bridge(self, node):
        """Whether a node is a bridge."""
        return node < self.bridges


class Family(NamedTuple):
    """How networks are drawn: whether all links and streams of one are alike, and how rates are found: `slow` ones,
    `full` links, or `any`."""

    alike: bool
    rates: str


FULL = [Family(True, "full"), Family(False, "full")]
SMALL = [Family(True, "slow"), Family(False, "slow")]
FAMILIES = [*FULL, Family(True, "any"), Family(False, "any"), Family(False, "slow")]


def links_of(draw, bridges, nodes):
    """The ends of the links: of a line or a tree of bridges, and of each station with a bridge."""
    line = draw.random() < 0.5
    tree = [(node, node - 1 if line else draw.randrange(node)) for node in range(1, bridges)]
    return tree + [(node, draw.randrange(bridges)) for node in range(bridges, nodes)]


def ports_of(draw, family, bridges, nodes):
    """The ports of a random tree, two for each link."""
    alike = draw.choice((100, 1000, 10_000))
    processing = [draw.choice(((0, 0), (500, 500), (0, 500), (1000, 3000))) for _ in range(bridges)]
    processing = [(0, 0) if family.alike else it for it in processing] + [(0, 0)] * (nodes - bridges)
    for link, ends in enumerate(links_of(draw, bridges, nodes)):
        ps_per_bit = alike if family.alike else draw.choice((100, 1000, 1000, 10_000))
        propagation = 0 if family.alike else draw.choice((0, 4, 500))
        for way, (leaves, leads_to) in enumerate((ends, ends[::-1])):
            latency = [1000 * (propagation + it) for it in processing[leads_to]]
            yield Port(2 * link + way, leaves, leads_to, ps_per_bit, *latency)


def route(ports, start, end, seen=()):
    """The numbers of the ports from a node to another one of a tree, or None."""
    if start == end:
        return []
    for number, port in enumerate(ports):
        if port.leaves == start and port.leads_to not in seen:
            rest = route(ports, port.leads_to, end, (*seen, start))
            if rest is not None:
                return [number, *rest]
    return None


def routes_of(draw, ports, nodes):
    """A talker and the routes to its listeners, one or more. No listener is on the way to another one."""
    talker, *ends = draw.sample(range(nodes), min(nodes, draw.choice((2, 2, 2, 3, 4))))
    routes = [route(ports, talker, end) for end in ends]
    passed = {ports[number].leaves for it in routes for number in it}
    kept = [it for it, end in zip(routes, ends) if end not in passed]
    return talker, kept


def sender_of(draw, family, ports, nodes, sizes):
    """A stream or a flow without its rate."""
    talker, routes = routes_of(draw, ports, nodes)
    used = sorted({number for it in routes for number in it})
    if draw.random() < 0.15:
        return Sender(talker, routes, (64, draw.choice((64, 1522))), dict.fromkeys(used, 0))
    cls, mixed = draw.choice((3, 3, 3, 4)), draw.random() < 0.2 and not family.alike
    classes = {number: draw.choice((3, 4, 5)) if mixed else cls for number in used}
    return Sender(talker, routes, sizes, classes)


def with_rates(draw, family, network, rules):
    """Gives rates and bursts to the streams of a network, and says whether they fit the links by these rules."""
    streams = [it for it in network.senders if not it.is_flow()]
    frames, more = draw.choice((1, 1, 2)), draw.choice((0, 0, 7))
    for it in streams:
        fair = min(SECOND // network.ports[number].ps_per_bit // sum(not other.is_flow() for other in here)
                   for number, here in enumerate(network.senders_at) if it in here)  # fmt: skip
        rate = {"slow": draw.choice(SLOW), "any": draw.choice(RATES), "full": fair}[family.rates]
        frames = frames if family.alike else draw.choice((1, 1, 2))
        it.declared = Kept(rate, frames * bits_of(it.most) + more)
    for _ in range(TRIES):
        # The link with the greatest load, as a fraction of what it may carry.
        taken = max((port.ps_per_bit * sum(rules.seen(network, it, number).rate for it in network.senders_at[number])
                     for number, port in enumerate(network.ports)), default=0)  # fmt: skip
        if taken <= SECOND:
            return True
        if family.rates == "slow":
            return False
        for it in streams:
            it.declared = Kept(max(1, it.declared.rate * SECOND // taken), it.declared.burst)
    return False


def drawn(draw, rules, families=FAMILIES):
    """A random network of one of these families that has a certificate by these rules, and its rows."""
    while True:
        family = draw.choice(families)
        bridges = draw.choice((1, 2, 2, 3, 3, 4, 5))
        nodes = bridges + draw.randint(2, 5)
        ports = list(ports_of(draw, family, bridges, nodes))
        one = draw.choice(CLOCKS) if draw.random() < 0.5 else None
        clocks = [one or draw.choice(CLOCKS) for _ in range(bridges)] + [Clock()] * (nodes - bridges)
        least = draw.choice((64, 64, 300, 1522))
        senders = []
        for _ in range(draw.randint(1, 8)):
            sizes = (least, least) if family.alike else (least, draw.choice((least, 1522)))
            senders.append(sender_of(draw, family, ports, nodes, sizes))
        network = Network(bridges, clocks, ports, senders)
        if not all(it.is_flow() for it in senders) and with_rates(draw, family, network, rules):
            rows = rules.rows(network)
            if rows is not None:
                return network, rows
