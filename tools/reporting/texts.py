"""The texts of the program, taken apart. Nothing is worked out here: each value stands in a text, or in the network's
file."""

import tomllib
from typing import NamedTuple


class Port(NamedTuple):
    """A line `port` of `show`."""

    number: int
    name: str
    start: str
    end: str
    ps_per_bit: int
    latency: int
    earliest: int


class Route(NamedTuple):
    """A line `stream`, `listener` or `flow` of `show`: where a sender's frames go, and in which classes. Of a line
    `listener` the ports are those behind the node where its copy begins."""

    name: str
    listener: str
    classes: tuple
    ports: tuple

    def label(self):
        """How the program names it: a further listener has its node behind the stream's name."""
        return f"{self.name} {self.listener}".strip()


class Hop(NamedTuple):
    """A line `hop` of `explain`."""

    port: str
    cls: int
    lower: int
    sender: str
    bursts: int
    higher: int
    frame: int
    latency: int
    bound: int
    stay: int | None
    residence: int | None


class Sum(NamedTuple):
    """A line `stream` or `listener` of `explain` with its hops. Where it is late, `left` is below 0."""

    label: str
    sum: int
    deadline: int
    left: int
    hops: tuple


class Total(NamedTuple):
    """The last line of `explain`; `tightest` is empty where no stream is declared."""

    streams: int
    late: int
    over: int
    tightest: str
    left: int


class Shown(NamedTuple):
    """What `show` printed."""

    ports: dict
    streams: list
    flows: list
    rates: list


class Explained(NamedTuple):
    """What `explain` printed."""

    sums: list
    loads: dict
    total: Total


# The tables that stand for a stream, or a flow, at each port.
OF_EACH_PORT = {"stream": "link_local", "flow": "link_local_flow"}


class Declared(NamedTuple):
    """What the network's file says that no text repeats: which nodes are bridges, and the tables of senders by name,
    also of those that a table for each port stands for. `known` is false where Python does not read the file, and
    `clocks` is true where some bridge declares a clock that is not ideal."""

    bridges: set
    tables: dict
    known: bool
    clocks: bool


def shown_of(lines):
    """What the lines of `show` say."""
    found = Shown({}, [], [], [])
    for words in map(str.split, lines):
        if words[0] == "port":
            start, end = words[2].split(">")
            numbers = [int(word) for word in words[3:]]
            found.ports[words[2]] = Port(int(words[1]), words[2], start, end, *numbers[:2], numbers[-1])
        elif words[0] == "rates":
            found.rates.append(words[1])
        elif words[0] in ("stream", "flow", "listener"):
            far = words.pop(2) if words[0] == "listener" else ""
            route = Route(words[1], far, tuple(map(int, words[2].split(","))), tuple(words[3:]))
            (found.flows if words[0] == "flow" else found.streams).append(route)
    return found


def hop_of(words):
    """What the words of a line `hop` say."""
    numbers = [int(words[k]) for k in (7, 9, 11, 13, 15)]
    stay = (int(words[17]), int(words[19])) if len(words) > 16 else (None, None)
    return Hop(words[1], int(words[2]), int(words[4]), words[5], *numbers, *stay)


def left_of(words):
    """What the two words `slack N` or `late N` say."""
    return int(words[1]) if words[0] == "slack" else -int(words[1])


def explained_of(lines):
    """What the lines of `explain` say."""
    sums, loads, total = [], {}, Total(0, 0, 0, "", 0)
    for words in map(str.split, lines):
        if words[0] in ("stream", "listener"):
            at = len(words) - 6  # names may be words of the text, too
            left = left_of(words[at + 4 :])
            sums.append(Sum(" ".join(words[1:at]), int(words[at + 1]), int(words[at + 3]), left, []))
        elif words[0] == "hop":
            sums[-1].hops.append(hop_of(words))
        elif words[0] == "port":
            loads[words[1]] = int(words[3])
        elif words[0] == "total":
            told = words[8:] and (" ".join(words[8:-2]), left_of(words[-2:])) or ("", 0)
            total = Total(int(words[2]), int(words[4]), int(words[6]), *told)
    return Explained(sums, loads, total)


def rows_of(lines):
    """The rows of a certificate by port and class, each with its columns by name."""
    header, *records = (line.split(",") for line in lines)
    return {(it[0], int(it[1])): dict(zip(header[2:], map(int, it[2:]))) for it in records}


def buffers_of(lines):
    """The buffers that `buffers` printed by port and class, each with the peak behind it or None."""
    words = [line.split() for line in lines if line.startswith("buffer ")]
    return {(it[1], int(it[2])): (int(it[3]), int(it[5]) if len(it) > 4 else None) for it in words}


def found_delays_of(lines):
    """The greatest delay that `witness` found for each listener, by what the program calls it."""
    found = {}
    for words in (line.split() for line in lines if line.startswith("witness ")):
        at = len(words) - 6
        found[" ".join(words[1:at])] = int(words[at + 1])
    return found


def senders_in(tables, kind):
    """The tables of the streams, or of the flows, of a network's file in their order. A table for each port stands once
    for each, with the name of the one there."""
    ports = range(2 * len(tables.get("link", [])))
    each = [{**it, "name": f"{it['name']}-{at}"} for it in tables.get(OF_EACH_PORT[kind], []) for at in ports]
    return [*tables.get(kind, []), *each]


def declared_in(raw):
    """What a network's file says, whose bytes these are."""
    try:
        tables = tomllib.loads(raw.decode("utf-8-sig"))
        bridges = {it["name"] for it in tables.get("bridge", [])}
        senders = {it["name"]: it for kind in OF_EACH_PORT for it in senders_in(tables, kind)}
        clocks = any(it.get(key) for it in tables.get("bridge", []) for key in ("clock_ppm", "clock_step_ps"))
    except (ValueError, KeyError, TypeError, RecursionError):
        return Declared(set(), {}, False, False)
    return Declared(bridges, senders, True, clocks)


def bridges_by_links(ports):
    """The nodes that more than one link leads to: bridges, in a file that Python does not read."""
    starts = [port.start for port in ports.values()]
    return {name for name in starts if starts.count(name) > 1}
