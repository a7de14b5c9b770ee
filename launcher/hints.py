"""Names the culprit of a fault that `ats` names by its kind and a number alone.

Usage: hints.py KIND FILE FAULT NET. KIND is what the file is to the command (NET, CERT, SCHEDULE, REQUESTS, CAPTURE, or
FILE for a shape file), FAULT what the program prints behind `input FILE`, or of a schedule the line `refused`, NET the
network file. Of a network that the program has accepted FAULT is `clocks` and the command: of which clocks nothing was
promised is told then. Prints one line, or nothing where no culprit is found. It reads the files by Python's own readers
(of TOML from Python 3.11 on), so what it prints is a help for people and nothing that is proved.

The tables of keys, ranges and headers are held against docs/FORMATS.md by .ci/launcher."""

import csv
import datetime
import difflib
import io
import os
import re
import sys

HERE = os.path.dirname(os.path.realpath(__file__))
FOLDERS = [os.path.join(HERE, "reporting"), os.path.join(os.path.dirname(HERE), "tools", "reporting")]

NAME = re.compile(r"[A-Za-z0-9_-]{1,32}")
KEYS = {
    "top": ["format", "station", "bridge", "link", "stream", "link_local", "flow", "link_local_flow"],
    "station": ["name"],
    "link": ["a", "b", "mbps", "propagation_ns"],
    "link_local": ["name", "class", "rate_bps", "burst_bits", "min_octets", "max_octets", "deadline_ns"],
    "flow": ["name", "path", "from", "to", "max_octets"],
    "link_local_flow": ["name", "max_octets"],
}
# The tables of format 3 alone that stand for a stream, or a flow, at each port, and those of such streams and flows.
OF_EACH_PORT = {"link_local": "stream", "link_local_flow": "flow"}
SPREAD_KEYS = ["name", "processing_min_ns", "processing_max_ns", "residence_ns"]
BEHIND_ROUTES = [
    "class", "classes", "rate_bps", "burst_bits", "min_octets", "max_octets", "deadline_ns", "address", "vlan",
]
ONE_ROUTE_KEYS = ["name", "path", "from", "to", *BEHIND_ROUTES]
CLOCK_KEYS = ["clock_ppm", "clock_step_ps"]
# Those of the tables whose keys go by the format.
FORMAT_KEYS = {
    "bridge": {
        1: ["name", "processing_ns", "residence_ns"],
        2: SPREAD_KEYS,
        3: [*SPREAD_KEYS, *CLOCK_KEYS],
    },
    "stream": {1: ONE_ROUTE_KEYS, 2: ONE_ROUTE_KEYS, 3: ["name", "path", "paths", "from", "to", *BEHIND_ROUTES]},
}
# The least and the greatest that a number may be.
RANGES = {
    "format": (1, 3),
    "propagation_ns": (0, 1000000),
    "processing_ns": (0, 1000000),
    "processing_min_ns": (0, 1000000),
    "processing_max_ns": (0, 1000000),
    "residence_ns": (0, 1000000000),
    "clock_ppm": (0, 1000),
    "clock_step_ps": (0, 10000000),
    "class": (1, 7),
    "rate_bps": (1, 100000000000),
    "burst_bits": (1, 1000000000),
    "min_octets": (64, 2000),
    "max_octets": (64, 2000),
    "deadline_ns": (1, 1000000000),
    "vlan": (1, 4094),
}
MOST_NAMED = 8
RATES = "10, 100, 1000, 2500, 5000, 10000, 25000, 40000, 50000 or 100000"
MOST_NESTED = 80
# The most links of a route, by the format.
MOST_LINKS = {1: 16, 2: 16, 3: 64}
MOST_STREAMS = 4096
MOST_FLOWS = 4096  # with those of each port
LONGEST_NAMES = {"link_local": 26, "link_local_flow": 26}  # elsewhere 32
MOST_PORTS = 65536
MOST_REQUESTS = 10000
HEADERS = {"CERT": "port,class,higher,equal,bursts,lower,least,wait,bound", "SCHEDULE": "at_ps,sender,octets"}
REQUEST_FORMS = ["admit NAME FROM TO CLASS RATE BURST MIN MAX DEADLINE_NS", "withdraw NAME"]
SHAPE_FORMS = ["residence NS", "stream NAME RATE BURST MIN MAX", "frame AT NAME OCTETS"]
FORMS = {
    "REQUESTS": "a line is {}, or {}".format(*REQUEST_FORMS),
    "FILE": "a line is {} (the first), {}, or {}".format(*SHAPE_FORMS),
}
PCAP_HEADER = 24
MAGIC = {b"\xd4\xc3\xb2\xa1", b"\xa1\xb2\xc3\xd4", b"\x4d\x3c\xb2\xa1", b"\xa1\xb2\x3c\x4d", b"\x0a\x0d\x0d\x0a"}


def shown(value):
    """A value as it may be printed: short, and without what could steer a terminal."""
    is_time = isinstance(value, (datetime.date, datetime.time))
    text = value.isoformat() if is_time else repr(value)
    return text if len(text) <= 70 else text[:67] + "..."


def range_of(key):
    """The least and the greatest that a number may be, as words."""
    return "{} to {}".format(*RANGES[key])


def near(name, names):
    """A name among others that may have been meant."""
    found = difflib.get_close_matches(str(name), [str(other) for other in names], 1)
    return f"; there is {shown(found[0])}" if found else ""


def text_of(raw):
    return raw.decode("utf-8").removeprefix("\ufeff")


def line_of(text, number, column=1):
    """A line, from a little before a column on."""
    lines = text.split("\n")
    line = lines[number - 1].rstrip("\r") if 0 < number <= len(lines) else ""
    return line if column <= 60 else "..." + line[column - 40:]


# What is another kind of file


def strange(raw):
    """What a file is that is no text, where that shows."""
    if raw[:4] in MAGIC:
        runs = "which ats capture NET STATION FILE ORDER runs"
        return f"the file is a capture, {runs}, and of which ats releases NET STATION FILE makes a schedule"
    if raw[:2] in (b"\xff\xfe", b"\xfe\xff"):
        return "the file is UTF-16: save it as UTF-8"
    try:
        raw.decode("utf-8")
    except UnicodeDecodeError as error:
        return f"line {raw[:error.start].count(10) + 1} is no UTF-8"
    return None


# What is no TOML


def outside_64_bits(value, key):
    """Where a whole number stands that does not fit 64 bits."""
    if isinstance(value, int) and not isinstance(value, bool) and not -(2**63) <= value < 2**63:
        return f"{key} is {shown(value)}, which does not fit 64 bits"
    inner = value.items() if isinstance(value, dict) else enumerate(value, 1) if isinstance(value, list) else ()
    for name, item in inner:
        found = outside_64_bits(item, f"{key} {name}".strip())
        if found:
            return found
    return None


TOML_SIGNS = {
    "twice": "; tables of which there are several have two pairs of brackets",
    "Unclosed": "; a comma may be missing before it",
    "immutable": "; tables of one kind are written in one way, all in double brackets or all in one array",
}


def not_toml(raw):
    if other := strange(raw):
        return other
    text = text_of(raw)
    if text.startswith(("port,class,", "at_ps,")):
        return "the file is a table of values: the network comes first among the words"
    alone = re.search(r"\r(?!\n)", text)
    if alone:
        return f"line {text[:alone.start()].count(chr(10)) + 1} has a CR without LF: lines end with LF or CR LF"
    import tomllib
    try:
        return outside_64_bits(tomllib.loads(text), "")
    except tomllib.TOMLDecodeError as error:
        place = re.search(r"\(at line (\d+), column (\d+)", str(error))
        if not place:
            return f"Python's reader of TOML says: {error}"
        number, column = int(place[1]), int(place[2])
        more = next((more for sign, more in TOML_SIGNS.items() if sign in str(error)), "")
        line = shown(line_of(text, number, column))
        return f"Python's reader of TOML says: {error}; line {number} is {line}{more}"
    except RecursionError:
        return f"arrays are nested deeper than {MOST_NESTED}"


# Tables, keys and values


def entry_of(document, table, number):
    return document if table == "top" else document[table][number - 1]


def keys_of(document, table):
    if table == "top" and document.get("format") != 3:
        return [key for key in KEYS["top"] if key not in OF_EACH_PORT]
    return FORMAT_KEYS[table].get(document.get("format"), []) if table in FORMAT_KEYS else KEYS[table]


def who_is(document, table, number):
    """An entry with its name, or with its ends where it is a link."""
    if table == "top":
        return "the top"
    entry = entry_of(document, table, number)
    told = joined(entry) if table == "link" else shown(entry.get("name"))
    return f"{table} {number} is {told}"


def unknown_key(document, table, number):
    keys = keys_of(document, table)
    for key in entry_of(document, table, number):
        if key not in keys:
            listed = "; its keys are " + ", ".join(keys)
            if table == "top" and key in OF_EACH_PORT:
                return f"{key} stands in format 3 alone, and format is {shown(document.get('format'))}"
            if table == "bridge" and key in CLOCK_KEYS:
                return f"{key} stands in format 3 alone, and format is {shown(document.get('format'))}"
            if any(key in others for others in FORMAT_KEYS.get(table, {}).values()):
                return f"the key {key} is not one of format {document.get('format')}{listed}"
            if table != "top" and key in KEYS["top"]:
                due = "put it before the first table in double brackets"
                return f"{key} stands behind [[{table}]] and so belongs to it: {due}"
            return f"the key {shown(key)} is not known there{near(key, keys) or listed}"
    return None


def unknown(document, table, number):
    found = unknown_key(document, table, number)
    return f"{who_is(document, table, number)}; {found}" if found and table != "top" else found


def missing_format(document):
    for table in KEYS["top"][1:]:
        for number, entry in enumerate(document.get(table, []), 1):
            if isinstance(entry, dict) and "format" in entry:
                due = "put it before the first table"
                return f"format stands behind [[{table}]] and so belongs to {table} {number}: {due}"
    due = "the file begins with format = 1, or 2 where bridges have two processing times, or 3 where a stream has"
    due += " several listeners, bridges send or take frames or have clocks, or tables stand for each port"
    empty = "" if document else "nothing is declared, as where what was to write the file did not; "
    others = {key: value for key, value in document.items() if key not in OF_EACH_PORT}
    return unknown_key(others, "top", 0) or empty + due


DUE = {
    "path": "path stands there, or from and to",
    "paths": "path stands there, or paths, or from and to",
    "class": "class or classes stands there",
    "address": "address and vlan stand together",
    "vlan": "address and vlan stand together",
}


def beside_path(entry, key):
    """What to do about one end of a route that is given by its nodes, where the other end is missing."""
    end = {"from": "to", "to": "from"}.get(key)
    given = next((it for it in ("path", "paths") if it in entry), None)
    return f"{end} stands beside {given}: leave it out" if given and end in entry else None


def missing_key(document, table, number, key):
    """Which entry lacks the key: its name, and the key there that may have been meant for it."""
    if table == "top":
        return missing_format(document)
    kind = "paths" if key == "path" and "paths" in keys_of(document, table) else key
    told = beside_path(entry_of(document, table, number), key)
    due = unknown_key(document, table, number) or told or DUE.get(kind)
    return who_is(document, table, number) + (f"; {due}" if due else "")


def letters(name, table=None):
    if not isinstance(name, str):
        return f"{shown(name)} is no text in quotes"
    others = sorted({letter for letter in name if not NAME.fullmatch(letter)})
    if others:
        return f"{shown(name)} has {', '.join(map(shown, others))}: a name has ASCII letters, digits, _ and - alone"
    room = ", as the number of a port follows" if table in LONGEST_NAMES else ""
    return f"{shown(name)} has {len(name)} letters: a name has 1 to {LONGEST_NAMES.get(table, 32)}{room}"


def wrong_name(names):
    """What is wrong with the first of these that is no name."""
    wrong = [name for name in names if not isinstance(name, str) or not NAME.fullmatch(name)]
    return letters(wrong[0]) if wrong else None


def wrong_path(entry, path):
    if "from" in entry or "to" in entry:
        return "path stands beside from or to"
    if "paths" in entry:
        return "path stands beside paths"
    if not isinstance(path, list):
        return f'path is {shown(path)}: it is an array of names, as ["s1", "b1", "s2"]'
    if any(isinstance(name, list) for name in path):
        return "path has paths in it: several paths stand with the key paths, in format 3"
    return wrong_name(path) or f"path has {len(path)} names: it has at least two"


def wrong_paths(entry, paths):
    if any(key in entry for key in ("path", "from", "to")):
        return "paths stands beside path, or from and to"
    if not isinstance(paths, list) or not all(isinstance(path, list) for path in paths):
        return f'paths is {shown(paths)}: it is an array of paths, as [["s1", "b1", "s2"], ["s1", "b1", "s3"]]'
    for number, path in enumerate(paths, 1):
        if told := wrong_name(path) or (f"it has {len(path)} names: it has at least two" if len(path) < 2 else None):
            return f"path {number} of paths: {told}"
    return "paths has no path: it has at least one"


def wrong_listeners(document, table, to):
    """What is wrong with the listener, or with the listeners of a stream of format 3."""
    if not isinstance(to, list):
        several = table == "stream" and isinstance(to, str) and len(re.split(r"[\s,]+", to.strip())) > 1
        return letters(to) + ('; several listeners are an array, as ["s2", "s3"], in format 3' if several else "")
    if table != "stream":
        return f"to is {shown(to)}: a flow has one listener"
    if document.get("format") != 3:
        return f"to is {shown(to)}: a stream has several listeners in format 3 alone"
    return wrong_name(to) or "to names no listener: it is a name, or an array of at least one"


def wrong_number(key, value):
    if key == "mbps":
        due = f"it is {RATES}"
    elif key in RANGES:
        due = "it is 1, 2 or 3" if key == "format" else f"it is {range_of(key)}"
    else:
        return f"{key} is {shown(value)}"
    whole = isinstance(value, int) and not isinstance(value, bool)
    kind = "" if whole else ", a whole number without point, exponent, quotes and unit"
    return f"{key} is {shown(value)}; {due}{kind}"


def wrong_kind(document, table, number, key):
    entry = entry_of(document, table, number)
    if not isinstance(entry, dict):
        return f"it is {shown(entry)}, and no table"
    value = entry.get(key)
    if table == "top" and isinstance(value, dict):
        return f"[{key}] has to be [[{key}]], with two pairs of brackets"
    if key in ("name", "a", "b"):
        return letters(value, table)
    if key == "from":
        told = letters(value)
    elif key == "to":
        told = wrong_listeners(document, table, value)
    elif key == "path":
        told = wrong_path(entry, value)
    elif key == "paths":
        told = wrong_paths(entry, value)
    elif key in ("class", "classes") and "class" in entry and "classes" in entry:
        told = "classes stands beside class"
    elif key == "address":
        told = f"address is {shown(value)}: it is six pairs of digits joined by colons, as '02:00:00:00:00:01'"
    else:
        told = wrong_number(key, value)
    return told if table == "top" else f"{who_is(document, table, number)}; {told}"


# Nodes and links


def nodes_of(document):
    return [node.get("name") for table in ("station", "bridge") for node in document.get(table, [])]


def joined(link):
    return f"{link.get('a')} to {link.get('b')}"


def over_a_limit(document):
    for table in ("link", "bridge"):
        for number, entry in enumerate(document.get(table, []), 1):
            for key, value in entry.items():
                if key in RANGES and value > RANGES[key][1]:
                    who = joined(entry) if table == "link" else entry.get("name")
                    return f"{key} of {table} {number} ({who}) is {value}; the most is {RANGES[key][1]}"
    return None


def over_in_all(document, table):
    """Of what there are too many where streams, or flows, are together too many, or the ports of streams."""
    kind = OF_EACH_PORT.get(table, table)
    most, alone = MOST_FLOWS if kind == "flow" else MOST_STREAMS, len(document.get(kind, []))
    entries, ports = len(document.get(table, [])), 2 * len(document.get("link", []))
    if table in OF_EACH_PORT and alone + entries * ports > most:
        told = f"{entries} tables [[{table}]] for {ports} ports each, and {alone} [[{kind}]], are together"
        return f"{told} {alone + entries * ports} {kind}s; the most are {most}"
    if alone > most:
        return f"there are {alone} tables [[{kind}]]"
    return f"the streams have together more than {MOST_PORTS} ports"


def link_fault(document, fault, number):
    link, nodes = document["link"][number - 1], nodes_of(document)
    if fault == "unknown-node":
        unknown_end = link["a"] if link["a"] not in nodes else link["b"]
        return f"no node is called {shown(unknown_end)}{near(unknown_end, nodes)}"
    if fault == "bad-rate":
        return f"mbps of {joined(link)} is {link['mbps']}; it is {RATES}"
    return f"link {number} is {joined(link)}" + ("; an earlier one joins them too" if fault == "link-twice" else "")


def node_fault(document, fault, number):
    name = nodes_of(document)[number - 1]
    if fault == "station-links":
        links = sum(name in (link["a"], link["b"]) for link in document.get("link", []))
        return f"the station {shown(name)} has {links} links; it has to have one"
    if fault == "bad-processing":
        bridge = document["bridge"][number - 1 - len(document.get("station", []))]
        least, greatest = bridge["processing_min_ns"], bridge["processing_max_ns"]
        return f"{shown(name)} has processing_min_ns {least}, above processing_max_ns {greatest}"
    return f"node {number} is {shown(name)}; an earlier one is called so too"


# Streams and flows


def listeners_of(entry):
    return entry["to"] if isinstance(entry["to"], list) else [entry["to"]]


def ways_of(entry):
    """What stands in an entry of each route: the names of a path, or of both ends."""
    if "path" in entry:
        return [entry["path"]]
    return entry["paths"] if "paths" in entry else [[entry["from"], to] for to in listeners_of(entry)]


def bad_way(document, path, by_ends):
    """Why no path is the one that a route names, by all its nodes or by its ends."""
    nodes = nodes_of(document)
    for name in path:
        if name not in nodes:
            return f"no node is called {shown(name)}{near(name, nodes)}"
    stations = [node.get("name") for node in document.get("station", [])]
    for place, name in enumerate(path):
        if path.index(name) < place:
            return "from and to are the same" if by_ends else f"its path visits {name} twice"
        is_end = place in (0, len(path) - 1)
        if name in stations and not is_end:
            return f"{name} is a station: stations stand at ends and nowhere else"
        if name not in stations and is_end and document["format"] < 3:
            return f"{name} is a bridge: stations stand at both ends and nowhere else"
    links = links_of(document)
    for before, after in zip(path, path[1:]):
        if not by_ends and frozenset((before, after)) not in links:
            return f"no link joins {before} and {after}"
    if by_ends and path[1] not in distances(path[0], links):
        return f"no links lead from {path[0]} to {path[1]}"
    return None


def no_tree(routes):
    """Why routes, by all their nodes, are not those of one tree."""
    known, before = {}, []
    for route in routes:
        if route[0] != routes[0][0]:
            return f"its paths begin at {routes[0][0]} and at {route[0]}: a stream has one talker"
        if route[-1] in before:
            return f"its listener {route[-1]} is there twice"
        for here, there in zip(route, route[1:]):
            if known.setdefault(there, here) != here:
                return f"{there} is reached in two ways, from {known[there]} and from {here}"
        before.append(route[-1])
    for route in routes:
        passed = next((name for name in route[:-1] if name in before), None)
        if passed:
            return f"its listener {passed} is on the way to {route[-1]}"
    return None


def bad_path(document, table, number):
    entry, who = entry_of(document, table, number), who_is(document, table, number)
    by_ends = "path" not in entry and "paths" not in entry
    told = [bad_way(document, path, by_ends) for path in ways_of(entry)]
    found = next(filter(None, told), None)
    if not found:
        found = no_tree([route_between(document, *ends) if by_ends else ends for ends in ways_of(entry)])
    return f"{who}; {found}" if found else who


def ports_in(document):
    """The ports of the links, in order, each as it is written."""
    ends = [(link["a"], link["b"]) for link in document.get("link", [])]
    return [f"{a}>{b}" for one, other in ends for a, b in ((one, other), (other, one))]


def names_of(document, table):
    """The names of an array of streams or flows, each with its table; of a table for each port all those there."""
    count = len(ports_in(document)) if table in OF_EACH_PORT else None
    for entry in document.get(table, []):
        ends = [""] if count is None else [f"-{number}" for number in range(count)]
        yield from ((f"{entry['name']}{end}", entry) for end in ends)


def senders_of(document):
    """The names of streams and then flows, each with its table."""
    tables = ("stream", "link_local", "flow", "link_local_flow")
    return [named for table in tables for named in names_of(document, table)]


def taken_name(document, table, number):
    """The name that an earlier stream or flow has, of those for which an entry stands."""
    before, own = {}, entry_of(document, table, number)
    for name, entry in senders_of(document):
        if entry is own and name in before:
            return name
        before[name] = entry
    return own["name"]


def links_of(document):
    return {frozenset((link["a"], link["b"])) for link in document.get("link", [])}


def route_between(document, start, end):
    """The nodes of the route that has the fewest links, and of those the one whose ports come first."""
    ends = [(link["a"], link["b"]) for link in document.get("link", [])]
    ports = [port for one, other in ends for port in ((one, other), (other, one))]
    left, route = distances(end, links_of(document)), [start]
    while route[-1] != end:
        route.append(next(b for a, b in ports if a == route[-1] and left.get(b) == left[a] - 1))
    return route


def ports_of(document, entry):
    """How many ports a stream has."""
    routes = ways_of(entry)
    if "path" not in entry and "paths" not in entry:
        routes = [route_between(document, *ends) for ends in routes]
    return len({step for route in routes for step in zip(route, route[1:])})


def classes_at(document, entry):
    """The class of a stream at each of its ports."""
    routes = ways_of(entry)
    if "path" not in entry and "paths" not in entry:
        routes = [route_between(document, *ends) for ends in routes]
    ports = dict.fromkeys(f"{a}>{b}" for route in routes for a, b in zip(route, route[1:]))
    return dict(zip(ports, entry["classes"] if "classes" in entry else [entry["class"]] * len(ports)))


def rate_told(bits):
    """A rate as the report writes it, whose words lie beside these, or in the repository in tools/."""
    sys.dont_write_bytecode = True
    sys.path.insert(0, next(filter(os.path.isdir, FOLDERS), FOLDERS[0]))
    from figures import rate
    return rate(bits)


def rates_at(document, port, cls):
    """The streams that have a class or a higher one at a port, with their rates, the greatest first."""
    found = [(it["name"], it) for it in document.get("stream", []) if classes_at(document, it).get(port, 0) >= cls]
    number = ports_in(document).index(port)
    found += [(f"{it['name']}-{number}", it) for it in document.get("link_local", []) if it["class"] >= cls]
    found.sort(key=lambda it: -it[1]["rate_bps"])
    told = [f"{name} ({rate_told(it['rate_bps'])})" for name, it in found]
    return ", ".join(told[:MOST_NAMED]) + (f" and {len(told) - MOST_NAMED} more" if len(told) > MOST_NAMED else "")


def distances(start, links):
    """How many links lead from a node to each node that it reaches."""
    found, ahead = {start: 0}, [start]
    for here in ahead:
        for link in links:
            for new in link - found.keys() if here in link else ():
                found[new] = found[here] + 1
                ahead.append(new)
    return found


RULES = {
    "bad-class": f"a class is {range_of('class')}",
    "bad-rate": f"a rate is {range_of('rate_bps')} b/s",
    "bad-sizes": f"octets are {range_of('max_octets')}, and the least not above the greatest",
    "limit": f"{RANGES['burst_bits'][1]} bits and {RANGES['deadline_ns'][1]} ns",
}
LIMITED = {"burst_bits", "deadline_ns"}
OVERRATED = (
    f"by the clocks of bridges its rate comes to over {RANGES['rate_bps'][1]} b/s, or its burst to over"
    f" {RANGES['burst_bits'][1]} bits"
)


def most_links(document, entry):
    """How many links the longest route of an entry has."""
    if not {"path", "paths", "from"} & entry.keys():
        return 1
    if "from" not in entry:
        return max(len(path) for path in ways_of(entry)) - 1
    far = distances(entry["from"], links_of(document))
    return max(far[listener] for listener in listeners_of(entry))


def limit_of(document, entry):
    """What the limits of an entry are, and how many links its longest route has, where these are too many."""
    most, links = MOST_LINKS[document["format"]], most_links(document, entry)
    longest = f"its longest route has {links} links; " if links > most else ""
    if not longest and not any(breaks_limit(document, entry, key) for key in entry.keys() & LIMITED):
        return OVERRATED
    least = f", and a deadline is at least {RANGES['deadline_ns'][0]} ns" if entry.get("deadline_ns") == 0 else ""
    if not {"path", "paths", "from"} & entry.keys():
        return f"the most are {RULES['limit']}{least}"
    where = " (64 in format 3)" if longest and links <= MOST_LINKS[3] else ""
    return f"{longest}the most are {most} links{where}, {RULES['limit']}{least}"


def due_of(document, entry, fault):
    """What an entry has to keep that breaks a rule."""
    if fault == "limit":
        return limit_of(document, entry)
    if fault == "burst-below-frame":
        return f"the burst is at least {8 * (entry['max_octets'] + 20)}"
    if fault == "bad-class" and "classes" in entry:
        whose = "path" if len(ways_of(entry)) == 1 else "stream"
        ports = ports_of(document, entry)
        return f"{RULES[fault]}, and of the {whose}'s {ports} ports each has one, or all the same"
    return RULES[fault]


def breaks_limit(document, entry, key):
    if key in ("path", "paths"):
        return any(len(path) > MOST_LINKS[document["format"]] + 1 for path in ways_of(entry))
    return not RANGES[key][0] <= entry[key] <= RANGES[key][1]


def sender_fault(document, table, number, fault):
    entry = entry_of(document, table, number)
    keys = {
        "bad-class": ["class", "classes"],
        "bad-rate": ["rate_bps"],
        "bad-sizes": ["min_octets", "max_octets"],
        "burst-below-frame": ["burst_bits", "max_octets"],
        "limit": ["path", "paths", "burst_bits", "deadline_ns"],
    }[fault]
    keys = [key for key in keys if key in entry and (fault != "limit" or breaks_limit(document, entry, key))]
    has = ", ".join(f"{key} {shown(entry[key])}" for key in keys)
    return f"{who_is(document, table, number)}{', with ' + has if has else ''}; {due_of(document, entry, fault)}"


def clocks_of(document):
    """The bridges that declare a clock which is not ideal, by name: the deviation and the step of each."""
    found = {it["name"]: [it.get(key, 0) for key in CLOCK_KEYS] for it in document.get("bridge", [])}
    return {name: clock for name, clock in found.items() if any(clock)}


def without_promise(document, command):
    """What of the clocks of an accepted network leaves something without a promise."""
    clocks = clocks_of(document)
    if command.startswith("lrq"):
        told = "the file declares clocks, and of bridges with such clocks nothing was promised: lrq is for true time"
        return told if clocks else None
    stepless = [shown(name) for name, (_, step) in clocks.items() if not step]
    if not stepless:
        return None
    names = ", ".join(stepless[:MOST_NAMED])
    names += f" and {len(stepless) - MOST_NAMED} more" if len(stepless) > MOST_NAMED else ""
    return f"{names}: clock_ppm without clock_step_ps promises nothing of a clock that deviates: give its step too"


def identity(stream):
    return str(stream.get("address")).lower(), stream.get("vlan")


def network_hint(raw, words):
    """What can be told of a fault of a network file."""
    if words == ["not-toml"]:
        return not_toml(raw)
    import tomllib
    document = tomllib.loads(text_of(raw))
    match words:
        case ["clocks", *command]:
            return without_promise(document, " ".join(command))
        case ["refused", "overloaded", port, cls, _]:
            return rates_at(document, port, int(cls))
        case ["limit"]:
            return over_a_limit(document)
        case ["limit", ("stream" | "link_local" | "link_local_flow") as table]:
            return over_in_all(document, table)
        case ["limit", table]:
            return f"there are {len(document[table])} tables [[{table}]]"
        case ["unknown", table, number]:
            return unknown(document, table, int(number))
        case ["kind", table, number, key]:
            return wrong_kind(document, table, int(number), key)
        case [("unknown-node" | "bad-rate" | "link-twice" | "self-link") as fault, number]:
            return link_fault(document, fault, int(number))
        case [("node-twice" | "station-links" | "bad-processing") as fault, number]:
            return node_fault(document, fault, int(number))
        case ["bad-path", table, number]:
            return bad_path(document, table, int(number))
        case ["sender-twice", table, number]:
            return f"an earlier one is called {shown(taken_name(document, table, int(number)))} too"
        case ["identity-twice", number]:
            streams = document["stream"][: int(number)]
            last = identity(streams[-1])
            first = next(stream["name"] for stream in streams if identity(stream) == last)
            return f"{shown(streams[-1]['name'])} has the address and vlan of {shown(first)}"
        case ["missing", table, number, key]:
            return missing_key(document, table, int(number), key)
        case [table, number, fault]:
            return sender_fault(document, table, int(number), fault)
    return None


# Files of lines and of records


def network_of(path):
    """The network of a file that the program has found lawful."""
    import tomllib
    with open(path, "rb") as file:
        return tomllib.loads(text_of(file.read()))


def no_sender(name, document):
    """What stands in the place of a stream or flow in a schedule."""
    if name in nodes_of(document):
        return f"; {shown(name)} is a node: a stream or flow is due there"
    senders = [sender for sender, _ in senders_of(document)]
    for table in OF_EACH_PORT:
        if any(entry["name"] == name for entry in document.get(table, [])) and document.get("link"):
            count = 2 * len(document["link"])
            return f"; {shown(name)} stands for a {OF_EACH_PORT[table]} at each port: {name}-0 to {name}-{count - 1}"
    return f"; no stream or flow is called {shown(name)}{near(name, senders)}"


def no_port(port, document):
    """What stands in the place of a port in a certificate."""
    return f"; no port is called {shown(port)}{near(port, ports_in(document))}"


LIMITS_OF_RELEASES = (
    "at most 200000 frames are released, none after 100000000000000000 ps, and they have at most 3200000 ports together"
)


def due_of_record(kind, fault, record, number, net):
    """What a record has to keep that has a fault."""
    if fault == "bad-row":
        fields = HEADERS[kind].count(",") + 1
        due = "the header is" if number == 1 else f"there are {fields} fields, joined by commas, as in"
        return f"; {due} {HEADERS[kind]}"
    if fault == "bad-number":
        return "; numbers are whole, without signs, points, exponents and blanks"
    if fault == "bad-size":
        return f"; octets are {range_of('max_octets')}"
    if fault == "limit":
        return f"; {LIMITS_OF_RELEASES}"
    if fault == "unknown-name":
        return no_sender(record[1], network_of(net))
    if fault == "unknown-port":
        return no_port(record[0], network_of(net))
    return ""


def records_of(text):
    return [record for record in csv.reader(io.StringIO(text, newline="")) if record]


def record_hint(kind, raw, fault, number, net):
    if other := strange(raw):
        return other
    text = text_of(raw)
    if number == 1 and re.match(r"(refused|input) ", text):
        return f"the file has what ats said in place of a certificate: {shown(line_of(text, 1))}"
    records = records_of(text)
    if not records:
        return f"the file is empty; the header is {HEADERS[kind]}"
    record = records[number - 1]
    return f"record {number} is {shown(','.join(record))}{due_of_record(kind, fault, record, number, net)}"


def refused_frames(raw, fault, words, net):
    """The records of the frames that a refusal of `conform` names; frame 0 is record 2."""
    records = records_of(text_of(raw))
    frames = dict.fromkeys(int(word) for word in words)
    told = [f"frame {frame} is record {frame + 2}: {shown(','.join(records[frame + 1]))}" for frame in frames]
    if fault == "bucket":
        told.append(due_of_bucket(records[int(words[0]) + 1][1], network_of(net)))
    if fault == "size":
        told.append(f"declared are {sizes_of(records[int(words[0]) + 1][1], network_of(net))}")
    return "; ".join(told)


def due_of_bucket(name, document):
    """What helps where a stream breaks its bucket: by a bridge's clock it may send other frames than are judged."""
    talker = talker_of(name, document)
    if talker in clocks_of(document):
        told = f"{shown(talker)}, where it begins, declares a clock, and the times are judged as true time"
        return f"{told}: in true time it may send the first word of its line rates, which ats show prints"
    return "ats fit says which burst each stream asks for"


def talker_of(name, document):
    """The node at which a stream begins."""
    table = dict(senders_of(document))[name]
    if not {"path", "paths", "from"} & table.keys():
        return ports_in(document)[int(name.rsplit("-", 1)[1])].split(">")[0]
    return ways_of(table)[0][0]


def sizes_of(name, document):
    """The octets that frames of a stream or flow may have."""
    sender = next(sender for called, sender in senders_of(document) if called == name)
    return f"{sender.get('min_octets', RANGES['max_octets'][0])} to {sender['max_octets']} octets"


def limit_of_request(words, document):
    """Which limit a request is over."""
    if words[0] == "admit":
        links = distances(words[2], links_of(document)).get(words[3], 0)
        most = f"the most are {MOST_LINKS[document['format']]} links, {RULES['limit']}"
        if links > MOST_LINKS[document["format"]]:
            return f"its route has {links} links; {most}"
        if not 1 <= int(words[9]) <= RANGES["deadline_ns"][1] or int(words[6]) > RANGES["burst_bits"][1]:
            return f"{most}, and a deadline is at least 1 ns"
    return f"the most are {MOST_REQUESTS} requests"


def request_hint(line, fault, net):
    """What a line of a request file has to keep that has a fault."""
    words = line.split()
    if fault in ("unknown-node", "no-path"):
        document = network_of(net)
        stations = [node["name"] for node in document.get("station", [])]
        strange = [end for end in words[2:4] if end not in stations]
        if strange:
            return f"; no station is called {shown(strange[0])}{near(strange[0], stations)}"
        if fault == "no-path":
            return "; FROM and TO are the same" if words[2] == words[3] else "; no links lead from FROM to TO"
        return ""
    if fault == "limit":
        return f"; {limit_of_request(words, network_of(net))}"
    if fault == "burst-below-frame":
        return f"; the burst is at least {8 * (int(words[8]) + 20)}"
    return f"; {RULES[fault]}" if fault in ("bad-class", "bad-rate", "bad-sizes") else ""


def bad_magic(raw):
    """What a file is that begins as no capture does."""
    if raw[:2] == b"\x1f\x8b":
        return "gzip compressed it: editcap -F pcap FILE NEW unpacks it"
    return f"it begins with {shown(raw[:16].decode('latin-1'))}, which is no capture"


def cut_short(raw, number):
    """Where a capture ends that is not whole."""
    if not raw:
        return "the file is empty, as where the tool wrote nothing"
    if number == 0:
        return f"the file has {len(raw)} bytes, and the header of a capture {PCAP_HEADER}"
    return f"the file ends inside record {number}: editcap -F pcap FILE NEW leaves that record out"


def capture_hint(raw, words):
    """What a capture is that cannot be read."""
    order = "big" if raw[:1] == b"\xa1" else "little"
    match words:
        case ["pcapng"]:
            return "editcap -F pcap FILE NEW makes a pcap of it"
        case ["bad-link"]:
            return f"its link type is {int.from_bytes(raw[20:24], order)}, and that of Ethernet is 1"
        case ["bad-version"]:
            version = int.from_bytes(raw[4:6], order), int.from_bytes(raw[6:8], order)
            return "its version is {}.{}, and 2.4 is due".format(*version)
        case ["bad-magic"]:
            return bad_magic(raw)
        case ["cut-short", number]:
            return cut_short(raw, int(number))
    return None


def bad_line(kind, text, line):
    """What a line has to be that has no form."""
    if not any(words.strip(" \r") for words in text.split("\n") if not words.startswith("#")):
        return "no line of the file says anything; " + FORMS[kind]
    if line.startswith("\ufeff"):
        return "a byte order mark stands in front: save the file without"
    if "\t" in line:
        return "a tab stands there, and words are separated by spaces"
    return FORMS[kind]


def line_hint(kind, raw, fault, number, net):
    if other := strange(raw):
        return other
    text = raw.decode("utf-8")
    line = line_of(text, number)
    if fault == "bad-line":
        due = "; " + bad_line(kind, text, line)
    else:
        due = request_hint(line, fault, net) if kind == "REQUESTS" else ""
    return f"line {number} is {shown(line)}{due}"


def hint(kind, raw, words, net):
    if kind == "NET":
        return network_hint(raw, words)
    if words[0] == "refused":
        return refused_frames(raw, words[1], words[2:], net)
    if kind == "CAPTURE":
        return capture_hint(raw, words)
    number = int(words[-1])
    if kind in HEADERS:
        return record_hint(kind, raw, words[0], number, net)
    return line_hint(kind, raw, words[0], number, net)


def main():
    kind, path, fault, net = sys.argv[1:]
    with open(path, "rb") as file:
        raw = file.read()
    found = hint(kind, raw, fault.split(), net)
    if found:
        print(found)


if __name__ == "__main__":
    main()
