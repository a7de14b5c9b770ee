"""The drawing of a network: its nodes and links, the ports along each route, and what a refusal names."""

from figures import link_rate, place, text
from places import GAP, MARGIN, places_of, shortened

# The widths of links, by how many bits per second they have at the least.
WIDTHS = ((25 * 10**9, 5), (2 * 10**9, 4), (10**9, 3), (10**8, 2), (0, 1))


def bulge(one, other):
    """How far the middle of a link reaches that leaves both its bars to one side."""
    return min(GAP - 18, 26 + abs(one.y - other.y) / 6)


def between(one, other):
    """The way of a link from one side of a bar to another."""
    gap = GAP / 2
    if one.to_right != other.to_right:
        by = gap if one.to_right else -gap
        bends = f"C{place(one.column + by)} {place(one.y)} {place(other.column - by)} {place(other.y)}"
    else:
        far = bulge(one, other)
        at = max(one.column, other.column) + far if one.to_right else min(one.column, other.column) - far
        bends = f"C{place(at)} {place(one.y)} {place(at)} {place(other.y)}"
    start = f"M{place(one.x)} {place(one.y)}H{place(one.column)}"
    # A line without length has no direction, in which an arrowhead could lie.
    end = f"H{place(other.x)}" if place(other.x) != place(other.column) else ""
    return f"{start}{bends} {place(other.column)} {place(other.y)}{end}"


def stalk(bar, station):
    """The way of a link from a bar to a station that stands above or below it."""
    side = 1 if station.y > bar.y else -1
    start, end = bar.y + side * bar.height / 2, station.y - side * station.height / 2
    return [(station.x, start), (station.x, end)]


def straight(points):
    """The way along points."""
    return "M" + "L".join(f"{place(x)} {place(y)}" for x, y in points)


def way_of(places, start, end):
    """The way of a port in the drawing, from the node that it leaves to the one that it leads to."""
    if (start, end) in places.sides:
        return between(*places.sides[start, end])
    if (end, start) in places.sides:
        return between(*reversed(places.sides[end, start]))
    if end in places.stations:
        return straight(stalk(places.bars[start], places.stations[end]))
    return straight(stalk(places.bars[end], places.stations[start])[::-1])


def label_place(places, start, end):
    """Where the rate of a link is written, and whether it begins there or ends: at the end of the link that has fewer
    links beside it, or on the upper part of one that leaves both its bars to one side."""
    if (start, end) in places.sides:
        one, other = places.sides[start, end]
        if one.to_right == other.to_right:
            by = 0.56 * bulge(one, other) + 7
            upper, low = sorted((one.y, other.y))
            at = max(one.column, other.column) + by if one.to_right else min(one.column, other.column) - by
            return at, upper + 0.16 * (low - upper), one.to_right
        at, far = sorted((one, other), key=lambda side: (side.beside, side.to_right))
        below = at.beside == 1 and far.y < at.y - 4
        return at.column + (5 if at.to_right else -5), at.y + (14 if below else -7), at.to_right
    bar, station = (start, end) if start in places.bars else (end, start)
    points = stalk(places.bars[bar], places.stations[station])
    return points[0][0] + 5, (points[0][1] + points[1][1]) / 2 + 4, True


def node(kind, name, spot):
    """A node."""
    corner = f'x="{place(spot.x - spot.width / 2)}" y="{place(spot.y - spot.height / 2)}"'
    size = f'width="{place(spot.width)}" height="{place(spot.height)}"'
    full = f"<title>{name}</title>" if shortened(name) != name else ""
    words = f'<text x="{place(spot.x)}" y="{place(spot.y + 4)}">{shortened(name)}</text>'
    return f'<g class="{kind}" id="n-{name}">{full}<rect {corner} {size} rx="5"/>{words}</g>'


def link_lines(ports, places):
    """The lines of the links, each with its rate. Each is the way of its first port."""
    lines, rates = [], []
    for port in ports.values():
        if port.number % 2 == 0:
            bits = 10**12 // port.ps_per_bit
            width = next(width for least, width in WIDTHS if bits >= least)
            lines.append(f'<use href="#p{port.number}" class="w{width}"/>')
            x, y, begins = label_place(places, port.start, port.end)
            kind = "" if begins else ' class="e"'
            rates.append(f'<text x="{place(x)}" y="{place(y)}"{kind}>{link_rate(port.ps_per_bit)}</text>')
    return "\n".join(['<g class="links">', *lines, "</g>", '<g class="rates">', *rates, "</g>"])


def along(number, names, ports, is_shown):
    """The group of a route."""
    uses = "".join(f'<use href="#p{ports[name].number}"/>' for name in names)
    return f'<g class="r{" on" if is_shown else ""}" id="r{number}">{uses}</g>'


def fault_marks(shown, names):
    """What marks ports at fault."""
    uses = "".join(f'<use href="#p{shown.ports[name].number}"/>' for name in names)
    return f'<g class="fault">{uses}</g>' if names else ""


def edges_of(places):
    """The left and the right edge of a drawing: with room for links that leave both their bars to that side."""
    arcs = [one for one, other in places.sides.values() if one.to_right == other.to_right]
    left = min(spot.x - spot.width / 2 for spot in [*places.bars.values(), *places.stations.values()])
    right = max(spot.x + spot.width / 2 for spot in [*places.bars.values(), *places.stations.values()])
    room = [MARGIN + 34 if any(arc.to_right == to_right for arc in arcs) else 24 for to_right in (False, True)]
    return left - room[0], right + room[1] + 16


def drawing(shown, bridges, routes, faults, chosen):
    """The drawing, with a group for each numbered route of names of ports, of which the chosen one is shown at first,
    and marks of the ports at fault."""
    places = places_of(shown.ports, bridges)
    ways = [f'<path id="p{it.number}" d="{way_of(places, it.start, it.end)}"/>' for it in shown.ports.values()]
    nodes = [node("bar" if it in bridges else "node", it, spot) for it, spot in places.bars.items()]
    nodes += [node("node", it, spot) for it, spot in places.stations.items()]
    left, right = edges_of(places)
    size = f'width="{place(right - left)}" height="{place(places.height)}"'
    box = f'viewBox="{place(left)} 0 {place(right - left)} {place(places.height)}"'
    heads = "".join(
        f'<marker id="{name}" viewBox="0 0 10 10" refX="8" refY="5" markerWidth="{size}" markerHeight="{size}" '
        f'orient="auto"><path d="M0 0L10 5L0 10Z"/></marker>' for name, size in (("head", 4), ("fault", 2.6))
    )  # fmt: skip
    told = f"{len(bridges)} bridges, {len(places.bars) + len(places.stations) - len(bridges)} stations"
    return "\n".join([
        f'<svg class="net" id="net" {size} {box} role="img" aria-label="The network: {text(told)}">',
        f"<defs>{heads}", *ways, "</defs>",
        link_lines(shown.ports, places), fault_marks(shown, faults),
        *(along(number, names, shown.ports, number == chosen) for number, names in routes.items()),
        *nodes, "</svg>",
    ])  # fmt: skip
