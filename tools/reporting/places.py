"""Where the nodes of a network stand in its drawing.

Bridges are bars that stand in columns: a bridge of one column has links to bridges of its own column and of the two
beside it alone, since a column has the bridges that are as many links away from the first one. So each such link is
drawn in the gap between two columns, and crosses no node. The columns of a long network run from left to right and
back, in bands below each other. The stations of a bridge stand above and below its bar."""

from collections import deque
from typing import NamedTuple

# The sizes of a drawing: of a letter, of a station, of what lies between them, of bars, and of gaps between columns.
LETTER, STATION, BETWEEN, STALK, BAR, GAP, ROW, MARGIN = 7, 26, 14, 38, 34, 104, 30, 90

# The letters of a name that are shown in a drawing, at most.
LETTERS = 18

# The width that columns may take before a second band begins, and how much wider than high a drawing is at the most.
WIDE, SHAPE = 1120, 1.7

# Of how many bridges each is tried as the first one.
TRIED = 100


class Spot(NamedTuple):
    """The middle of a node in a drawing, with its width and height."""

    x: float
    y: float
    width: float
    height: float


class Side(NamedTuple):
    """An end of a link at a bar: the bar's edge, the edge of its column, its height there, whether the link leaves to
    the right, and how many links do so there."""

    x: float
    column: float
    y: float
    to_right: bool
    beside: int


class Places(NamedTuple):
    """A drawing's size, the spots of its bridges and stations, and the two sides of each link between bridges."""

    width: float
    height: float
    bars: dict
    stations: dict
    sides: dict


def neighbours_of(ports):
    """The nodes that each node has a link to, in the order of ports."""
    found = {}
    for port in ports.values():
        found.setdefault(port.start, []).append(port.end)
    return found


def levels_from(first, near, among=None):
    """The bridges by how many links they are away from the first one, in the order in which they are reached; of some
    of them alone, where these are given."""
    away, waiting, levels = {first: 0}, deque([first]), []
    while waiting:
        node = waiting.popleft()
        levels += [[]] if away[node] == len(levels) else []
        levels[away[node]].append(node)
        fresh = [other for other in near[node] if other not in away and (among is None or other in among)]
        away.update(dict.fromkeys(fresh, away[node] + 1))
        waiting.extend(dict.fromkeys(fresh))
    return levels


def flat(levels):
    """The bridges of all levels."""
    return [node for level in levels for node in level]


def halves(first, near):
    """What hangs together without a bridge, in two halves of about the same size."""
    sides, seen = ([], []), {first}
    for node in near[first]:
        if node not in seen:
            part = flat(levels_from(node, near, near.keys() - {first}))
            seen.update(part)
            min(sides, key=len).extend(part)
    return [set(side) for side in sides]


def levels_about(first, near):
    """The levels from a bridge on to both sides: what hangs together without it is on one side."""
    left, right = (levels_from(first, near, half)[1:] for half in halves(first, near))
    return [*reversed(left), [first], *right]


def farthest(first, near):
    """A bridge at the far end of the network."""
    return levels_from(first, near)[-1][-1]


def best_levels(first, near):
    """The levels of the bridges that hang together with one of them: those with the least of them above each other."""
    nodes = flat(levels_from(first, near))
    if len(nodes) > TRIED:
        nodes = [farthest(farthest(first, near), near), max(nodes, key=lambda node: len(near[node]))]
    found = [make(node, near) for make in (levels_from, levels_about) for node in nodes]
    return untangled(min(found, key=lambda levels: (max(map(len, levels)), len(levels))), near)


def untangled(levels, near):
    """The levels with each bridge at the height of those that it has links to on the levels before it."""
    height = {}
    for level in levels:
        middle = {node: [height[other] for other in near[node] if other in height] for node in level}
        level.sort(key=lambda node: sum(middle[node]) / len(middle[node]) if middle[node] else 0)
        height |= {node: k - len(level) / 2 for k, node in enumerate(level)}
    return levels


def shortened(name):
    """A name as it stands in a drawing."""
    return name if len(name) <= LETTERS else f"{name[: LETTERS - 7]}\N{HORIZONTAL ELLIPSIS}{name[-6:]}"


def width_of(name):
    """The width of a node with this name."""
    return max(46, LETTER * len(shortened(name)) + 16)


class Cell:
    """A bridge with its stations: which of them stand above it and which below, and how much room all take."""

    def __init__(self, bridge, stations, place, links):
        first = {"above": len(stations), "below": 0}.get(place, (len(stations) + 1) // 2)
        self.bridge, self.above, self.below = bridge, stations[:first], stations[first:]
        self.pitch = max([0, *map(width_of, stations)]) + BETWEEN
        most = max(len(self.above), len(self.below))
        self.width = max(most * self.pitch - BETWEEN, width_of(bridge) + 30)
        self.bar = max(BAR, 14 * links)
        self.height = self.bar + (STATION + STALK) * (bool(self.above) + bool(self.below))

    def over(self):
        """How much of the cell is above the bar."""
        return (STATION + STALK) * bool(self.above)

    def turn_over(self):
        """Puts the stations that stand above below, and those that stand below above."""
        self.above, self.below = self.below, self.above

    def put(self, middle, top, places):
        """Notes the spots of the bridge and of its stations, where the cell has this middle and top."""
        y = top + self.over() + self.bar / 2
        places.bars[self.bridge] = Spot(middle, y, self.width, self.bar)
        for row, side in ((self.above, -1), (self.below, 1)):
            left = middle - (len(row) - 1) / 2 * self.pitch
            at = y + side * (self.bar / 2 + STALK + STATION / 2)
            spots = {name: Spot(left + k * self.pitch, at, self.pitch - BETWEEN, STATION) for k, name in enumerate(row)}
            places.stations.update(spots)


def cells_of(level, hung, near):
    """The cells of a column. In one of several bridges the stations of the first stand above, of the last below."""
    places = ["both"] * len(level)
    if len(level) > 1:
        places[0], places[-1] = "above", "below"
    links = [len(near[bridge]) if len(near[bridge]) > 2 else 1 for bridge in level]
    places = [it if len(hung[bridge]) <= 4 else "both" for it, bridge in zip(places, level)]
    return [Cell(bridge, hung[bridge], *more) for bridge, *more in zip(level, places, links)]


def height_of(cells):
    """The height of a column."""
    return sum(cell.height for cell in cells) + ROW * (len(cells) - 1)


def over_middle(cells):
    """How much of a column stands above the middle of its band: that of one bridge is on the band's middle."""
    return cells[0].over() + cells[0].bar / 2 if len(cells) == 1 else height_of(cells) / 2


def bands_of(columns):
    """The columns cut into bands of about the same number of them, where each has at most two bridges: a line or a
    ring. Every second band runs back, and is turned over."""
    wide = sum(max(cell.width for cell in cells) + GAP for cells in columns)
    high = max(map(height_of, columns)) + 2 * ROW
    least = max(WIDE, (SHAPE * high * wide) ** 0.5)
    count = max(1, -(-int(wide) // int(least))) if max(map(len, columns)) <= 2 else 1
    size = -(-len(columns) // count)
    bands = [columns[k : k + size] for k in range(0, len(columns), size)]
    for cell in (cell for band in bands[1::2] for cells in band for cell in cells):
        cell.turn_over()
    return bands


def put_band(band, backwards, top, places, edges):
    """Notes the spots of a band, and the edges of the columns of its bridges. Gives its width and height."""
    over, x = max(map(over_middle, band)), MARGIN
    for cells in reversed(band) if backwards else band:
        width = max(cell.width for cell in cells)
        at = top + over - over_middle(cells)
        for cell in reversed(cells) if backwards else cells:
            cell.put(x + width / 2, at, places)
            edges[cell.bridge] = x, x + width
            at += cell.height + ROW
        x += width + GAP
    return x - GAP + MARGIN, over + max(height_of(cells) - over_middle(cells) for cells in band)


def shifted(band, places, edges, by):
    """Moves a band to the right."""
    for cell in (cell for cells in band for cell in cells):
        left, right = edges[cell.bridge]
        edges[cell.bridge] = left + by, right + by
        for table, names in ((places.bars, [cell.bridge]), (places.stations, cell.above + cell.below)):
            table.update({name: table[name]._replace(x=table[name].x + by) for name in names})


def put_bands(bands, top, places, edges):
    """Notes the spots of all bands, one below the other, each of which begins where the one before ends. Gives the
    width of the widest and the height of all."""
    sizes, at = [], top
    for number, band in enumerate(bands):
        sizes.append(put_band(band, number % 2 == 1, at, places, edges))
        at += sizes[-1][1] + 2 * ROW
    widest = max(width for width, _ in sizes)
    for band, (width, _) in list(zip(bands, sizes))[1::2]:
        shifted(band, places, edges, widest - width)
    return widest, at - top - 2 * ROW


def facing_of(links, bands):
    """To which side each end of a link between bridges leaves its bar: True is to the right. A link of one column, or
    of the two at a turn from one band to the next, leaves both to the side of that turn."""
    column = {cell.bridge: (k, i) for k, band in enumerate(bands) for i, cells in enumerate(band) for cell in cells}
    facing = {}
    for one, other in links:
        (band, place), (other_band, other_place) = column[one], column[other]
        if band != other_band or place == other_place:
            to_right = min(band, other_band) % 2 == 0
            facing[one, other] = to_right, to_right
        else:
            to_right = (place < other_place) == (band % 2 == 0)
            facing[one, other] = to_right, not to_right
    return facing


def sides_of(facing, places, edges):
    """The two sides of each link between bridges, each at its own height of the bar, in the order of the far ends."""
    there = {}
    for link, ways in facing.items():
        for node, far, to_right in zip(link, reversed(link), ways):
            there.setdefault((node, to_right), []).append((places.bars[far].y, far))
    height = {(node, far): (k + 1) / (len(ends) + 1) - 0.5 for (node, _), ends in there.items()
              for k, (_, far) in enumerate(sorted(ends))}  # fmt: skip

    def side(node, far, to_right):
        spot = places.bars[node]
        edge = spot.x + spot.width / 2 * (1 if to_right else -1)
        beside = len(there[node, to_right])
        return Side(edge, edges[node][to_right], spot.y + height[node, far] * spot.height, to_right, beside)

    return {(a, b): (side(a, b, ways[0]), side(b, a, ways[1])) for (a, b), ways in facing.items()}


def places_of(ports, bridges):
    """The places of all nodes. Two stations that are joined by a link stand as a bridge and a station would."""
    near = neighbours_of(ports)
    lone = {min(a, b) for a, more in near.items() for b in more if not {a, b} & bridges}
    bars = [node for node in near if node in bridges | lone]
    hung = {node: [other for other in near[node] if other not in bridges | lone] for node in bars}
    among = {node: [other for other in near[node] if other in bridges | lone] for node in bars}
    links = [(it.start, it.end) for it in ports.values() if it.number % 2 == 0 and {it.start, it.end} <= among.keys()]
    places, edges, top, width = Places(0, 0, {}, {}, {}), {}, ROW, 0
    while rest := [node for node in bars if node not in places.bars]:
        bands = bands_of([cells_of(level, hung, among) for level in best_levels(rest[0], among)])
        wide, high = put_bands(bands, top, places, edges)
        width, top = max(width, wide), top + high + 2 * ROW
        there = {cell.bridge for band in bands for cells in band for cell in cells}
        own = [link for link in links if link[0] in there]
        places.sides.update(sides_of(facing_of(own, bands), places, edges))
    return places._replace(width=width, height=top - ROW)
