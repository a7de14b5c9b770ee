"""The tables of a page: streams, the hops of each, traffic without bounds, ports, and the rows of the certificate."""

from figures import down, link_rate, percent, rate, share, text, up, used

# The parts of a bound, as `explain` has them: the name in the page, and what it is.
PARTS = (
    ("lower", "waiting for one frame of a lower class or of best effort that has begun"),
    ("bursts", "waiting for bursts of the same and higher classes, its own too, but for the shortest frame"),
    ("higher", "what the rates of higher classes add meanwhile"),
    ("frame", "sending the shortest frame of the class; the rest of a stream's own frame is counted in bursts"),
    ("latency", "propagation, and processing in the bridge behind"),
)

# What stands beside them.
STAY = "the longest that the next bridge's scheduler may have to hold a frame, of what it may hold one at the most"

# The columns of delays that were seen.
MARKS = {"run": "in the run", "found": "found"}

# Where in a bar the deadline stands, in percent of its width.
DEADLINE = 80


def cell(ps, shown, kind=""):
    """A cell with a time, by which a table can be sorted."""
    return f'<td{kind and f" class={kind}"} data-ps="{ps}">{shown}</td>'


def heads(*names):
    """The head of a table: each column with its name, and whether it has numbers."""
    cells = "".join(f'<th scope="col"{" class=n" if number else ""}>{name}</th>' for name, number in names)
    return f"<thead><tr>{cells}</tr></thead>"


def framed(columns, rows, name=""):
    """A table of rows below a head; one with a name can be sorted."""
    named = f' class="sort" id="{name}"' if name else ""
    body = "\n".join(rows)
    return f'<div class="wide"><table{named}>{heads(*columns)}<tbody>\n{body}\n</tbody></table></div>'


def mark(kind, ps, deadline):
    """A mark on the bar of a stream."""
    return f'<i class="{kind}" style="left:{share(ps * DEADLINE, deadline * 100)}"></i>'


def sum_bar(it, marks):
    """The bar of a stream: its worst-case delay against its deadline, with marks of delays that were seen."""
    late = " late" if it.left < 0 else ""
    fill = f'<b class="fill{late}" style="width:{share(it.sum * DEADLINE, it.deadline * 100)}"></b>'
    # What comes later is in front: the mark of the run, which is the smaller one.
    seen = [mark(kind, ps, it.deadline) for kind, ps in marks.items() if ps is not None]
    return f'<div class="sum">{fill}{"".join(reversed(seen))}</div>'


def left_cell(it):
    """The cell of what a stream has left of its deadline, or by how much it is late."""
    shown = f"late by {up(-it.left)}" if it.left < 0 else down(it.left)
    return cell(it.left, shown, '"n late"' if it.left < 0 else "n")


def used_cell(it):
    """The cell of the share of its deadline that a stream's worst-case delay takes."""
    kind = '"n late"' if it.left < 0 else "n"
    return f"<td class={kind}>{used(it.sum, it.deadline)}</td>"


def deadline_cell(model, number):
    """The cell of a stream's deadline, which says where the file has none."""
    it = model.explained.sums[number]
    note = " <small>none given</small>" if model.is_without_deadline(number) else ""
    return cell(it.deadline, down(it.deadline) + note, "n")


def classes(route):
    """The classes of a route, as the program prints them."""
    return ",".join(map(str, route.classes))


def ends(model, way):
    """The first and the last node of a way."""
    return f"{model.shown.ports[way[0]].start} to {model.shown.ports[way[-1]].end}"


def stream_ends(model, number):
    """The talker and the listener of a stream, and where it has several, which of them this is."""
    place, count = model.place_of(number)
    if count == 1:
        return ends(model, model.ways[number])
    start = model.shown.ports[model.ways[number][0]].start
    return f"{start} to <b>{model.end_of(number)}</b> <small>{place} of {count}</small>"


def to_listener(model, number):
    """To which listener a delay is, in words, where the stream has several."""
    return f" to {model.end_of(number)}" if model.place_of(number)[1] > 1 else ""


def declared_cells(model, route):
    """The cells of a stream's rate and burst, which stand in the network's file."""
    table = model.declared.tables.get(route.name)
    if table is None:
        return "<td class=n>-</td><td class=n>-</td>"
    bits, burst = table["rate_bps"], table["burst_bits"]
    return f'<td class=n data-v="{bits}">{rate(bits)}</td><td class=n>{burst}</td>'


def route_link(model, number):
    """The head of a link to a route in the drawing; where routes are data, the script alone shows it."""
    return '<a href="#network" class="way">' if model.is_data else f'<a href="#r{number}" class="way">'


def stream_row(model, number):
    """The row of a stream in the table of all."""
    route, it = model.shown.streams[number], model.explained.sums[number]
    marks = model.marks(number)
    seen = "".join(cell(ps, up(ps), "n") if ps is not None else "<td class=n>-</td>" for ps in marks.values())
    name = f"{route_link(model, number)}{it.label}</a>"
    return (
        f'<tr data-r="{number}"><td class=n>{number + 1}</td><th scope="row">{name}</th><td>{sum_bar(it, marks)}</td>'
        f"{used_cell(it)}{left_cell(it)}{cell(it.sum, up(it.sum), 'n')}{deadline_cell(model, number)}{seen}"
        f"<td>{classes(route)}</td><td>{stream_ends(model, number)}</td>{declared_cells(model, route)}</tr>"
    )


# What a table of streams has behind the name and what is known of bounds.
DECLARED = [("class", False), ("from, to", False), ("rate", True), ("burst, bits", True)]

# The name of a delay that no frame of a stream exceeds.
WORST = "worst-case delay"


def stream_table(model, order):
    """The table of the streams of these numbers."""
    columns = [("", True), ("stream", False), ("against the deadline", False), ("used", True), ("left", True)]
    columns += [(WORST, True), ("deadline", True)] + [(MARKS[kind], True) for kind in model.kinds_of_marks] + DECLARED
    return framed(columns, (stream_row(model, number) for number in order), "streams")


def declared_row(model, number):
    """The row of a stream of which no bound is known."""
    route = model.shown.streams[number]
    name = f"{route_link(model, number)}{route.label()}</a>"
    return (
        f'<tr data-r="{number}"><td class=n>{number + 1}</td><th scope="row">{name}</th><td>{classes(route)}</td>'
        f"<td>{stream_ends(model, number)}</td>{declared_cells(model, route)}</tr>"
    )


def declared_table(model, order):
    """The table of streams of which no bounds are known."""
    rows = (declared_row(model, number) for number in order)
    return framed([("", True), ("stream", False), *DECLARED], rows, "declared")


def flow_row(model, number, seen):
    """The row of a flow, with the longest delay of its frames in a run."""
    route = model.shown.flows[number - len(model.shown.streams)]
    table = model.declared.tables.get(route.name)
    octets = f"<td class=n>{table['max_octets']}</td>" if table else "<td class=n>-</td>"
    worst = model.run.worst.get(route.name) if seen else None
    marks = (cell(worst.delay, up(worst.delay), "n") if worst else "<td class=n>-</td>") if seen else ""
    return (
        f'<tr data-r="{number}"><th scope="row">{route_link(model, number)}{route.name}</a></th>'
        f"<td>{classes(route)}</td><td>{ends(model, route.ports)}</td>{octets}{marks}</tr>"
    )


def flow_table(model, numbers):
    """The table of the flows of these numbers, for which there are no bounds."""
    columns = [("flow", False), ("class", False), ("from, to", False), ("longest frame, octets", True)]
    columns += [(MARKS["run"], True)] if model.run else []
    return framed(columns, (flow_row(model, number, model.run is not None) for number in numbers), "flows")


def parts_of(hop):
    """The five parts of a hop's bound, by their names."""
    return {name: getattr(hop, name) for name, _ in PARTS}


def part_bar(hops, longest):
    """The stacked bar of the parts of a bound, as a share of the longest in the table."""
    parts = "".join(f'<b class="{name}" style="width:{share(ps, longest)}"></b>' for name, ps in parts_of(hops).items())
    return f'<div class="parts">{parts}</div>'


def stay_cell(hop):
    """The cell of how long a frame may have to stay in the bridge behind, and the most that is allowed there."""
    if hop.stay is None:
        return "<td class=n>-</td>"
    over = "n late" if hop.stay > hop.residence else "n"
    return f'<td class="{over}" data-ps="{hop.stay}">{up(hop.stay)} of {down(hop.residence)}</td>'


def lower_cell(hop):
    """The cell of the first part, with the sender whose frame is waited for."""
    told = "" if hop.sender == "-" else f" <small>{hop.sender}</small>"
    return cell(hop.lower, up(hop.lower) + told, "n")


def whose(model, hop):
    """Whose bursts a part of a bound is: the stream's own alone, or those of so many streams."""
    count = len(model.bursting(hop.port, hop.cls)) if hop.bursts else 0
    return "" if not count else "own" if count == 1 else f"of {count} streams"


def bursts_cell(model, hop):
    """The cell of the second part, with whose bursts these are."""
    told = whose(model, hop)
    return cell(hop.bursts, up(hop.bursts) + (f" <small>{told}</small>" if told else ""), "n")


def hop_row(model, hop, longest):
    """The row of a hop."""
    parts = "".join(cell(ps, up(ps), "n") for ps in list(parts_of(hop).values())[2:])
    return (
        f'<tr><th scope="row">{text(hop.port)}</th><td>{hop.cls}</td>{cell(hop.bound, up(hop.bound), "n")}'
        f"<td>{part_bar(hop, longest)}</td>{lower_cell(hop)}{bursts_cell(model, hop)}{parts}{stay_cell(hop)}</tr>"
    )


def front_told(model, number):
    """Which hops of a further listener are those of others too."""
    count = model.in_front(number)
    if not count:
        return ""
    what, behind = ("hop is that", "it") if count == 1 else (f"{count} hops are those", "them")
    told = f"The first {what} of other listeners of the stream too: behind {behind} its frames are copied."
    return f'<p class="note">{told}</p>'


def hop_table(model, number, is_open=False):
    """The hops of a stream, to be opened."""
    it, hops = model.explained.sums[number], model.hops(number)
    longest = max((hop.bound for hop in hops), default=1)
    columns = [("port", False), ("class", False), ("bound", True), ("its parts", False)]
    columns += [(f'<i class="key {name}"></i>{name}', True) for name, _ in PARTS]
    columns += [("stay in next bridge", True)]
    left = f"late by {up(-it.left)}" if it.left < 0 else f"{down(it.left)} left"
    share = used(it.sum, it.deadline)
    most = f"{WORST}{to_listener(model, number)} {up(it.sum)} &micro;s"
    told = f"<b>{it.label}</b>: {most}, {share} of {down(it.deadline)}, {left}"
    return (
        f'<details id="h{number}"{" open" if is_open else ""}><summary>{told}</summary>'
        f"{framed(columns, (hop_row(model, hop, longest) for hop in hops))}{front_told(model, number)}"
        f'<p data-r="{number}">{route_link(model, number)}its route in the drawing</a></p></details>'
    )


def class_shares(model, port):
    """The shares of a port's link by class, highest first, as the rows of the certificate have them."""
    return {cls: model.rows[port, cls]["equal"] for cls in range(7, 0, -1) if (port, cls) in model.rows}


def load_bar(model, port):
    """The bar of a port's load, by classes where they are known."""
    shares = class_shares(model, port)
    parts = [f'<b class="c{cls}" style="width:{share(load, 10**12)}"></b>' for cls, load in shares.items()]
    whole = [f'<b class="all" style="width:{share(model.explained.loads[port], 10**12)}"></b>']
    return f'<div class="load">{"".join(parts or whole)}</div>'


def class_words(model, port):
    """The classes of a port with their shares and buffers, in words."""
    told = []
    for cls, load in class_shares(model, port).items():
        key = "" if model.is_data else f'<i class="key c{cls}"></i>'
        told.append(f"{key}{cls}: {percent(load)}")
    return ", ".join(told) or "-"


def buffer_words(model, port):
    """What the queues of a port hold at the most, by class, highest first, and what they held in the run."""
    told = []
    for cls in range(7, 0, -1):
        if (port, cls) in model.buffers:
            bits, peak = model.buffers[port, cls]
            told.append(f"{cls}: {bits}" + ("" if peak is None else f" (held {peak})"))
    return ", ".join(told) or "-"


def port_row(model, port):
    """The row of a port."""
    load, ps_per_bit = model.explained.loads[port], model.shown.ports[port].ps_per_bit
    more = f"<td>{class_words(model, port)}</td>" if model.rows else ""
    more += f"<td>{buffer_words(model, port)}</td>" if model.buffers else ""
    return (
        f'<tr><td class=n>{model.shown.ports[port].number}</td><th scope="row">{text(port)}</th>'
        f'<td class=n data-v="{-ps_per_bit}">{link_rate(ps_per_bit)}</td>'
        f'<td class=n data-v="{load}">{percent(load)}</td><td>{load_bar(model, port)}</td>'
        f"{more}</tr>"
    )


def port_table(model):
    """The table of the ports that streams use, the fullest first."""
    columns = [("", True), ("port", False), ("link", True), ("load", True), ("of the link", False)]
    columns += [("load of each class", False)] if model.rows else []
    columns += [("buffer of each class, bits", False)] if model.buffers else []
    order = sorted(model.explained.loads, key=lambda port: -model.explained.loads[port])
    return framed(columns, (port_row(model, port) for port in order), "ports")


def certificate_table(model):
    """The rows of the certificate."""
    columns = [("port", False), ("class", False), ("wait", True), ("bound", True)]
    rows = (
        f'<tr><th scope="row">{text(port)}</th><td>{cls}</td>{cell(row["wait"], up(row["wait"]), "n")}'
        f"{cell(row['bound'], up(row['bound']), 'n')}</tr>"
        for (port, cls), row in model.rows.items()
    )
    return framed(columns, rows, "rows")


def part_words():
    """What the parts of a bound are, and what stands beside them."""
    told = [f'<li><i class="key {name}"></i><b>{name}</b>: {what}</li>' for name, what in PARTS]
    told.append(f"<li><b>stay in next bridge</b>: {STAY}</li>")
    note = "The bars of each table have a scale of their own: the longest bar is the greatest bound there."
    return f"<ul class=keys>{''.join(told)}</ul><p class=note>{note}</p>"
