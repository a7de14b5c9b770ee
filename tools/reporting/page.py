"""The page: one file in HTML, which loads nothing."""

import json
import os

import journeys
from drawing import drawing
from figures import exact, text, up
from reasons import counts_told, tightest_told, verdict
from tables import (
    certificate_table,
    declared_table,
    flow_table,
    framed,
    hop_table,
    part_words,
    port_table,
    stream_table,
)
from timeline import timeline

HERE = os.path.dirname(os.path.abspath(__file__))

# What `witness` found.
FOUND = "delay that can happen, which <code>witness</code> found by trying bursts at each port"

# How many hops, rows of a certificate, journeys, and streams and flows stand in a page, and whether their routes and
# hops are data, which the script alone shows: in the fullest page, and in those that are made where it is over the
# greatest length, in octets. They are data too where not all hops stand in the page.
BUDGETS = (
    (3000, 800, 300, 6000, False),
    (600, 200, 100, 6000, True),
    (100, 0, 20, 6000, True),
    (100, 0, 20, 3000, True),
    (100, 0, 20, 1000, True),
)
LONGEST = 5 * 10**6

# The buttons of the timeline.
RUN_ACTS = (("out", "wider"), ("in", "closer"), ("back", "earlier"), ("on", "later"), ("all", "all"))
RUN_BUTTONS = " ".join(f'<button type="button" data-run="{act}">{name}</button>' for act, name in RUN_ACTS)
RUN_BUTTONS = f'<p class="tools js">{RUN_BUTTONS}</p>'


def beside(name):
    """A file that stands beside this one."""
    with open(os.path.join(HERE, name), encoding="utf-8") as file:
        return file.read()


def section(number, title, *body):
    """A part of the page."""
    return f'<section id="{number}"><h2>{title}</h2>\n' + "\n".join(it for it in body if it) + "\n</section>"


def classes_of(hops):
    """The classes of hops: one, where it is that of all."""
    classes = [hop.cls for hop in hops]
    return classes[:1] if len({*classes}) == 1 else classes


def data_of(model, ways):
    """The ports of routes by their numbers, the classes there, and the parts of the bound of each port and class."""
    ports, rows, sums = model.shown.ports, {}, model.explained.sums if model.explained else []
    for hop in (hop for it in sums for hop in it.hops):
        users = len(model.bursting(hop.port, hop.cls))
        parts = [hop.lower, hop.sender, hop.bursts, users, hop.higher, hop.frame, hop.latency, hop.bound]
        rows[f"{ports[hop.port].number}:{hop.cls}"] = parts + ([] if hop.stay is None else [hop.stay, hop.residence])
    told = {
        "ways": {number: [ports[name].number for name in names] for number, names in ways.items()},
        "classes": {number: classes_of(model.hops(number)) for number in ways if number < len(sums)},
        "ports": {ports[name].number: name for names in ways.values() for name in names},
        "rows": rows,
    }
    written = json.dumps(told, separators=(",", ":")).replace("<", "\\u003c")
    return f'<script type="application/json" id="data">{written}</script>'


def route_choice(model, numbers, chosen):
    """The list from which a route is chosen, and the buttons of the drawing; they do nothing without scripts."""
    routes = model.shown.streams + model.shown.flows
    options = "".join(
        f'<option value="{k}"{" selected" if k == chosen else ""}>{routes[k].label()}</option>' for k in sorted(numbers)
    )
    return (
        '<p class="tools js"><label>route of <select id="route"><option value="">none</option>'
        f'{options}</select></label> <button type="button" data-zoom="0.8">smaller</button> '
        '<button type="button" data-zoom="1.25">larger</button> <button type="button" data-zoom="0">whole</button></p>'
        '<p id="told" class="told" aria-live="polite"></p>'
    )


def chosen_told(model, chosen):
    """Why the route of a stream is the one that is shown at first."""
    name = model.shown.streams[chosen].label()
    if model.late():
        why = "the latest stream"
    elif model.ports_at_fault():
        why = "which goes by a port at fault"
    else:
        why = "the stream closest to its deadline"
    return f"Until another is chosen, arrows show the route of {name}, {why}. "


def drawing_told(model, chosen):
    """What the drawing shows, in words."""
    nodes = {name for port in model.shown.ports.values() for name in (port.start, port.end)}
    links = len(model.shown.ports) // 2
    told = f"Bridges: {len(nodes & model.bridges)}, stations: {len(nodes - model.bridges)}, links: {links}"
    told += ". Bridges are shaded; the thicker a link, the faster. "
    told += "" if chosen is None else chosen_told(model, chosen)
    told += "Dashed arrows mark the ports at fault. " if model.ports_at_fault() else ""
    return f'<p class="note">{told}</p>'


def network_part(model, numbers):
    """The drawing of the network, with the routes of streams and flows of these numbers, in it or as data."""
    faults, chosen = model.ports_at_fault(), model.chosen()
    ways = model.ways + [route.ports for route in model.shown.flows]
    first = [] if chosen is None else [chosen]
    routes = {number: ways[number] for number in sorted({*([] if model.is_data else numbers), *first})}
    data = data_of(model, {number: ways[number] for number in numbers}) if model.is_data else ""
    body = "<p>It has no links.</p>"
    if model.shown.ports:
        body = drawing(model.shown, model.bridges, routes, faults, chosen)
    legend = drawing_told(model, chosen)
    frame = f'<div class="wide net">{body}</div>'
    return section("network", "Network", route_choice(model, numbers, chosen), frame, legend + data)


def marks_legend(model):
    """What stands on the bar of a stream."""
    told = ['<i class="key sumkey"></i>worst-case delay', '<i class="key due"></i>deadline']
    if "run" in model.kinds_of_marks:
        told.append('<i class="key run"></i>longest delay in the run (-: no frame of it arrived)')
    if "found" in model.kinds_of_marks:
        told.append(f'<i class="key found"></i>{FOUND}')
    return f'<p class="legend">{" ".join(f"<span>{it}</span>" for it in told)}</p>'


def left_out(model, order):
    """Says how many streams are left out."""
    rest = len(model.shown.streams) - len(order)
    return f'<p class="note">The other {rest} streams are left out.</p>' if rest else ""


# What is said of times in a page.
ROUNDED = (
    "Times are microseconds to thousandths, loads and shares percent to hundredths. Each number is rounded by itself, "
    "to the side on which a reader is safe: bounds, delays, loads and shares up, deadlines and what is left of them "
    "down. So parts together may be more than what they are parts of, by some of the last digits."
)

# What is asked of senders, where bounds hold.
PROMISED = (
    ". In a network that is as its file says, and whose bridges' clocks {}, no frame takes longer, as long as the "
    "talker of its stream keeps the rates, bursts and sizes that are declared for what it sends{}. Nothing is asked of "
    "others: they may send what they like"
)

# The same of bridges, where some send frames of their own.
OF_BRIDGES = ", and each bridge on the way those of its own frames"

# What is asked of the clocks of bridges, and what is told where they change the rates of streams.
OF_CLOCKS = "keep what it declares of them"
OF_TRUE_TIME = "show true time, as it declares none"
CHANGED = " Rates and bursts are those that the file declares; by the clocks of bridges those of some streams grow on "
CHANGED += "their way, as the lines <code>rates</code> of <code>show</code> have it."

# What is missing where Python does not read the file.
NO_FILE = " Rates and bursts stand in the file, which Python could not read here."

# What the octets of a frame leave out.
WIRE = "20 octets more, for preamble and gap"


def streams_head(model):
    """What stands above the table of streams, which has a row for each listener."""
    return "Streams and their listeners" if model.is_forked() else "Streams"


def streams_part(model, order):
    """The table of all streams."""
    note = "The worst-case delay of a stream is the sum of the bounds of all hops on its way"
    clocks = OF_CLOCKS if model.declared.clocks or not model.declared.known else OF_TRUE_TIME
    note += PROMISED.format(clocks, OF_BRIDGES if model.bridges_talk() else "") if model.rows else ""
    note += ". Used is the share of the deadline that this is. Streams with the least left stand first."
    if model.is_forked():
        note += " Each listener has a row, a further one with its node behind the name of the stream."
    note += f" Rates and bursts count for each frame {WIRE}." if model.declared.known else NO_FILE
    note += CHANGED if model.declared.known and model.shown.rates else ""
    if any(map(model.is_without_deadline, order)):
        note += " Where the file gives no deadline, one second holds."
    note = f'<p class="note">{note}</p><p class="note">{ROUNDED}</p>{left_out(model, order)}'
    return section("bounds", streams_head(model), marks_legend(model), stream_table(model, order), note)


def flows_part(model, numbers):
    """The table of the traffic without bounds."""
    if not numbers:
        return ""
    note = "Nothing is promised of these frames. A stream may have to wait for one of them at each port: that is the "
    note += f"part <i>lower</i> of its bounds. On a link a frame takes {WIRE}."
    rest = len(model.shown.flows) - len(numbers)
    more = f'<p class="note">The other {rest} flows are left out.</p>' if rest else ""
    table = flow_table(model, numbers)
    return section("unbounded", "Best effort, without bounds", table, f'<p class="note">{note}</p>{more}')


def hops_part(model, order, most):
    """The hops of the streams as far as they fit: of the one whose route is shown, which are open, and then of those
    with the least left first."""
    opened = model.chosen() if model.chosen() in order else order[0]
    shown, hops = [], 0
    for number in [opened, *(number for number in order if number != opened)]:
        hops += len(model.ways[number])
        if hops <= most or not shown:
            shown.append(hop_table(model, number, number == opened))
    rest = len(model.explained.sums) - len(shown)
    more = f'<p class="note js">Those of the other {rest} streams are shown once one is chosen above.</p>'
    more += '<div id="chosen"></div>'
    return section("hops", "Of what each worst-case delay is made", part_words(), *shown, rest and more)


def rows_part(model, most):
    """The rows of the certificate, where they are not too many."""
    if not model.rows or len(model.rows) > most:
        told = f"has {len(model.rows)} rows; <code>bound</code> prints them." if model.rows else ""
        return f'<p class="note">The certificate {told}</p>' if told else ""
    return f"<details><summary>Bounds of each port and class</summary>{certificate_table(model)}</details>"


def ports_part(model, most):
    """The table of the ports."""
    note = "Ports that no stream uses are left out. A load is the share of the link that the rates of streams take, "
    note += "rounded up; best effort is not counted."
    if model.buffers:
        note += " A buffer is the most bits, with preambles and gaps, that frames of the class take there at any time, "
        of_bridges = ", and the bridges that the port and the one before it leave," if model.bridges_talk() else ""
        note += f"as long as their talkers{of_bridges} keep what is declared."
        note += " Held is the most that there were in the run." if model.run else ""
    return section("load", "Ports", port_table(model), f'<p class="note">{note}</p>', rows_part(model, most))


# Up to how many frames stand open below a timeline.
OPEN_FRAMES = 12


def journey_row(it, bounds):
    """The row of a frame, with the worst-case delays that are known of its stream."""
    ends = ", ".join("discarded" if end is None else exact(end) for _, end in it.ends)
    took = ", ".join("-" if end is None else exact(end - it.release) for _, end in it.ends)
    most = ", ".join(up(bounds[label].sum) if label in bounds else "-" for label, _ in it.ends)
    cells = f"<td>{it.name}</td><td class=n>{it.octets}</td><td class=n>{exact(it.release)}</td>"
    last = f"<td class=n>{ends}</td><td class=n>{took}</td>" + (f"<td class=n>{most}</td>" if bounds else "")
    return f"<tr><td class=n>{it.frame}</td>{cells}{last}</tr>"


def journey_table(model, most):
    """The frames of the span, each beside the worst-case delay of its stream."""
    bounds = {it.label: it for it in model.explained.sums} if model.explained else {}
    columns = [("frame", True), ("sender", False), ("octets", True), ("released", True), ("arrived", True)]
    columns += [("took", True)] + ([("worst-case delay", True)] if bounds else [])
    shown = model.journeys[:most]
    table = framed(columns, (journey_row(it, bounds) for it in shown), "frames")
    rest = f"<p>{len(model.journeys) - most} more are left out.</p>" if len(model.journeys) > most else ""
    is_open = " open" if len(shown) <= OPEN_FRAMES else ""
    note = "Microseconds. Times of a run are exact; worst-case delays are rounded up. On a link a frame takes "
    note = f'<p class="note">{note}{WIRE}.</p>'
    return f"<details{is_open}><summary>The frames that are drawn</summary>{table}{note}{rest}</details>"


def judged_told(line):
    """What a line of `conform` means."""
    words = line.split()
    if line.startswith("conforms "):
        told = "All talkers keep their buckets in this run: they release no more than their rates, bursts and sizes "
        return told + "allow."
    if line.startswith("refused bucket "):
        told = f"A talker breaks its buckets: from frame {words[2]} to frame {words[3]} a stream sends more than its "
        return told + "rate and burst allow."
    return f"A talker breaks its buckets: frame {words[2]} has a size that is not declared."


# What each order decides.
ORDERS = {
    "early": "the one that was released first, and the least time",
    "late": "the one whose sender stands later in the file, and the greatest time",
    "mixed": "it mixes senders, and times, by its number",
}


def run_told(model):
    """What the run comes to, in words."""
    words = model.run.totals.split()
    each = ", each listener counted" if model.is_forked() else ""
    told = f"Frames: {words[2]}. Arrived: {words[4]}{each}. Discarded as late: {words[6]}, for their size: {words[8]}. "
    told += "Late is one that a bridge would have to hold for longer than its maximum residence time. "
    order = f"<code>{text(model.order_word)}</code>: {ORDERS[model.order_word.partition(':')[0]]}."
    told += f"Which of two equal frames goes first, and how long a bridge takes, was decided by the order {order}"
    kept, counted = judged_told(model.conforms), ""
    if not model.conforms.startswith("conforms "):
        kept += " Its frames may take longer than their worst-case delays."
    else:
        kept += " So no delay in it is above the worst-case delay of its stream." if model.rows else ""
        kept += " That speaks of this run alone."
        counted = ", the number of its releases"
    said = f"the program's word: <code>{text(model.conforms)}</code>{counted}"
    return f"<p>{told}</p><p>{kept} <small>({said})</small></p>"


def run_legend(model):
    """What the boxes of the timeline mean."""
    keys = "".join(f'<span><i class="key c{cls}"></i>{cls}</span>' for cls in sorted({*model.classes().values()}))
    return (
        f'<p class="legend"><span>class:</span>{keys}<span><i class="key waits"></i>waits in the queue</span>'
        '<span><i class="key held"></i>held by its scheduler</span><span><b class="x">&times;</b> discarded</span></p>'
    )


def run_part(model, most):
    """The timeline of the run."""
    if not model.run:
        return ""
    drawn = journeys.drawn_of(model.crossings)
    first, last = model.span
    last = max([first + 1, *(min(last, it.end or it.arrival + 1) for it in drawn)])
    body = timeline(model.shown, drawn, model.classes(), first, last) if drawn else "<p>No frame is there.</p>"
    told = f"Drawn is the time from {exact(first)} to {exact(last)} &micro;s; the run ends at {exact(model.run.end)}. "
    told += f"Of its {model.run.crossings} transmissions and discards {len(drawn)} are drawn."
    told += "" if len(drawn) == model.run.crossings else " The words FROM and TO of the call choose another time."
    hint = "Choose a box or a cross to read what became of its frame. A number in a box is that of its frame."
    chosen = f'<p id="frame" class="note js" data-hint="{hint}" aria-live="polite">{hint}</p>' if drawn else ""
    more = [RUN_BUTTONS, body, chosen, run_legend(model), f'<p class="note">{told}</p>', journey_table(model, most)]
    return section("timeline", "Run", run_told(model), *more)


def foot(model, version):
    """Where the numbers of the page come from."""
    made = f"<code>{text(version)}</code>" if version else "the program"
    return (
        f"<footer><p>Numbers are those that {made} printed or the file has, in other units; a delay in a run is the "
        "difference of two of them, and a share the quotient of two. What a bound promises, and of which networks, is "
        "said in the pages of the program. This page is made by a script, of which nothing is proved.</p></footer>"
    )


def parts(model, budget):
    """The parts of the page behind its head."""
    hops, rows, frames, senders, is_data = budget
    all_hops = sum(map(len, model.ways)) if model.explained else 0
    model.is_data = is_data or all_hops > hops
    order = model.order()[:senders]
    numbers = [*order, *model.flow_numbers()][:senders]
    network = network_part(model, numbers)
    flows = flows_part(model, [*model.flow_numbers()][:senders])
    if model.explained is None:
        table = section("unknown", streams_head(model), declared_table(model, order), left_out(model, order))
        return [verdict(model), network, table, flows, run_part(model, frames)]
    streams = [flows]
    if order:
        streams = [streams_part(model, order), hops_part(model, order, hops), flows, ports_part(model, rows)]
    told = f'<div class="told">{counts_told(model) + tightest_told(model)}</div>'
    return [verdict(model), told, network, *streams, run_part(model, frames)]


def whole(title, *body):
    """A page of this title."""
    head = (
        '<!DOCTYPE html>\n<html lang="en">\n<head>\n<meta charset="utf-8">\n'
        '<meta name="viewport" content="width=device-width, initial-scale=1">\n'
        f"<title>{text(title)}</title>\n<style>\n{beside('page.css')}</style>\n</head>\n<body>\n"
        f"<header><h1>{text(title)}</h1></header>\n<main>"
    )
    end = f"</main>\n<script>\n{beside('page.js')}</script>\n</body>\n</html>\n"
    return "\n".join([head, *(it for it in body if it), end])


def page_of(model, title, version):
    """The page of a network: the fullest that is not too long."""
    for budget in BUDGETS:
        page = whole(title, *parts(model, budget), foot(model, version))
        if len(page.encode()) <= LONGEST:
            return page
    return page


def fault_page(title, answer):
    """The page of a file that the program does not take: what it printed, and what its launcher said."""
    lines = "".join(f"<p><code>{text(line)}</code></p>" for line in answer.lines)
    said = f"<pre>{text(answer.said)}</pre>" if answer.said else ""
    return whole(title, f'<div class="refused"><h2>A file has a fault</h2>{lines}{said}</div>')
