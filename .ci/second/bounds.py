"""Certificates: what the senders of a network make of each port and class, the least waits, what `bound`, `check` and
`explain` print, and for which reason they refuse."""

from typing import NamedTuple

from second.clocks import committed
from second.common import MOST_BYTES, SECOND, Fault, Refusal, number, quotient_up, wire_bits
from second.tables import rows_of

HEADER = "port,class,higher,equal,bursts,lower,least,wait,bound"
FIELDS = HEADER.split(",")[2:]
LONGEST = wire_bits(2000)


class Row(NamedTuple):
    """A row of a certificate, about a class at a port; the port is its number."""

    port: int
    traffic_class: int
    higher: int
    equal: int
    bursts: int
    lower: int
    least: int
    wait: int
    bound: int


def places_of(network):
    """The ports and classes that some stream uses, by port and class."""
    return sorted({hop for stream in network.streams for hop in stream.hops})


def sums_at(network, place):
    """What the senders make of a port and class: `higher`, `equal`, `bursts`, `lower` and `least` of its row."""
    port, traffic_class = network.ports[place[0]], place[1]
    users = network.users[place[0]]
    kept = [(*committed(network, sender, port.number), own) for sender, own in users]
    higher = port.ps_per_bit * sum(rate for rate, _, own in kept if own > traffic_class)
    equal = port.ps_per_bit * sum(rate for rate, _, own in kept if own == traffic_class)
    bursts = sum(burst for _, burst, own in kept if own >= traffic_class)
    lower = max((wire_bits(sender.greatest) for sender, own in users if own < traffic_class), default=0)
    least = min(wire_bits(sender.least) for sender, own in users if own == traffic_class)
    return higher, equal, bursts, lower, least


def least_wait(ps_per_bit, sums):
    """The least wait that is enough for these sums at a port, where it is not overloaded."""
    higher, _, bursts, lower, least = sums
    return quotient_up(SECOND * ps_per_bit * (lower + bursts - least), SECOND - higher)


def bound_of(port, least, wait):
    """The bound that follows from a wait at a port."""
    return wait + port.ps_per_bit * least + port.latency


def written(network, place):
    """A port and class as they are written."""
    return f"{network.ports[place[0]].name} {place[1]}"


def overload_of(network):
    """The sums of each port and class, and the first overload of one, as it is told, or None."""
    sums = {place: sums_at(network, place) for place in places_of(network)}
    over = next((place for place, (higher, equal, *_) in sums.items() if higher + equal > SECOND), None)
    return sums, over and f"overloaded {written(network, over)} {sum(sums[over][:2])}"


def least_rows(network, sums):
    """The rows of the least certificate, by port and class, where nothing is overloaded."""
    rows = {}
    for (at, traffic_class), fields in sums.items():
        wait = least_wait(network.ports[at].ps_per_bit, fields)
        rows[at, traffic_class] = Row(at, traffic_class, *fields, wait, bound_of(network.ports[at], fields[-1], wait))
    return rows


def need_of(network, row):
    """How long a frame may have to stay behind the port of a row."""
    return row.wait + network.ports[row.port].spread


def stay_of(network, row):
    """How long that may be by the clock of the bridge behind the port."""
    return network.topology.clock_of(network.ports[row.port].leads_to).need_by(need_of(network, row))


def is_over(network, row):
    """Whether a row asks for a longer stay than the bridge behind its port allows."""
    residence = network.ports[row.port].residence
    return residence is not None and stay_of(network, row) > residence


def overstay_of(network, rows):
    """The first row whose wait is too long for the bridge behind its port, as it is told, or None."""
    row = next((row for row in rows.values() if is_over(network, row)), None)
    return row and f"residence {written(network, row[:2])} {stay_of(network, row)}"


def sum_to(stream, leg, rows):
    """The sum of the bounds along the route of a stream to a listener."""
    return sum(rows[hop].bound for hop in stream.hops_to(leg))


def listeners_of(network):
    """The listeners of all streams, each as the stream and its leg."""
    return [(stream, leg) for stream in network.streams for leg in range(len(stream.legs))]


def late_of(network, rows):
    """The first listener for which the bounds are over its stream's deadline, as it is told, or None."""
    sums = ((stream, leg, sum_to(stream, leg, rows)) for stream, leg in listeners_of(network))
    late = next((it for it in sums if it[2] > it[0].deadline), None)
    return late and f"deadline {network.called(*late[:2])} {late[2]}"


def least_certificate(network):
    """The rows of the least certificate and None, or, where no certificate holds, None and the reason."""
    sums, overload = overload_of(network)
    if overload:
        return None, overload
    rows = least_rows(network, sums)
    reason = overstay_of(network, rows) or late_of(network, rows)
    return (None, reason) if reason else (rows, None)


def bounded(network):
    """What `bound` prints."""
    rows, reason = least_certificate(network)
    if reason:
        raise Refusal(reason)
    yield HEADER
    yield from (",".join(map(str, (network.ports[row.port].name, *row[1:]))) for row in rows.values())


def row_of(ports, count, fields, before):
    """The row that a record declares, where the row of the record before is at this port and class, or its fault."""
    port = ports.get(fields[0])
    if port is None:
        raise Fault(f"unknown-port {count}")
    numbers = [number(text) for text in fields[1:]]
    if None in numbers:
        raise Fault(f"bad-number {count}")
    row = Row(port, *numbers)
    if not 1 <= row.traffic_class <= 7 or max(row.lower, row.least) > LONGEST:
        raise Fault(f"bad-number {count}")
    if before is not None and row[:2] <= before:
        raise Fault(f"row-order {count}")
    return row


def certificate_of(network, data):
    """The rows that the bytes of a certificate declare, by port and class, or their first fault."""
    if len(data) > MOST_BYTES:
        raise Fault("too-long")
    ports, rows, before = {port.name: port.number for port in network.ports}, {}, None
    for count, fields in rows_of(data, HEADER):
        row = row_of(ports, count, fields, before)
        before = row[:2]
        rows[before] = row
    return rows


def wrong_field(network, place, sums, row):
    """The first field of a row that is wrong, and its right value, or None."""
    bound = bound_of(network.ports[place[0]], sums[-1], row.wait)
    right = dict(zip(FIELDS, (*sums, row.wait, bound)))
    return next((f"{name} {value}" for name, value in right.items() if getattr(row, name) != value), None)


def field_refusal(network, sums, rows):
    """The first field that is wrong, as it is told, or None."""
    found = ((place, wrong_field(network, place, sums[place], row)) for place, row in rows.items())
    return next((f"field {written(network, place)} {wrong}" for place, wrong in found if wrong), None)


def wait_refusal(network, sums, rows):
    """The first wait that is too short, as it is told, or None."""
    leasts = {place: least_wait(network.ports[place[0]].ps_per_bit, fields) for place, fields in sums.items()}
    short = next((place for place, row in rows.items() if row.wait < leasts[place]), None)
    return short and f"wait {written(network, short)} {leasts[short]}"


def refusal_of(network, rows):
    """Why a certificate does not hold, or None."""
    sums, overload = overload_of(network)
    missing = next((place for place in sums if place not in rows), None)
    if missing:
        return f"row-missing {written(network, missing)}"
    stray = next((place for place in rows if place not in sums), None)
    if stray:
        return f"row-stray {written(network, stray)}"
    early = field_refusal(network, sums, rows) or overload or wait_refusal(network, sums, rows)
    return early or overstay_of(network, rows) or late_of(network, rows)


def checked(network, rows):
    """What `check` prints."""
    refusal = refusal_of(network, rows)
    if refusal:
        raise Refusal(refusal)
    for stream, leg in listeners_of(network):
        for hop in (stream.hops[place] for place in stream.legs[leg]):
            yield f"hop {stream.name} {network.ports[hop[0]].name} {rows[hop].bound}"
        yield f"sum {network.called(stream, leg)} {sum_to(stream, leg, rows)}"
    yield f"accepted {len(network.streams)}"


def lower_name(network, row):
    """The first sender of a lower class whose frame is the longest there, or `-`."""
    users = network.users[row.port]
    return next((it.name for it, own in users if own < row.traffic_class and wire_bits(it.greatest) == row.lower), "-")


def parts_text(network, row):
    """What `explain` prints of a hop."""
    port = network.ports[row.port]
    lower, bursts, frame = (port.ps_per_bit * bits for bits in (row.lower, row.bursts - row.least, row.least))
    text = f"hop {written(network, row[:2])} lower {lower} {lower_name(network, row)} bursts {bursts}"
    text += f" higher {row.wait - lower - bursts} frame {frame} latency {port.latency} bound {row.bound}"
    return text if port.residence is None else f"{text} stay {stay_of(network, row)} of {port.residence}"


def margin_text(slack):
    """How far a sum is from a deadline."""
    return f"slack {slack}" if slack >= 0 else f"late {-slack}"


def load_text(network, at):
    """What `explain` prints of the load of a port."""
    port = network.ports[at]
    rates = sum(committed(network, sender, at)[0] for sender, _ in network.users[at])
    return f"port {port.name} load {port.ps_per_bit * rates}"


def totals_text(network, rows, slacks):
    """The last line of `explain`; the slacks are those of the listeners in order."""
    over = sum(is_over(network, rows[hop]) for stream in network.streams for hop in stream.hops)
    text = f"total streams {len(network.streams)} late {sum(it < 0 for it in slacks)} over {over}"
    if not slacks:
        return text
    least = min(slacks)
    tightest = network.called(*listeners_of(network)[slacks.index(least)])
    return f"{text} tightest {tightest} {margin_text(least)}"


def explained(network):
    """What `explain` prints."""
    sums, overload = overload_of(network)
    if overload:
        raise Refusal(overload)
    rows = least_rows(network, sums)
    listeners = listeners_of(network)
    slacks = [stream.deadline - sum_to(stream, leg, rows) for stream, leg in listeners]
    for (stream, leg), slack in zip(listeners, slacks):
        called = f"{'listener' if leg else 'stream'} {network.called(stream, leg)}"
        yield f"{called} sum {sum_to(stream, leg, rows)} deadline {stream.deadline} {margin_text(slack)}"
        yield from (parts_text(network, rows[stream.hops[place]]) for place in stream.legs[leg])
    yield from (load_text(network, at) for at in sorted({place[0] for place in sums}))
    yield totals_text(network, rows, slacks)
