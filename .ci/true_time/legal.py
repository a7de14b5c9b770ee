"""What a legal run is asked for, held against the runs that were made: clocks, ports, links and schedulers."""

from itertools import accumulate

from true_time.promises import conforms
from true_time.rates import bits_of
from true_time.readings import IDEAL, faults_of


def port_rule(port, sent):
    """What a port breaks of the port rule, by the times that its node's clock told."""
    if any(it.start < it.eligible or it.end != it.start + port.ps_per_bit * bits_of(it.frame.octets) for it in sent):
        yield "a frame is sent too early, or not to its end"
    if any(it.end > other.start for it, other in zip(sent, sent[1:])):
        yield "transmissions overlap"
    ends = {it.end for it in sent}
    soonest = list(accumulate((it.eligible for it in reversed(sent)), min))[::-1]
    if any(it.start not in ends and least < it.start for it, least in zip(sent, soonest)):
        yield "a port rests needlessly"
    ranks = [(-it.frame.sender.classes[port.number], it.told) for it in sent]
    for place, it in enumerate(sent):
        later = zip(sent[place + 1 :], ranks[place + 1 :])
        if any(rank < ranks[place] and other.eligible <= it.start for other, rank in later):
            yield f"frame {it.frame.number} is sent before one that was told less"


def link_rule(port, sent):
    """What a link breaks of its latencies and of the order of sending."""
    if not all(it.end + port.earliest <= it.arrival <= it.end + port.latest for it in sent):
        yield "a frame arrives too early or too late"
    if not all(it.arrival < other.arrival for it, other in zip(sent, sent[1:])):
        yield "frames arrive out of order"


def schedulers(run, port, reading):
    """What the schedulers behind a port break: who is let through is told no less than the clock shows then and than
    others of its group, and eligible as soon as the clock shows this; and a stream conforms to what its scheduler has,
    by the clock."""
    last, frames = {}, {}
    residence = 1000 * run.residences[port.leads_to]
    for frame, arrival, told, eligible in run.let_through[port.number]:
        cls = frame.sender.classes[port.number]
        shown = reading(arrival)
        if not max(shown, last.get(cls, 0) if cls else 0) <= told <= shown + (residence if cls else 0):
            yield f"frame {frame.number} is told a wrong time"
        if reading(eligible) < told or eligible < arrival or (eligible > arrival and reading(eligible - 1) >= told):
            yield f"frame {frame.number} is eligible at a wrong time"
        last[cls] = told
        frames.setdefault(frame.sender, []).append((told, frame.octets))
    for sender, its in frames.items():
        if not sender.is_flow() and not conforms(run.rules.set_behind(run.network, sender, port.number), its):
            yield "more is let through than the scheduler has"


def faults_in(run):
    """What a run breaks of the rules."""
    times = [[0] for _ in run.network.clocks]
    for port, sent in zip(run.network.ports, run.sent):
        times[port.leaves] += [time for it in sent for time in (it.came, it.eligible, max(1, it.eligible) - 1)]
        yield from port_rule(port, sent)
        yield from link_rule(port, sent)
        yield from schedulers(run, port, run.readings[port.leads_to])
    for node, clock in enumerate(run.network.clocks):
        yield from faults_of(clock, run.readings[node], times[node])
        if not run.network.is_bridge(node) and run.readings[node] is not IDEAL:
            yield "a station does not read true time"
