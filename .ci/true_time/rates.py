"""What clocks make of rates and bursts, and the certificate and the buffers that follow, in whole numbers: written once
more from crates/ats_clock/specs/Rates.antt, crates/ats_network/specs/Rates.antt, crates/ats_certificate/specs and
crates/ats_buffer/specs. Beside them stand the same with a part left out."""

from typing import NamedTuple

from true_time.readings import MILLION, quotient

SECOND = 10**12  # picoseconds


def bits_of(octets):
    """The bits of a frame on the wire."""
    return 8 * (octets + 20)


def need_by(clock, need):
    """How long a stay may be by a clock."""
    return need + clock.step + quotient(clock.deviation * need, MILLION)


class Kept(NamedTuple):
    """A rate in bits per second, and a burst in bits."""

    rate: int
    burst: int


class Row(NamedTuple):
    """Of a port and a class the wait, the shortest frame in bits, and the bound."""

    wait: int
    least: int
    bound: int


class Rules:
    """The rules as they are. `bridge` says which bridge behind its talker a frame has come to, 1 the first."""

    def scheduler_for(self, clock, kept, bridge):
        """What the scheduler of a bridge with this clock has, for frames that come to it so in true time."""
        rate = self.scheduler_rate(clock, kept.rate)
        return Kept(rate, kept.burst + quotient(rate * clock.step, SECOND))

    def output_of(self, clock, has, bridge):
        """What frames keep in true time that such a scheduler lets through."""
        gain = has.rate * (MILLION * clock.step + clock.deviation)
        return Kept(self.output_rate(clock, has.rate), has.burst + quotient(gain, MILLION * SECOND))

    def scheduler_rate(self, clock, rate):
        """The rate of a scheduler."""
        return quotient(MILLION * rate, MILLION - clock.deviation)

    def output_rate(self, clock, rate):
        """The rate of what it lets through."""
        return quotient(rate * (MILLION + clock.deviation), MILLION)

    def own(self, clock, declared):
        """What frames keep in true time whose talker keeps its bucket by this clock."""
        return self.output_of(clock, declared, 0)

    def committed(self, network, sender, port):
        """What a sender's frames keep in true time where they are eligible at a port."""
        before = sender.before[port]
        clock = network.clocks[network.ports[port].leaves]
        if before is None:
            return self.own(clock, sender.declared)
        bridge = sender.places[port]
        return self.output_of(clock, self.due_behind(network, sender, before), bridge)

    def due_behind(self, network, sender, port):
        """What the scheduler behind a port has to have."""
        clock = network.clocks[network.ports[port].leads_to]
        return self.scheduler_for(clock, self.committed(network, sender, port), sender.places[port] + 1)

    def set_behind(self, network, sender, port):
        """What it is set to."""
        return self.due_behind(network, sender, port)

    def seen(self, network, sender, port):
        """What a port's sums count of a sender."""
        return self.committed(network, sender, port)

    def row(self, network, port, cls):
        """The row of a port and a class, or None where the rates do not fit the link."""
        here, ps_per_bit = network.senders_at[port], network.ports[port].ps_per_bit
        seen = [(sender, sender.classes[port], self.seen(network, sender, port)) for sender in here]
        higher = ps_per_bit * sum(kept.rate for _, other, kept in seen if other > cls)
        equal = ps_per_bit * sum(kept.rate for _, other, kept in seen if other == cls)
        if higher + equal > SECOND:
            return None
        bursts = sum(kept.burst for _, other, kept in seen if other >= cls)
        lower = max((bits_of(sender.most) for sender, other, _ in seen if other < cls), default=0)
        least = min(bits_of(sender.least) for sender, other, _ in seen if other == cls)
        wait = quotient(SECOND * ps_per_bit * (lower + bursts - least), SECOND - higher)
        return Row(wait, least, wait + ps_per_bit * least + network.ports[port].latest)

    def rows(self, network):
        """The rows of the least certificate by port and class, or None where there is no certificate."""
        places = {(port, sender.classes[port]) for port, here in enumerate(network.senders_at) for sender in here}
        rows = {(port, cls): self.row(network, port, cls) for port, cls in sorted(places) if cls > 0}
        return None if None in rows.values() else rows

    def residences(self, network, rows):
        """The least maximum residence time of each bridge, in nanoseconds.

        Where the clock's part of clause 6 is left out, no promise breaks: in no run of this model a frame stays longer,
        by the clock of its bridge, than the wait and the spread in true time, since its scheduler has as much more rate
        and burst than what comes to it. That part is for a bridge that rounds times of eligibility up to its ticks,
        which no run here does. So there are no rules below that leave it out."""
        stays = [0] * len(network.clocks)
        for (port, _), row in rows.items():
            it = network.ports[port]
            clock, need = network.clocks[it.leads_to], row.wait + it.latest - it.earliest
            stays[it.leads_to] = max(stays[it.leads_to], quotient(need_by(clock, need), 1000))
        return stays

    def buffers(self, network, rows):
        """The buffer of each row, in bits."""
        buffers = {}
        for (port, cls), row in rows.items():
            stay = row.wait + network.ports[port].ps_per_bit * row.least
            buffers[port, cls] = 0
            for sender in (it for it in network.senders_at[port] if it.classes[port] == cls):
                before, way = sender.before[port], 0
                if before is not None:
                    it = network.ports[before]
                    way = rows[before, sender.classes[before]].wait + it.latest - it.earliest
                kept = self.committed(network, sender, port if before is None else before)
                buffers[port, cls] += kept.burst + kept.rate * (stay + way) // SECOND
        return buffers


class NothingAnywhere(Rules):
    """Nothing grows at any bridge."""

    def scheduler_for(self, clock, kept, bridge):
        return kept

    def output_of(self, clock, has, bridge):
        return has


class NothingAtTheSecond(Rules):
    """Nothing grows at the second bridge behind a talker."""

    def scheduler_for(self, clock, kept, bridge):
        return kept if bridge == 2 else super().scheduler_for(clock, kept, bridge)

    def output_of(self, clock, has, bridge):
        return has if bridge == 2 else super().output_of(clock, has, bridge)


class NoStepInSchedulers(Rules):
    """The burst of a scheduler has no part for the step."""

    def scheduler_for(self, clock, kept, bridge):
        return super().scheduler_for(clock._replace(step=0), kept, bridge)


class NoStepInOutputs(Rules):
    """The burst behind a scheduler has none."""

    def output_of(self, clock, has, bridge):
        return super().output_of(clock._replace(step=0), has, bridge)


class NoStep(NoStepInSchedulers, NoStepInOutputs):
    """No burst has one."""


class DeclaredSums(Rules):
    """A port's sums count what is declared."""

    def seen(self, network, sender, port):
        return sender.declared


class OwnByTrueTime(Rules):
    """The own frames of a bridge count as if they kept their buckets by true time."""

    def own(self, clock, declared):
        return declared


class DeclaredSchedulers(Rules):
    """Schedulers are set to what is declared."""

    def set_behind(self, network, sender, port):
        return sender.declared


class SchedulerRateDown(Rules):
    """The rate of a scheduler is rounded down."""

    def scheduler_rate(self, clock, rate):
        return MILLION * rate // (MILLION - clock.deviation)


class OutputRateDown(Rules):
    """The rate behind a scheduler is rounded down."""

    def output_rate(self, clock, rate):
        return rate * (MILLION + clock.deviation) // MILLION
