"""What a page shows: what the program answered about a network, and about a run of it."""

import os
import tempfile

import journeys
import texts
from program import DONE, REFUSED, Stopped

# Found delays are asked for where the streams of a network have together at most so many listeners: each listener takes
# runs of its own.
MOST_WITNESSES = 64


class Model:
    """All that a page shows. `status` is the first of the program's exit statuses that is not Done, `refusals` are the
    lines by which it refused, and `said` is what its launcher said of them."""

    def __init__(self, program, words, room):
        self.program, self.room = program, room
        self.net, self.schedule = words.net, words.schedule
        self.status, self.refusals, self.said = DONE, [], ""
        self.shown = texts.shown_of(self.sure("show", self.net))
        with open(self.net, "rb") as file:
            self.declared = texts.declared_in(file.read())
        self.bridges = self.declared.bridges if self.declared.known else texts.bridges_by_links(self.shown.ports)
        self.ways = ways_of(self.shown)
        self.users = users_of(self.shown)
        explained = self.asked("explain", self.net)
        self.explained = texts.explained_of(explained) if explained else None
        self.hops_at = hops_at(self.shown, self.explained)
        self.listeners = listeners_of(self.shown)
        bound = self.asked("bound", self.net)
        self.rows = texts.rows_of(bound) if bound else {}
        self.read_run(words)
        self.buffers = self.read_buffers(bound, words) if self.rows else {}
        self.found = self.found_delays() if self.rows else {}
        runs = [self.run is not None and "run", bool(self.found) and "found"]
        # Whether the page has routes and hops as data.
        self.is_data = False
        self.kinds_of_marks = [kind for kind in runs if kind]

    def keep(self, answer):
        """Notes a refusal."""
        self.status = self.status or answer.status
        if answer.lines and answer.lines[0] not in self.refusals:
            self.refusals.append(answer.lines[0])
            self.said += answer.said

    def asked(self, *words):
        """The lines that the program printed, or nothing where it refuses; any other status ends the page."""
        answer = self.program.ask(*words)
        if answer.status == REFUSED:
            self.keep(answer)
            return []
        if answer.status != DONE:
            raise Stopped(answer)
        return answer.lines

    def sure(self, *words):
        """The lines of a call that is never refused."""
        answer = self.program.ask(*words)
        if answer.status != DONE:
            raise Stopped(answer)
        return answer.lines

    def read_run(self, words):
        """The run of a schedule, if there is one, and whether its talkers keep their buckets."""
        self.run, self.conforms = None, ""
        if self.schedule:
            judged = self.program.ask("conform", self.net, self.schedule)
            if judged.status not in (DONE, REFUSED):
                raise Stopped(judged)
            self.conforms = judged.lines[0]
            lines = self.sure("replay", self.net, self.schedule, words.order)
            self.run = journeys.told_of(lines)
            tightest = self.explained.total.tightest if self.explained else ""
            self.order_word = words.order
            self.span = words.span or journeys.chosen_span(self.run, tightest)
            self.crossings, self.journeys = journeys.span_of(lines, *self.span)

    def read_buffers(self, bound, words):
        """The buffers of each port and class, where the program tells them."""
        with tempfile.NamedTemporaryFile("w", dir=self.room, delete=False, encoding="ascii") as file:
            file.write("\n".join(bound) + "\n")
        more = (self.schedule, words.order) if self.schedule else ()
        answer = self.program.ask_quietly("buffers", self.net, file.name, *more)
        os.unlink(file.name)
        return texts.buffers_of(answer.lines) if answer.status == DONE else {}

    def found_delays(self):
        """The greatest delay that `witness` finds for each listener, where the program has that command and listeners
        are not too many."""
        routes, found = self.shown.streams, {}
        names = dict.fromkeys(route.name for route in routes) if len(routes) <= MOST_WITNESSES else {}
        for name in names:
            answer = self.program.ask_quietly("witness", self.net, name)
            if answer.status != DONE:
                return {}
            found |= texts.found_delays_of(answer.lines)
        return found

    def marks(self, number):
        """The delays of a stream that were seen, by their kinds; None where no frame of it arrived."""
        label = self.shown.streams[number].label()
        seen = {"run": self.run and self.run.worst.get(label), "found": self.found.get(label)}
        seen["run"] = seen["run"].delay if seen["run"] else None
        return {kind: seen[kind] for kind in self.kinds_of_marks}

    def bursting(self, port, cls):
        """The names of the streams whose bursts count at a port and class: those of the class and the higher ones."""
        return [name for name, other in self.users.get(port, []) if other >= cls]

    def hops(self, number):
        """The hops of a stream's whole way to a listener: those in front of a further listener's branch too, which the
        program prints of a listener before it."""
        name = self.shown.streams[number].name
        return [self.hops_at[name, port] for port in self.ways[number]]

    def in_front(self, number):
        """How many of these hops the program prints of listeners before it."""
        return len(self.ways[number]) - len(self.shown.streams[number].ports)

    def place_of(self, number):
        """Which of the listeners of its stream this is, from 1, and how many there are."""
        same = self.listeners[self.shown.streams[number].name]
        return number - same[0] + 1, len(same)

    def bridges_talk(self):
        """Whether some stream or flow begins at a bridge."""
        routes = self.shown.streams + self.shown.flows
        return any(self.shown.ports[it.ports[0]].start in self.bridges for it in routes if not it.listener)

    def is_forked(self):
        """Whether some stream has several listeners."""
        return any(route.listener for route in self.shown.streams)

    def end_of(self, number):
        """The listener at the end of a stream's way."""
        return self.shown.ports[self.ways[number][-1]].end

    def late(self):
        """The numbers of the late streams, the latest first."""
        return [number for number in self.order() if self.explained.sums[number].left < 0] if self.explained else []

    def overstays(self):
        """The hops, one for each port and class, behind which a frame may have to stay for longer than is allowed."""
        sums = self.explained.sums if self.explained else []
        hops = {(hop.port, hop.cls): hop for it in sums for hop in it.hops}
        return [hop for hop in hops.values() if hop.stay is not None and hop.stay > hop.residence]

    def tightest(self):
        """The number of the stream that `explain` names as the tightest, or None."""
        total = self.explained.total if self.explained else None
        labels = [it.label for it in self.explained.sums] if total and total.tightest else []
        return labels.index(total.tightest) if labels else None

    def ports_at_fault(self):
        """The ports that refusals name, and those behind which a frame may have to stay for too long."""
        ports = [words[2] for words in map(str.split, self.refusals) if words[1] in ("overloaded", "residence")]
        return list(dict.fromkeys(ports + [hop.port for hop in self.overstays()]))

    def chosen(self):
        """The number of the stream whose route is shown at first, or None: the latest; or else the first at a port at
        fault; or else the tightest."""
        faults = set(self.ports_at_fault())
        there = [number for number in self.order() if faults & {*self.ways[number]}]
        late = self.late()
        return late[0] if late else there[0] if there else self.tightest()

    def is_without_deadline(self, number):
        """Whether the network's file gives a stream no deadline, so that one of a second holds."""
        table = self.declared.tables.get(self.shown.streams[number].name)
        return table is not None and "deadline_ns" not in table

    def order(self):
        """The numbers of the streams, those with the least left of their deadlines first."""
        numbers = range(len(self.shown.streams))
        return sorted(numbers, key=lambda number: self.explained.sums[number].left) if self.explained else [*numbers]

    def flow_numbers(self):
        """The numbers of the flows, which come behind the streams."""
        return range(len(self.shown.streams), len(self.shown.streams) + len(self.shown.flows))

    def classes(self):
        """The class of each sender at each port of its way."""
        found = {}
        for route in self.shown.streams + self.shown.flows:
            same = route.classes * len(route.ports) if len(route.classes) == 1 else route.classes
            found |= {(route.name, port): cls for port, cls in zip(route.ports, same)}
        return found


def hops_at(shown, explained):
    """The hop of each stream at each port of its ways."""
    sums = explained.sums if explained else []
    return {(route.name, hop.port): hop for route, it in zip(shown.streams, sums) for hop in it.hops}


def listeners_of(shown):
    """The numbers of each stream's listeners, by its name."""
    found = {}
    for number, route in enumerate(shown.streams):
        found.setdefault(route.name, []).append(number)
    return found


def users_of(shown):
    """The streams that use each port, each once, with their classes there."""
    users = {}
    for route in shown.streams:
        same = route.classes * len(route.ports) if len(route.classes) == 1 else route.classes
        for port, cls in zip(route.ports, same):
            users.setdefault(port, {})[route.name] = cls
    return {port: list(names.items()) for port, names in users.items()}


def ways_of(shown):
    """The ports of each stream's way from its talker on. A further listener's copy begins where a way that the stream
    has already leaves the same node, a bridge on the way or the talker."""
    ways, by_name = [], {}
    for route in shown.streams:
        start, before = shown.ports[route.ports[0]].start, ()
        for way in by_name.get(route.name, []) if route.listener else []:
            at = next((k for k, port in enumerate(way) if shown.ports[port].start == start), None)
            before = way[:at] if at is not None else before
        ways.append(before + route.ports)
        by_name.setdefault(route.name, []).append(ways[-1])
    return ways
