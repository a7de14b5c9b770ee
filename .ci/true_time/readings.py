"""What the clocks of bridges show: random ones that keep a deviation and a step, and what is asked of all of them."""

from bisect import bisect_right

MILLION = 10**6

# The most times at which a clock changes, and the digits of such a time in picoseconds.
MOST_CHANGES, DIGITS = 12, (6, 16)


def quotient(number, divisor):
    """A quotient, rounded up."""
    return -(-number // divisor)


class Reading:
    """What a clock shows at each picosecond of true time. Between changes it runs at a rate, and is ahead by an offset
    of at most `spare`; where the offset falls it stands still until it is there, and where it rises it jumps. What it
    shows are whole ticks. So it keeps each step from tick and spare together on."""

    def __init__(self, base=0, tick=1, changes=((0, 0, 0),)):
        """From a base on, with such a tick; of each change the time, the parts in a million that the rate is off from
        then on, and the offset."""
        self.tick, self.changes = tick, changes
        self.times = [time for time, _, _ in changes]
        # In millionths of a picosecond: what it would show at each change without offset, and what it shows at least.
        self.run, self.least = [MILLION * base], [0]
        for (time, rate, offset), (until, _, _) in zip(changes, changes[1:]):
            self.run.append(self.run[-1] + (MILLION + rate) * (until - time))
            self.least.append(max(self.least[-1], self.run[-1] + MILLION * offset))

    def __call__(self, time):
        """What it shows at a time."""
        at = bisect_right(self.times, time) - 1
        since, rate, offset = self.changes[at]
        shown = self.run[at] + (MILLION + rate) * (time - since) + MILLION * offset
        return max(shown, self.least[at]) // (MILLION * self.tick) * self.tick

    def first(self, arrival, told):
        """The first time, not before the arrival, at which it shows what was told, or more."""
        due = MILLION * self.tick * quotient(told, self.tick)
        at = bisect_right(self.times, arrival) - 1
        while True:
            since, rate, offset = self.changes[at]
            time = max(arrival, since)
            if self.least[at] < due:
                time = max(time, since + quotient(due - self.run[at] - MILLION * offset, MILLION + rate))
            at += 1
            if at == len(self.times) or time < self.times[at]:
                return time


IDEAL = Reading()


def changes_of(draw, deviation, spare):
    """The changes of a clock with such a deviation and spare offset: it is always fast or slow, keeps some rate, or
    changes at times of any size."""
    kind = draw.randrange(5)
    if kind < 3:
        rate = (deviation, -deviation, draw.randint(-deviation, deviation))[kind]
        return [(0, rate, draw.choice((0, spare)))]
    times = {draw.randrange(10 ** draw.randint(*DIGITS)) for _ in range(draw.randint(1, MOST_CHANGES))}
    return [
        (time, draw.choice((-deviation, deviation)), draw.choice((0, spare, draw.randint(0, spare))))
        for time in sorted(times | {0})
    ]


def drawn(draw, clock):
    """A random reading that keeps the deviation and the step of a clock. Without a step it shows true time but for a
    constant, whatever the deviation."""
    base = draw.choice((0, draw.randrange(10**7)))
    if clock.step == 0:
        return Reading(base)
    tick = draw.choice((1, clock.step, draw.randint(1, clock.step)))
    return Reading(base, tick, changes_of(draw, clock.deviation, clock.step - tick))


def faults_of(clock, reading, times):
    """What a reading breaks of a clock's deviation and step, from each of these times to each later one."""
    last, fastest, slowest = 0, None, None
    for time in sorted(set(times)):
        shown = reading(time)
        if shown < last:
            return [f"a clock goes back at {time}"]
        slow, fast = (MILLION * shown - (MILLION + sign * clock.deviation) * time for sign in (-1, 1))
        if fastest is not None and (slow + MILLION * clock.step < fastest or fast > slowest + MILLION * clock.step):
            return [f"a clock is off at {time}"]
        last = shown
        fastest = slow if fastest is None else max(fastest, slow)
        slowest = fast if slowest is None else min(slowest, fast)
    return []
