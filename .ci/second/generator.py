"""Releases that `generate` makes of a seed, and its summary of their run."""

from itertools import chain

from second.bounds import least_certificate, sum_to
from second.common import LAST_RELEASE, MOST_HOPS, Refusal
from second.groups import Group
from second.runs import EARLY, SINK, Run, counts_text
from second.schedules import Release


def draws_of(seed):
    """The draws that a seed gives, without end."""
    state = seed
    while True:
        state = (state * 6364136223846793005 + 1442695040888963407) % 2**64
        yield state >> 33


def made(streams, seed, count):
    """The releases that a seed gives, in the order of making, or why there are none."""
    if not streams:
        raise Refusal("no-stream")
    draws, clock, ports = draws_of(seed), 0, 0
    schedulers = [Group(None) for _ in streams]
    for frame in range(count):
        turn = frame % len(streams)
        stream = streams[turn]
        octets = stream.least + next(draws) % (stream.greatest - stream.least + 1)
        _, at = schedulers[turn].judge(stream, clock, octets)
        ports += len(stream.ports)
        if at > LAST_RELEASE or ports > MOST_HOPS:
            raise Refusal("limit")
        yield Release(at, turn, octets)
        # The group eligibility time is 0 for each frame.
        schedulers[turn].time = 0
        clock += next(draws) % 2_000_000


def listener_text(run, kind, which, leg, bound):
    """The line of a sender, or of a further listener of it."""
    own = [(ends[leg], release) for ends, release in zip(run.ends, run.releases) if release.sender == which]
    worst = max((when - release.at for (how, when), release in own if how == SINK), default=0)
    counts = counts_text([end for end, _ in own])
    called = run.network.called(run.senders[which], leg)
    return f"{'listener' if leg else kind} {called} frames {len(own)} {counts} worst {worst} bound {bound}"


def generated(network, seed, count):
    """What `generate` prints."""
    releases = sorted(made(network.streams, seed, count), key=lambda release: release.at)
    run = Run(network, releases, EARLY)
    rows, _ = least_certificate(network)
    for which, sender in enumerate(network.senders):
        kind = "flow" if sender.is_flow else "stream"
        for leg in range(len(sender.legs)):
            bound = "-" if sender.is_flow or rows is None else sum_to(sender, leg, rows)
            yield listener_text(run, kind, which, leg, bound)
    yield f"total frames {len(releases)} {counts_text(chain.from_iterable(run.ends))}"
