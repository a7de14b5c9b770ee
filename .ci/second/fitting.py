"""What the streams of a network would have to declare for a schedule: the least burst of each with its rate, and what
`fit` prints. The bits of each frame with each earlier one and with itself are gone through, pair by pair."""

from itertools import accumulate

from second.common import SECOND, quotient_up, wire_bits
from second.groups import is_declared_size


def least_burst(stream, releases):
    """The least burst with which the releases of a stream conform to its rate; 0 where there are none."""
    sent = [0, *accumulate(wire_bits(release.octets) for release in releases)]
    excesses = (
        SECOND * (sent[last + 1] - sent[first]) - stream.rate * (releases[last].at - releases[first].at)
        for last in range(len(releases))
        for first in range(last + 1)
    )
    return quotient_up(max(excesses, default=0), SECOND)


def sizes_text(releases):
    """How many releases there are, and their least and greatest octets."""
    sizes = [release.octets for release in releases]
    return f"frames {len(sizes)} octets {min(sizes, default='-')} {max(sizes, default='-')}"


def fitted(network, releases):
    """What `fit` prints."""
    over, own = 0, {number: [] for number in range(len(network.senders))}
    for release in releases:
        own[release.sender].append(release)
    for number, sender in enumerate(network.senders):
        text, burst = sizes_text(own[number]), None if sender.is_flow else least_burst(sender, own[number])
        fits = all(is_declared_size(sender, release.octets) for release in own[number])
        if sender.is_flow:
            yield f"flow {sender.name} {text}"
        else:
            yield f"stream {sender.name} {text} burst {burst} of {sender.burst}"
            fits = fits and burst <= sender.burst
        over += not fits
    yield f"total frames {len(releases)} streams {len(network.streams)} over {over}"
