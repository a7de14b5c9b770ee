"""One group of schedulers: which of its frames are eligible, and when."""

from second.common import SECOND, quotient_up, wire_bits

ELIGIBLE, LATE, SIZE = "eligible", "late", "size"


def is_declared_size(sender, octets):
    """Whether a frame has a size that its sender declares."""
    return sender.least <= octets <= sender.greatest


class Group:
    """The schedulers of the streams of one class that come in through one port.

    `time` is the group eligibility time. `empty` has for each stream its bucket-empty time, multiplied by its committed
    rate, so that it is a whole number; a bucket is full at time 0. A residence of None has no end."""

    def __init__(self, residence):
        self.residence, self.time, self.empty = residence, 0, {}

    def judge(self, stream, arrival, octets):
        """The verdict on a frame of a stream, and its eligibility time where it has a declared size."""
        if not is_declared_size(stream, octets):
            return SIZE, None
        empty = self.empty.get(stream.name, -SECOND * stream.burst)
        enough, full = empty + SECOND * wire_bits(octets), empty + SECOND * stream.burst
        eligible = max(arrival, self.time, quotient_up(enough, stream.rate))
        if self.residence is not None and eligible > arrival + self.residence:
            return LATE, eligible
        self.time = eligible
        self.empty[stream.name] = enough + max(0, eligible * stream.rate - full)
        return ELIGIBLE, eligible
