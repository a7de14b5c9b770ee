"""Shape files: the frames of one group of schedulers, or the first fault of the file, and their verdicts."""

from typing import NamedTuple

from second.common import (
    LAST_RELEASE,
    MOST_BYTES,
    MOST_FRAMES,
    Fault,
    first_of,
    is_name,
    lines_of,
    lines_that_speak,
    number,
    rules_of_stream,
)
from second.groups import ELIGIBLE, LATE, SIZE, Group

MOST_STREAMS = 4096
MOST_RESIDENCE = 10**9  # nanoseconds
LENGTHS = {"residence": 2, "stream": 6, "frame": 4}


class Stream(NamedTuple):
    """A stream of a shape file."""

    name: str
    rate: int
    burst: int
    least: int
    greatest: int


class Shape:
    """What the lines up to one declare."""

    def __init__(self):
        self.residence, self.streams, self.frames = None, {}, []

    def verbs(self):
        """The first words that the next line may have."""
        if self.residence is None:
            return ("residence",)
        return ("frame",) if self.frames else ("stream", "frame")

    def take(self, verb, *words):
        """Takes the words of the next line, or names its first fault."""
        if verb not in self.verbs() or len(words) != LENGTHS[verb] - 1:
            raise Fault("bad-line")
        {"residence": self.take_residence, "stream": self.take_stream, "frame": self.take_frame}[verb](*words)

    def take_residence(self, text):
        """Takes the residence."""
        residence = number(text)
        if residence is None or residence > MOST_RESIDENCE:
            raise Fault("bad-line")
        self.residence = 1000 * residence

    def take_stream(self, name, *texts):
        """Takes a stream."""
        numbers = [number(text) for text in texts]
        if not is_name(name) or None in numbers:
            raise Fault("bad-line")
        taken, full = name in self.streams, len(self.streams) == MOST_STREAMS
        fault = first_of([("name-twice", taken), *rules_of_stream(*numbers), ("limit", full)])
        if fault:
            raise Fault(fault)
        self.streams[name] = Stream(name, *numbers)

    def take_frame(self, at, name, octets):
        """Takes a frame."""
        arrival, size = number(at), number(octets)
        if not is_name(name) or arrival is None or arrival > LAST_RELEASE or size is None or not 64 <= size <= 2000:
            raise Fault("bad-line")
        back, full = bool(self.frames) and arrival < self.frames[-1][0], len(self.frames) == MOST_FRAMES
        fault = first_of([("unknown-name", name not in self.streams), ("time-back", back), ("limit", full)])
        if fault:
            raise Fault(fault)
        self.frames.append((arrival, self.streams[name], size))


def shape_of(data):
    """What the bytes of a shape file declare, or their first fault."""
    if len(data) > MOST_BYTES:
        raise Fault("too-long")
    shape, lines = Shape(), lines_of(data)
    for count, words in lines_that_speak(lines):
        try:
            shape.take(*words)
        except Fault as fault:
            raise Fault(f"{fault} {count}") from None
    if shape.residence is None:
        raise Fault(f"bad-line {len(lines) + 1}")
    return shape


def shaped(shape, kind=Group):
    """What `shape` prints, or `lrq shape` where the group is of that kind."""
    group, verdicts = kind(shape.residence), []
    for count, (arrival, stream, octets) in enumerate(shape.frames):
        verdict, eligible = group.judge(stream, arrival, octets)
        verdicts.append(verdict)
        text = f"frame {count} {stream.name} {octets} {arrival} {verdict}"
        yield text if verdict == SIZE else f"{text} {eligible}"
    counts = " ".join(f"{verdict} {verdicts.count(verdict)}" for verdict in (ELIGIBLE, LATE, SIZE))
    yield f"total frames {len(shape.frames)} {counts}"
