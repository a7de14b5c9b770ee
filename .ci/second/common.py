"""What all parts of the second calculation speak in: outcomes, numbers, names, wire bits, and the lines of a text."""

import re

SECOND = 10**12  # picoseconds
LAST_RELEASE = 10**17  # picoseconds
MOST_FRAMES = 200_000
MOST_PORTS = 65_536  # of all streams of a network together
MOST_HOPS = 3_200_000  # ports of all frames of a run together
MOST_RATE = 10**11
MOST_BURST = 10**9
MOST_BYTES = 16_777_216
NUMBER = re.compile("0|[1-9][0-9]{0,35}")
NAME = re.compile("[A-Za-z0-9_-]{1,32}")


class Fault(Exception):
    """A file breaks a rule: the text is what stands behind `input FILE`."""


class Refusal(Exception):
    """A judgement refuses: the text is what stands behind `refused`."""


class Unread(Exception):
    """A file cannot be read."""


class Unjudged(Exception):
    """This calculation cannot tell what is due: the text is the kind of reason."""


def number(text):
    """The number that a text is, or None where it is none."""
    return int(text) if NUMBER.fullmatch(text) else None


def is_name(text):
    """Whether a text is a name."""
    return bool(NAME.fullmatch(text))


def wire_bits(octets):
    """The bits of a frame on the wire: preamble, delimiter and gap are 20 octets more."""
    return 8 * (octets + 20)


def quotient_up(dividend, divisor):
    """The least whole number that, taken divisor times, reaches the dividend."""
    return -(-dividend // divisor)


def first_of(cases):
    """The word of the first case that is the case, or None; a case is a word and whether it holds."""
    return next((word for word, holds in cases if holds), None)


def rules_of_stream(rate, burst, least, greatest):
    """The rules of a declared stream on its numbers alone, each with whether it is broken, in their order."""
    return [
        ("bad-rate", not 1 <= rate <= MOST_RATE),
        ("bad-sizes", not 64 <= least <= greatest <= 2000),
        ("burst-below-frame", burst < wire_bits(greatest)),
        ("limit", burst > MOST_BURST),
    ]


def lines_of(data):
    """The lines of a file of word lines, in which each byte is one character."""
    *whole, last = data.decode("latin-1").split("\n")
    return [line[:-1] if line.endswith("\r") else line for line in whole] + ([last] if last else [])


def lines_that_speak(lines):
    """The lines that are no comments and not empty, each with its number and its words."""
    for count, line in enumerate(lines, 1):
        words = [word for word in line.split(" ") if word]
        if words and not line.startswith("#"):
            yield count, words
