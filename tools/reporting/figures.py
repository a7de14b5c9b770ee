"""How numbers of the program are shown: in other units, and rounded to the side on which a reader is safe."""

import html

# The units of rates, by how many bits per second one is.
UNITS = ((10**9, "Gb/s"), (10**6, "Mb/s"), (10**3, "kb/s"), (1, "b/s"))


def text(words):
    """Words as they stand in a page."""
    return html.escape(str(words), quote=True)


def thousandths(number):
    """A number of thousandths."""
    sign = "-" if number < 0 else ""
    return f"{sign}{abs(number) // 1000}.{abs(number) % 1000:03d}"


def up(ps):
    """Picoseconds as microseconds, rounded up: what is shown of bounds, sums and delays."""
    return thousandths(-(-ps // 1000))


def down(ps):
    """Picoseconds as microseconds, rounded down: what is shown of deadlines and of what is left of them."""
    return thousandths(ps // 1000)


def exact(ps):
    """Picoseconds as microseconds, to the last of them."""
    return f"{ps // 10**6}.{ps % 10**6:06d}".rstrip("0").rstrip(".")


def percent(load):
    """Picoseconds of each second as percent, rounded up."""
    hundredths = -(-load // 10**8)
    return f"{hundredths // 100}.{hundredths % 100:02d} %"


def used(part, whole):
    """A part of a whole as percent, rounded up."""
    hundredths = -(-(10**4) * part // whole)
    return f"{hundredths // 100}.{hundredths % 100:02d} %"


def rate(bits):
    """Bits per second in the largest unit of which there is one."""
    size, unit = next(it for it in UNITS if bits >= it[0] or it[0] == 1)
    return f"{decimal(bits, size)} {unit}"


def decimal(number, size):
    """A number in units of a power of ten, exactly."""
    whole, rest = divmod(number, size)
    return f"{whole}.{rest:0{len(str(size)) - 1}d}".rstrip("0") if rest else str(whole)


def link_rate(ps_per_bit):
    """The rate of a link on which a bit takes so many picoseconds."""
    return rate(10**12 // ps_per_bit)


def share(part, whole):
    """A part of a whole as the width of a bar."""
    return f"{min(100.0, 100 * part / whole if whole else 0):.4g}%"


def place(number):
    """A number of a drawing."""
    return f"{number:.1f}".removesuffix(".0")
