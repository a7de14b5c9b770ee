"""Captures of a size, made for the benchmarks."""

MAX_RECORDS = 1_000_000
MAX_CAPTURED = 262_144
MAX_BYTES = 268_435_456

# A header with times in microseconds, the lowest byte of each number first.
HEADER = bytes.fromhex("d4c3b2a1020004000000000000000000ffff000001000000")


def write_capture(path, captured, records):
    """Writes a capture of so many records with so many captured bytes each, none of which is of a stream."""
    body = (b"\0" * 12 + b"\x81" + b"\0" * captured)[:captured]
    length = captured.to_bytes(4, "little")
    block = b"".join(n.to_bytes(4, "little") + bytes(4) + length + length + body for n in range(min(1000, records)))
    with open(path, "wb") as file:
        file.write(HEADER)
        for _ in range(records // 1000):
            file.write(block)
        file.write(block[: records % 1000 * (16 + captured)])
