"""Shape files of a size, made for the benchmarks."""

MAX_STREAMS = 4096
MAX_FRAMES = 200_000


def shape_file(frames):
    """The text of a shape file: each stream sends in its turn, a frame each 500 ns."""
    streams = min(MAX_STREAMS, frames)
    lines = ["residence 1000000"]
    for stream in range(streams):
        lines.append(f"stream talker_{stream} 1000000 24672 64 1522")
    for frame in range(frames):
        stream = frame * 1021 % streams
        octets = 64 + frame * 37 % 1459
        lines.append(f"frame {frame * 500_000} talker_{stream} {octets}")
    return "\n".join(lines) + "\n"
