"""Networks of a size, made for the benchmarks."""

import os
import resource
import subprocess
import sys
import threading
import time

ROOT = os.path.dirname(os.path.dirname(os.path.abspath(__file__)))

# The program that runs where the command line names none: that of ATS_PROGRAM, or the one that was built last.
PROGRAM = os.path.abspath(os.environ.get("ATS_PROGRAM") or os.path.join(ROOT, "crates", "ats_cli", "out", "ats_cli"))

MAX_NODES = 1024
MAX_STREAMS = 4096
MAX_FLOWS = 1024

# The bridges that a stream or flow goes through; it has one port more.
BRIDGES_OF_A_PATH = 7


def network_file(nodes, streams, flows, by_ends):
    """A network file: a line of bridges with a station at each. Each stream and flow goes through seven bridges, and is
    given by its path or, where by_ends is true, by its two ends."""
    bridges = nodes // 2
    lines = ["format = 1"]
    for i in range(bridges):
        lines.append(f'[[station]]\nname = "s{i}"')
    for i in range(bridges):
        lines.append(f'[[bridge]]\nname = "b{i}"\nprocessing_ns = 1000\nresidence_ns = 1000000000')
    for i in range(bridges):
        lines.append(f'[[link]]\na = "s{i}"\nb = "b{i}"\nmbps = 1000\npropagation_ns = 500')
    for i in range(bridges - 1):
        lines.append(f'[[link]]\na = "b{i}"\nb = "b{i + 1}"\nmbps = 10000\npropagation_ns = 500')
    places = bridges - BRIDGES_OF_A_PATH + 1

    def route(k):
        first = k * 37 % places
        last = first + BRIDGES_OF_A_PATH - 1
        if by_ends:
            return f'from = "s{first}"\nto = "s{last}"'
        through = ", ".join(f'"b{i}"' for i in range(first, last + 1))
        return f'path = ["s{first}", {through}, "s{last}"]'

    for k in range(streams):
        address = ":".join(f"{byte:02x}" for byte in (2 << 40 | k).to_bytes(6, "big"))
        lines.append(
            f'[[stream]]\nname = "stream_{k}"\n{route(k)}\nclass = {1 + k % 7}\n'
            "rate_bps = 1000000\nburst_bits = 12336\n"
            f'min_octets = 64\nmax_octets = 1522\naddress = "{address}"\nvlan = 1'
        )
    for k in range(flows):
        lines.append(f'[[flow]]\nname = "flow_{k}"\n{route(k)}\nmax_octets = 1522')
    return "\n".join(lines) + "\n"


class PeakWatch(threading.Thread):
    """Reads the peak memory of a process every millisecond for as long as it runs."""

    def __init__(self, number):
        super().__init__(daemon=True)
        self.status = f"/proc/{number}/status"
        self.ended = threading.Event()
        self.kilobytes = 0

    def run(self):
        while not self.ended.is_set():
            try:
                with open(self.status, encoding="ascii", errors="replace") as file:
                    for line in file:
                        if line.startswith("VmHWM:"):
                            self.kilobytes = int(line.split()[1])
            except OSError:
                return
            self.ended.wait(0.001)


def run(program, words, printed):
    """Runs the program with its output to a file. Gives its status, its seconds and its peak memory in MB."""
    with open(printed, "wb") as out:
        began = time.perf_counter()
        child = subprocess.Popen([program] + words, stdout=out)
        watch = PeakWatch(child.pid)
        watch.start()
        _, status, used = os.wait4(child.pid, 0)
        seconds = time.perf_counter() - began
    watch.ended.set()
    watch.join()
    child.returncode = os.waitstatus_to_exitcode(status)
    # What the system tells is at least the peak of this script, from which the process was started. Where it is no
    # more than that, the last reading counts; of a run too short to be read it is an upper bound.
    own = resource.getrusage(resource.RUSAGE_SELF).ru_maxrss
    kilobytes = used.ru_maxrss if used.ru_maxrss > own else watch.kilobytes or used.ru_maxrss
    return child.returncode, seconds, kilobytes / 1024


def arguments(usage, counts):
    """The numbers and the program that the command line gives."""
    words = sys.argv[1:]
    if not len(counts) <= len(words) <= len(counts) + 1 or not all(w.isdigit() for w in words[: len(counts)]):
        sys.exit("usage: " + usage)
    numbers = [int(w) for w in words[: len(counts)]]
    for number, (name, least, most) in zip(numbers, counts):
        if not least <= number <= most:
            sys.exit(f"{least} to {most} {name}")
    program = words[-1] if len(words) > len(counts) else PROGRAM
    if not os.access(program, os.X_OK):
        sys.exit(f"{program} is not built")
    return numbers, program
