"""Requests to the networks of made_network.py, made for the benchmarks."""

from made_network import BRIDGES_OF_A_PATH

MAX_REQUESTS = 10_000

# Of ten requests, what each asks: to admit a new stream, with its class or the lowest, also with a deadline that none
# meets; to withdraw a stream that came in, or one of the network's; to admit that one again. As many come in as
# leave.
ASKED = ("admit", "lowest", "late", "withdraw", "away", "back", "lowest", "withdraw", "withdraw", "lowest-late")


def request_file(requests, nodes, streams):
    """A request file for a network of so many nodes and streams."""
    places = nodes // 2 - BRIDGES_OF_A_PATH + 1

    def admit(name, k, cls, deadline):
        first = k * 37 % places
        last = first + BRIDGES_OF_A_PATH - 1
        return f"admit {name} s{first} s{last} {cls} 1000000 12336 64 1522 {deadline}"

    lines, came, away = [], [], None
    for k in range(requests):
        asked, cls = ASKED[k % len(ASKED)], 1 + k % 7
        if asked in ("admit", "lowest"):
            came.append(f"new_{k}")
            lines.append(admit(came[-1], k, cls if asked == "admit" else "lowest", 10**9))
        elif asked in ("late", "lowest-late"):
            lines.append(admit(f"late_{k}", k, cls if asked == "late" else "lowest", 1))
        elif asked == "withdraw" and came:
            lines.append(f"withdraw {came.pop(0)}")
        elif asked == "away" and streams:
            away = k * 61 % streams
            lines.append(f"withdraw stream_{away}")
        elif asked == "back" and away is not None:
            lines.append(admit(f"stream_{away}", away, 1 + away % 7, 10**9))
        else:
            lines.append(f"withdraw none_{k}")
    return "".join(line + "\n" for line in lines)
