"""Requests to admit streams and to withdraw them: what a file asks, or its first fault, and the answers."""

from dataclasses import replace
from typing import NamedTuple

from second.bounds import least_certificate, sum_to
from second.clocks import is_overrated
from second.common import MOST_BYTES, MOST_PORTS, Fault, Refusal, is_name, lines_of, lines_that_speak, number
from second.networks import MOST, Sender, stream_fault

MOST_REQUESTS = 10_000
LOWEST = "lowest"


class Request(NamedTuple):
    """A request about a name: to withdraw the stream, or to admit this one, in the lowest class where that is open."""

    name: str
    stream: Sender | None = None
    is_open: bool = False


def short_number(text):
    """The number that a text of at most 18 digits is, or None."""
    return number(text) if len(text) <= 18 else None


def admitted_stream(network, name, ends, numbers):
    """The stream that a line asks to admit, or its first fault but for that of its words."""
    if not set(ends) <= network.topology.stations:
        raise Fault("unknown-node")
    ports = network.topology.route(*ends)
    if not ports:
        raise Fault("no-path")
    traffic_class, rate, burst, least, greatest, deadline = numbers
    stream = Sender(name, ports, (traffic_class,) * len(ports), least, greatest, rate, burst, 1000 * deadline)
    fault = stream_fault(ports, (traffic_class,), stream, deadline, network.longest)
    if fault:
        raise Fault(fault)
    return stream


def request_of(network, words):
    """The request that the words of a line make, or its first fault."""
    verb, name, *rest = words if len(words) > 1 else ("", "")
    if not is_name(name) or (verb, len(rest)) not in (("withdraw", 0), ("admit", 8)):
        raise Fault("bad-line")
    if verb == "withdraw":
        return Request(name)
    *ends, traffic_class = rest[:3]
    numbers = [1 if traffic_class == LOWEST else short_number(traffic_class), *map(short_number, rest[3:])]
    if None in numbers:
        raise Fault("bad-line")
    return Request(name, admitted_stream(network, name, ends, numbers), traffic_class == LOWEST)


def requests_of(network, data):
    """The requests that the bytes of a file make, or their first fault."""
    if len(data) > MOST_BYTES:
        raise Fault("too-long")
    requests = []
    for count, words in lines_that_speak(lines_of(data)):
        try:
            requests.append(request_of(network, words))
        except Fault as fault:
            raise Fault(f"{fault} {count}") from None
        if len(requests) > MOST_REQUESTS:
            raise Fault(f"limit {count}")
    return requests


def with_stream(network, stream):
    """The network with a stream more, as the last one."""
    return replace(network, streams=[*network.streams, stream])


def admitted(network, stream):
    """The network that a stream comes to and the line that says so, or None and the reason against it."""
    wider = with_stream(network, stream)
    rows, reason = least_certificate(wider)
    if reason:
        return None, reason
    return wider, f"admitted {stream.name} {stream.classes[0]} {sum_to(stream, 0, rows)}"


def answer_open(network, stream):
    """The network after a request whose class is open, and the lines of the answer."""
    reasons = []
    for traffic_class in range(1, 8):
        wider, text = admitted(network, replace(stream, classes=(traffic_class,) * len(stream.ports)))
        if wider:
            return wider, [text]
        reasons.append(f"class {traffic_class} {text}")
    return network, [f"denied {stream.name} no-class", *reasons]


def answer(network, request):
    """The network after a request, and the lines of the answer."""
    if request.stream is None:
        rest = [it for it in network.streams if it.name != request.name]
        if len(rest) == len(network.streams):
            return network, [f"denied {request.name} name-unknown"]
        return replace(network, streams=rest), [f"withdrawn {request.name}"]
    if any(it.name == request.name for it in network.senders):
        return network, [f"denied {request.name} name-taken"]
    ports = sum(len(stream.ports) for stream in [*network.streams, request.stream])
    if len(network.streams) == MOST["stream"] or ports > MOST_PORTS or is_overrated(network, request.stream):
        return network, [f"denied {request.name} limit"]
    if request.is_open:
        return answer_open(network, request.stream)
    wider, text = admitted(network, request.stream)
    return (wider, [text]) if wider else (network, [f"denied {request.name} {text}"])


def answered(network, requests):
    """What `admit` prints."""
    _, reason = least_certificate(network)
    if reason:
        raise Refusal(reason)
    for request in requests:
        network, lines = answer(network, request)
        yield from lines
    yield f"streams {len(network.streams)}"
