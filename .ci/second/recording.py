"""What a port sent in a run, as a capture: what `record` prints, worked out from the text of a replay."""

from struct import pack

from second.common import Refusal
from second.runs import departed

HEADER = pack("<IHHIIII", 0xA1B23C4D, 2, 4, 0, 0, 262_144, 1)
SOURCE, TAG, TYPE = (bytes.fromhex(text) for text in ("020000000000", "8100", "88b5"))


def port_called(network, word):
    """The port that a word names."""
    port = next((port for port in network.ports if port.name == word), None)
    if port is None:
        raise Refusal(f"port {word}")
    return port


def transmissions_of(name, lines):
    """What a port of this name sent by the lines of a replay, in order: start, sender and octets of each frame."""
    found = []
    for words in map(str.split, lines):
        if words[0] == "frame":
            sender, octets = words[2], int(words[3])
        elif words[:2] == ["hop", name] and words[3] == "eligible":
            found.append((int(words[6]), sender, octets))
    return sorted(found)


def heads_of(network, port):
    """For each sender whose path has the port the bytes that are kept of its frames there, by name."""
    for number, sender in enumerate(network.senders):
        place = next((cls for at, cls in sender.hops if at == port.number), None)
        if place is not None and sender.identity:
            address, vlan = sender.identity
            yield sender.name, address.to_bytes(6, "big") + SOURCE + TAG + pack(">H", place * 8192 + vlan) + TYPE
        elif place is not None:
            yield sender.name, b"\x06\x00" + pack(">I", number) + SOURCE + TYPE


def recorded(network, port, releases, order):
    """What `record` prints: bytes."""
    heads, parts = dict(heads_of(network, port)), [HEADER]
    for start, sender, octets in transmissions_of(port.name, departed(network, releases, order)):
        head = heads[sender]
        parts += [pack("<IIII", *divmod(start // 1000, 10**9), len(head), octets - 4), head]
    return b"".join(parts)
