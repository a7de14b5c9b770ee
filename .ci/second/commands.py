"""The commands: which words are one, in which order files are read, and the status and text that are due."""

from second.admission import answered, requests_of
from second.bounds import bounded, certificate_of, checked, explained
from second.buffers import buffered
from second.captures import captured, traffic_of
from second.common import MOST_FRAMES, Fault, Refusal, Unread, number
from second.fitting import fitted
from second.generator import generated
from second.lrq import Regulator, narrowed
from second.networks import network_of, shown
from second.recording import port_called, recorded
from second.runs import EARLY, LATEST, departed, mixed
from second.schedules import conformed, releases_of, scheduled
from second.settings import told
from second.shapes import shape_of, shaped
from second.witnesses import stream_called, witnessed


def order_of(word):
    """The order that a word names, or None."""
    verb, colon, rest = word.partition(":")
    mask = number(rest) if verb == "mixed" and colon else None
    if mask is not None and mask < 2**32:
        return mixed(mask)
    return {"early": EARLY, "late": LATEST}.get(word)


def within(least, greatest):
    """A reading of words that are numbers within a range."""

    def read(word):
        value = number(word)
        return value if value is not None and least <= value <= greatest else None

    return read


SEED, COUNT = within(0, 2**64 - 1), within(1, MOST_FRAMES)


class Call:
    """A call whose words are a command, over files of a folder."""

    def __init__(self, files):
        self.files = files

    def read(self, name, meaning):
        """What the bytes of a file mean, or its first fault with its name."""
        try:
            return meaning(self.files.read(name))
        except Fault as fault:
            raise Fault(f"{name} {fault}") from None

    def shape(self, name):
        """The lines that `shape` prints."""
        return shaped(self.read(name, shape_of))

    def show(self, name):
        """The lines that `show` prints."""
        return shown(self.read(name, network_of))

    def bound(self, name):
        """The lines that `bound` prints."""
        return bounded(self.read(name, network_of))

    def explain(self, name):
        """The lines that `explain` prints."""
        return explained(self.read(name, network_of))

    def settings(self, name):
        """The lines that `settings` prints."""
        return told(self.read(name, network_of))

    def certified(self, name, certificate):
        """The network and the rows that two files declare."""
        network = self.read(name, network_of)
        return network, self.read(certificate, lambda data: certificate_of(network, data))

    def check(self, name, certificate):
        """The lines that `check` prints."""
        return checked(*self.certified(name, certificate))

    def buffers(self, name, certificate, schedule=None, order=None):
        """The lines that `buffers` prints."""
        network, rows = self.certified(name, certificate)
        if schedule is None:
            return buffered(network, rows)
        return buffered(network, rows, self.released(network, schedule), order)

    def released(self, network, schedule):
        """The releases that a file declares for a network."""
        return self.read(schedule, lambda data: releases_of(network, data))

    def conform(self, name, schedule):
        """The lines that `conform` prints."""
        network = self.read(name, network_of)
        return conformed(network, self.released(network, schedule))

    def fit(self, name, schedule):
        """The lines that `fit` prints."""
        network = self.read(name, network_of)
        return fitted(network, self.released(network, schedule))

    def admit(self, name, requests):
        """The lines that `admit` prints."""
        network = self.read(name, network_of)
        return answered(network, self.read(requests, lambda data: requests_of(network, data)))

    def replay(self, name, schedule, order):
        """The lines that `replay` prints."""
        network = self.read(name, network_of)
        return departed(network, self.released(network, schedule), order)

    def record(self, name, schedule, order, port):
        """The bytes that `record` prints."""
        network = self.read(name, network_of)
        place = port_called(network, port)
        return recorded(network, place, self.released(network, schedule), order)

    def seen(self, name, station, capture):
        """The network of a file, and what a capture comes to at one of its stations."""
        network = self.read(name, network_of)
        if station not in network.topology.stations:
            raise Refusal(f"station {station}")
        return network, self.read(capture, lambda data: traffic_of(network, station, data))

    def capture(self, name, station, capture, order):
        """The lines that `capture` prints."""
        return captured(*self.seen(name, station, capture), order)

    def releases(self, name, station, capture):
        """The lines that `releases` prints."""
        network, traffic = self.seen(name, station, capture)
        return scheduled(network, traffic.releases)

    def witness(self, name, stream):
        """The lines that `witness` prints."""
        network = self.read(name, network_of)
        return witnessed(network, stream_called(network, stream))

    def generate(self, name, seed, count):
        """The lines that `generate` prints."""
        return generated(self.read(name, network_of), seed, count)

    def lrq_shape(self, name):
        """The lines that `lrq shape` prints."""
        return shaped(self.read(name, shape_of), Regulator)

    def lrq_bound(self, name):
        """The lines that `lrq bound` prints."""
        return bounded(narrowed(self.read(name, network_of)))

    def lrq_check(self, name, certificate):
        """The lines that `lrq check` prints."""
        network, rows = self.certified(name, certificate)
        return checked(narrowed(network), rows)


# What answers each command, with the readings of the words behind it, by its own words: one, or behind `lrq` two. Where
# a command has two forms, they differ in the number of these words.
WORDS = {
    ("shape",): (Call.shape, [(str,)]),
    ("show",): (Call.show, [(str,)]),
    ("bound",): (Call.bound, [(str,)]),
    ("explain",): (Call.explain, [(str,)]),
    ("settings",): (Call.settings, [(str,)]),
    ("check",): (Call.check, [(str, str)]),
    ("buffers",): (Call.buffers, [(str, str), (str, str, str, order_of)]),
    ("conform",): (Call.conform, [(str, str)]),
    ("fit",): (Call.fit, [(str, str)]),
    ("admit",): (Call.admit, [(str, str)]),
    ("replay",): (Call.replay, [(str, str, order_of)]),
    ("record",): (Call.record, [(str, str, order_of, str)]),
    ("witness",): (Call.witness, [(str, str)]),
    ("capture",): (Call.capture, [(str, str, str, order_of)]),
    ("releases",): (Call.releases, [(str, str, str)]),
    ("generate",): (Call.generate, [(str, SEED, COUNT)]),
    ("lrq", "shape"): (Call.lrq_shape, [(str,)]),
    ("lrq", "bound"): (Call.lrq_bound, [(str,)]),
    ("lrq", "check"): (Call.lrq_check, [(str, str)]),
}


def meant(words):
    """What answers these words, and what those behind the command mean, or None where they are no command."""
    own = 2 if words[:1] == ["lrq"] else 1
    answer, forms = WORDS.get(tuple(words[:own]), (None, []))
    readings = next((form for form in forms if len(form) == len(words) - own), None)
    if readings is None:
        return None
    meanings = [read(word) for read, word in zip(readings, words[own:])]
    return None if None in meanings else (answer, meanings)


def text_of(answer):
    """The bytes of an answer, which is lines, or bytes already."""
    return answer if isinstance(answer, bytes) else "".join(f"{line}\n" for line in answer).encode()


def due(words, files):
    """The status and the text that are due to a call, both words and text in bytes, over files of a folder."""
    try:
        texts = [word.decode("utf-8") for word in words]
    except UnicodeDecodeError:
        return 1, b""
    asked = meant(texts)
    if asked is None:
        return 1, b"words\n"
    answer, meanings = asked
    try:
        return 0, text_of(answer(Call(files), *meanings))
    except Fault as fault:
        return 2, text_of([f"input {fault}"])
    except Refusal as refusal:
        return 3, text_of([f"refused {refusal}"])
    except Unread:
        return 4, b""
