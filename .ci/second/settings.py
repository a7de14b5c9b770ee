"""What to set in each bridge of a network: what `settings` prints."""

from second.clocks import scheduled

HEADER = "bridge,received_from,class,stream,rate_bps,burst_bits,max_octets,residence_ns,sent_to,class_there"


def settings_of(network):
    """Each place of a setting, by which settings are ordered, with its record. A place is the number of the bridge,
    that of the port of reception, the class there, the number of the sender, and the place of the port on which it goes
    on among those of the sender."""
    bridges = {name: count for count, name in enumerate(network.topology.bridges)}
    for count, sender in enumerate(network.senders):
        for place, at in sorted(sender.before.items()):
            (number, own), (next_number, there) = sender.hops[at], sender.hops[place]
            before, after = network.ports[number], network.ports[next_number]
            shaped = ("", "") if sender.is_flow else scheduled(network, sender, number)
            stay = "" if sender.is_flow else before.residence // 1000
            fields = before.leads_to, before.name, own, sender.name, *shaped, sender.greatest, stay, after.name, there
            yield (bridges[before.leads_to], number, own, count, place), fields


def told(network):
    """What `settings` prints."""
    yield HEADER
    yield from (",".join(map(str, fields)) for _, fields in sorted(settings_of(network)))
