"""Addresses for the streams of a network file, by which captures of their frames are read."""

import re

KEYS = re.compile(r"^(address|vlan) = .*\n", re.M)
TABLE, ARRAY, ENTRY = re.compile(r"^\[\[stream\]\]$", re.M), re.compile(r"^stream = \[$.*?^\]$", re.M | re.S), "{ name"


def address_of(number):
    """The address of the stream with a number."""
    return f"02:00:00:00:{number // 256:02x}:{number % 256:02x}"


def vlan_of(number):
    """Its VLAN."""
    return 4094 - number


def addressed(text, each=True):
    """A network file in which each stream has an address and a VLAN by its number, or each other one has."""
    numbers = iter(range(10**4))

    def keys(between):
        number = next(numbers)
        if not each and number % 2:
            return ""
        return f'address = "{address_of(number)}"{between}vlan = {vlan_of(number)}{between}'

    text = TABLE.sub(lambda found: f"{found[0]}\n{keys(chr(10))}", KEYS.sub("", text))
    return ARRAY.sub(lambda found: re.sub(ENTRY, lambda _: f"{{ {keys(', ')}name", found[0]), text)
