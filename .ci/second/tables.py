"""Tables of values (RFC 4180): the records of a text, in which each byte is one character."""

import re

from second.common import Fault, Unjudged

ENDS = re.compile("[\r\n]*")
FIELD = re.compile('"([^"]*(?:""[^"]*)*)"?|([^,\r\n]*)')


def field_at(text, at):
    """The field that begins at a place, and where it ends."""
    found = FIELD.match(text, at)
    end = found.end()
    if end < len(text) and text[end] not in ",\r\n":
        raise Unjudged("bytes behind a closing quote")
    quoted, plain = found.groups()
    return (plain if quoted is None else quoted.replace('""', '"')), end


def record_at(text, at):
    """The fields of the record that begins at a place, and where it ends."""
    field, at = field_at(text, at)
    fields = [field]
    while text.startswith(",", at):
        field, at = field_at(text, at + 1)
        fields.append(field)
    return fields, at


def records_of(data):
    """The records of a table, one after another; empty lines are none."""
    text = data.removeprefix(b"\xef\xbb\xbf").decode("latin-1")
    at = ENDS.match(text).end()
    while at < len(text):
        fields, at = record_at(text, at)
        yield fields
        at = ENDS.match(text, at).end()


def rows_of(data, header):
    """The records behind the header, each with its number; as many fields as it has are asked of each."""
    records = records_of(data)
    if next(records, None) != header.split(","):
        raise Fault("bad-row 1")
    for count, fields in enumerate(records, 2):
        if len(fields) != len(header.split(",")):
            raise Fault(f"bad-row {count}")
        yield count, fields
