"""Catalogues, after docs/CATALOGUE.md."""

import re

from rules import CATALOGUE, Fault

LONGEST = 60000
LINE = re.compile(rb"LOT ([1-9][0-9]{0,5}) ([a-p]+)\n")
# A row of bytes that begins some lot line.
BEGINNING = re.compile(rb"L(O(T( ([1-9][0-9]{0,5}( ([a-p]+\n?)?)?)?)?)?)?")


def can_begin(data):
    """Whether some lot line begins with these bytes."""
    return not data or BEGINNING.fullmatch(data) is not None


def stuck_at(text, begin):
    """The first byte of a line that cannot go on, or the end of the text."""
    end = begin
    while end < len(text) and can_begin(text[begin : end + 1]):
        end += 1
    return end


def read(text):
    """The lots as (number, mark), and the refusal or None."""
    if len(text) > LONGEST:
        return [], Fault(12, CATALOGUE, place=LONGEST)
    lots = []
    at = 0
    while at < len(text):
        line = LINE.match(text, at)
        if line is None:
            return lots, Fault(12, CATALOGUE, place=stuck_at(text, at))
        lots.append((int(line[1]), line[2]))
        at = line.end()
    return lots, None
