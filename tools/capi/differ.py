"""Tries the C interface against the reference, on calls made from a number:

    python3 differ.py LIBRARY HEADER SEED

LIBRARY is libcapi as a shared library. The reference stands in tools/reference.
"""

import collections
import concurrent.futures
import pathlib
import sys

sys.path.insert(0, str(pathlib.Path(__file__).resolve().parent.parent / "reference"))

import calls
import catalogue
import rules
import searches
import sheets
from library import ENOUGH, GUARD, Header, Library, framed, pattern, told
from made_calls import Calls
from rules import BLANK, FIRST, NEITHER, SECOND, SHEET, Fault

THREADS = 4
OUT_OF_MEMORY = 255
# The most pieces of memory that a call asks for.
MOST_PIECES = 6


# What the reference says.


def settled(first, second, room):
    """The numbers of the answer, and the words for the buffers."""
    joins, side, word = calls.settle(first, second, room)
    return {"joins": joins, "length": len(word or []), "number": calls.SAME if word is None else calls.DIFFER, "kept_by": side}, [word]


def related(first, second, first_room, second_room):
    words = [word for cells, word in calls.relate(first, second, first_room, second_room)]
    only_first, only_second = (len(word or []) for word in words)
    return {"only_first": only_first, "only_second": only_second, "number": searches.relation_number(*words)}, words


def table_kept(sheet, text):
    return {"kept": int(calls.table_keeps(sheet, text))}, []


def nfa_kept(sheet, text):
    return {"kept": int(calls.nfa_keeps(sheet, text))}, []


ANSWERS = {"settle": settled, "relate": related, "table_keeps": table_kept, "nfa_keeps": nfa_kept}


def buffer_with(word, room):
    word = bytes(word or [])
    return word + pattern(room)[len(word) :]


def left(call, refusal, answer, words):
    """All that a call has to leave."""
    numbers = {"place": refusal.place, "letter": refusal.letter, "status": refusal.number, "layer": refusal.layer, "side": refusal.side}
    buffers = [framed(buffer_with(word, room)) for word, room in zip(words, call.rooms)]
    return told(refusal.number, numbers, answer, [framed(data) for data in call.given], buffers)


def left_by_refused(library, call, refusal):
    return left(call, refusal, library.untouched(call.name), [None] * len(call.rooms))


def wanted(library, call):
    """All that a call has to leave where there is memory."""
    try:
        return left(call, Fault(0, 0), *ANSWERS[call.name](*call.given, *call.rooms))
    except Fault as refusal:
        return left_by_refused(library, call, refusal)


def asked_pieces(call):
    """The side of each piece of memory that a call asks for, in order, as far as it comes. Of two tables each is decoded into two pieces, and then come the cells of each search;
    whoever judges a text copies the sheet into one. A sheet that is refused, and two rules that settling refuses, ask for no further one."""
    if not call.rooms:
        read = sheets.nfa if call.name == "nfa_keeps" else sheets.table
        return [NEITHER] if number_of(lambda: read(call.given[0])) is None else []
    asked = []
    for side, sheet in zip((FIRST, SECOND), call.given):
        if number_of(lambda: sheets.table(sheet)) is not None:
            return asked
        asked += [side, side]
    first, second = map(sheets.table, call.given)
    if call.name == "relate":
        return asked + [SECOND, SECOND]
    return asked + [SECOND] if first.letters == second.letters else asked


def want_of_memory(call, pieces):
    """The refusal of a call for which there are so few pieces of memory, or None if they suffice."""
    asked = asked_pieces(call)
    return Fault(OUT_OF_MEMORY, SHEET, side=asked[pieces]) if pieces < len(asked) else None


def wanted_short(library, call, wants, pieces):
    """All that a call has to leave for which there are so few pieces of memory, and which leaves `wants` where there are enough."""
    refusal = want_of_memory(call, pieces)
    return wants if refusal is None else left_by_refused(library, call, refusal)


# The names of the header.


def number_of(ask):
    """The number that a question is refused with."""
    try:
        ask()
    except Fault as refusal:
        return refusal.number


def statuses():
    """The numbers of the reference's refusals, and the two that stand outside of them."""
    two_letters = sheets.table(bytes.fromhex("1002000000"))
    return {
        "ANSWERED": 0,
        "TRUNCATED": number_of(lambda: sheets.table(b"")),
        "WRONG_LENGTH": number_of(lambda: sheets.table(bytes.fromhex("000200"))),
        "TARGET_OUT_OF_RANGE": number_of(lambda: sheets.table(bytes.fromhex("00020081"))),
        "PADDING_SET": number_of(lambda: sheets.table(bytes.fromhex("00020001"))),
        "LETTERS_DIFFER": rules.fits(BLANK, two_letters, 1).number,
        "TOO_MANY_STATES": rules.fits(BLANK, BLANK, 4097).number,
        "NO_SUCH_STATE": number_of(lambda: BLANK.kept_at(1)),
        "TOO_FEW_CELLS": number_of(lambda: searches.check_room(rules.SEARCH, 1, 0, 0)),
        "BUFFER_TOO_SHORT": number_of(lambda: searches.check_room(rules.SEARCH, 1, 1, 0)),
        "NO_SUCH_LETTER": number_of(lambda: BLANK.next_from(0, 1)),
        "TOO_MANY_NFA_STATES": number_of(lambda: sheets.nfa(bytes([10]))),
        "BAD_LINE": catalogue.read(b"x")[1].number,
        "OUT_OF_MEMORY": OUT_OF_MEMORY,
    }


def names():
    """The enums of the header, as the reference has their numbers."""
    relations = ("EQUAL", None, None), ("FIRST_WITHIN", None, []), ("SECOND_WITHIN", [], None), ("NEITHER_WITHIN", [], [])
    return {
        "status": statuses(),
        "layer": {name: getattr(rules, name) for name in ("SHEET", "RULE", "COMBINED", "REGISTER", "SEARCH", "CATALOGUE")},
        "side": {name: getattr(rules, name) for name in ("NEITHER", "FIRST", "SECOND", "PAIR")},
        "settlement_number": {name: getattr(calls, name) for name in ("SAME", "DIFFER")},
        "relation_number": {name: searches.relation_number(*words) for name, *words in relations},
    }


def names_agree(header):
    for name, numbers in names().items():
        if header.constants(name) != numbers:
            print(f"first disagreement: enum lanthuvel_{name}\n  header    {header.constants(name)}\n  reference {numbers}")
            return False
    return True


# The comparison.


def difference(wants, given):
    """Two values that are not the same, and for bytes the first place where they differ."""
    if not isinstance(wants, bytes) or not isinstance(given, bytes):
        return f"  reference {wants}\n  library   {given}"
    at = next(i for i, (one, other) in enumerate(zip(wants, given)) if one != other)
    return f"  reference {wants.hex()}\n  library   {given.hex()}\n  from byte {at} on; {GUARD} guard bytes stand before and behind"


def agrees(call, wants, given):
    """Whether a call left what it has to leave; if not, that is shown with all bytes."""
    if wants == given:
        return True
    print("first disagreement:", call.shown())
    for name in wants:
        if wants[name] != given[name]:
            print(f"{name}\n{difference(wants[name], given[name])}")
    return False


def run(library, call, pieces=ENOUGH):
    return library.call(call.name, call.given, call.rooms, call.null, pieces)


def agree_one_by_one(library, made, wants):
    return all(agrees(call, wanted, run(library, call)) for call, wanted in zip(made, wants))


def agree_side_by_side(library, made, wants):
    with concurrent.futures.ThreadPoolExecutor(THREADS) as threads:
        return all(map(agrees, made, wants, threads.map(run, [library] * len(made), made)))


def agree_without_memory(library, made, wants):
    """Each call with no piece of memory, with one, and so on, as far as any call asks for one more."""
    return all(agrees(call, wanted_short(library, call, wanted, pieces), run(library, call, pieces)) for call, wanted in zip(made, wants) for pieces in range(MOST_PIECES))


def print_counts(made, wants):
    """How many calls there are of each kind, and with each status."""
    for kind, number in collections.Counter(call.kind for call in made).items():
        print(f"{number:5} {kind}")
    statuses = collections.Counter((call.name, wanted["status"]) for call, wanted in zip(made, wants))
    for name in ANSWERS:
        print(f"{name}: " + ", ".join(f"{number} with {status}" for (of, status), number in sorted(statuses.items()) if of == name))


def main():
    if not __debug__:
        sys.exit("run it without -O: the reference tries itself as it goes")
    path, header, seed = sys.argv[1:]
    header = Header(pathlib.Path(header).read_text())
    library = Library(path, header)
    made = Calls(int(seed)).all()
    wants = [wanted(library, call) for call in made]
    print_counts(made, wants)
    if not names_agree(header):
        return 1
    for agree in (agree_one_by_one, agree_side_by_side, agree_without_memory):
        if not agree(library, made, wants):
            return 1
    print("all agree")
    return 0


if __name__ == "__main__":
    sys.exit(main())
