"""Calls on the bytes of sheets, after docs/PROGRAMS.md and docs/CAPI.md."""

import rules
import searches
import sheets
from register import Register
from rules import FIRST, MOST_STATES, NEITHER, SECOND, Fault

# Numbers of settlements.
SAME, DIFFER = 0, 1


def opened(first, second):
    """The rules on two table sheets."""
    both = []
    for side, sheet in ((FIRST, first), (SECOND, second)):
        try:
            both.append(sheets.table(sheet))
        except Fault as refusal:
            raise refusal.on(side)
    return both


def settle(first, second, room=MOST_STATES):
    """How many joins were made or tried, which side keeps the first word that one alone keeps, and this word: NEITHER and None if there is none. The buffer for the word has so
    many bytes."""
    one, other = opened(first, second)
    states = one.count + other.count
    refusal = rules.fits(one, other, states)
    if refusal:
        raise refusal
    register = Register(rules.union(one, other))
    start = one.count + other.start
    noted, word = register.compare(one.start, start, states, room)
    if word is None:
        return len(noted), NEITHER, None
    return len(noted), FIRST if register.kept_by(one.start, start, word) else SECOND, word


def relate(first, second, first_room, second_room):
    """What the two searches give; their cells suffice for all that fit."""
    one, other = opened(first, second)
    return searches.relate(one, other, MOST_STATES, first_room, MOST_STATES, second_room)


def keeps(rule, word, automaton=None):
    """Whether a rule keeps a word. Where it is that of a nondeterministic automaton, which then is given too, the answer is also sought by a run of single states."""
    kept = rules.keeps(rule, word)
    assert automaton is None or kept == automaton.accepts(word), "the subset construction and the runs of single states disagree"
    return kept


def table_keeps(sheet, text):
    return keeps(sheets.table(sheet), rules.spelled("text", text))


def nfa_keeps(sheet, text):
    automaton = sheets.Automaton(sheet)
    return keeps(automaton.rule(), rules.spelled("text", text), automaton)
