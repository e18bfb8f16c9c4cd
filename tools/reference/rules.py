"""Rules as plain values, after docs/RULES.md and docs/REFUSALS.md."""

from dataclasses import dataclass

# Layers, sides and the most states of a combination.
SHEET, RULE, COMBINED, REGISTER, SEARCH, CATALOGUE = 1, 2, 3, 4, 5, 6
NEITHER, FIRST, SECOND, PAIR = 0, 1, 2, 3
MOST_STATES = 4096


@dataclass(frozen=True)
class Fault(Exception):
    """A refusal."""

    number: int
    layer: int
    place: int = 0
    letter: int = 0
    side: int = NEITHER

    def on(self, side):
        return Fault(self.number, self.layer, self.place, self.letter, side)


@dataclass(frozen=True)
class Rule:
    """A complete deterministic automaton: its states are the numbers below `count`."""

    count: int
    letters: int
    start: int
    kept: tuple
    next: tuple

    def kept_at(self, state):
        if state >= self.count:
            raise Fault(7, RULE)
        return self.kept[state]

    def next_from(self, state, letter):
        if state >= self.count:
            raise Fault(7, RULE)
        if letter >= self.letters:
            raise Fault(10, RULE)
        return self.next[state][letter]


BLANK = Rule(1, 1, 0, (False,), ((0,),))


def complement(rule):
    return Rule(rule.count, rule.letters, rule.start, tuple(not kept for kept in rule.kept), rule.next)


def fits(first, second, states):
    """The refusal of two rules that do not fit, or None."""
    if first.letters != second.letters:
        return Fault(5, COMBINED, side=PAIR)
    if states > MOST_STATES:
        return Fault(6, COMBINED, side=PAIR)
    return None


def product(first, second, keeps):
    """The pairs of states, numbered row by row; a pair is kept as `keeps` says of its two states."""
    if fits(first, second, first.count * second.count):
        return BLANK
    pairs = [(p, q) for p in range(first.count) for q in range(second.count)]
    number = {pair: i for i, pair in enumerate(pairs)}
    return Rule(
        len(pairs),
        first.letters,
        number[first.start, second.start],
        tuple(keeps(first.kept[p], second.kept[q]) for p, q in pairs),
        tuple(tuple(number[to] for to in zip(first.next[p], second.next[q])) for p, q in pairs),
    )


def intersection(first, second):
    return product(first, second, lambda one, other: one and other)


def difference(first, second):
    return product(first, second, lambda one, other: one and not other)


def union(first, second):
    """The states of both, side by side."""
    if fits(first, second, first.count + second.count):
        return BLANK
    raised = tuple(tuple(first.count + to for to in row) for row in second.next)
    return Rule(first.count + second.count, first.letters, first.start, first.kept + second.kept, first.next + raised)


def spelled(form, data):
    """The letters that bytes stand for; a byte of a text that is no letter stands for None."""
    if form == "numbers":
        return list(data)
    return ["abcdefghijklmnop".find(chr(byte)) if chr(byte) in "abcdefghijklmnop" else None for byte in data]


def walk(rule, state, word):
    if state >= rule.count:
        raise Fault(7, RULE)
    for position, letter in enumerate(word):
        if letter is None or letter >= rule.letters:
            raise Fault(10, RULE, place=position)
        state = rule.next[state][letter]
    return state


def keeps(rule, word):
    return rule.kept[walk(rule, rule.start, word)]
