"""Searches, after docs/SEARCHES.md."""

from rules import COMBINED, FIRST, SEARCH, SECOND, Fault, difference, fits


def check_room(layer, states, cells, room):
    if cells < states:
        raise Fault(8, layer)
    if room < states:
        raise Fault(9, layer)


def trail(cells, at):
    """The letters on the way from cell 0 to a cell; the last two numbers of a cell are its origin and its letter. An origin that does not stand before its cell counts as 0."""
    letters = []
    while at > 0:
        origin, letter = cells[at][-2:]
        letters.append(letter)
        at = origin if origin < at else 0
    return letters[::-1]


def write_trail(cells, at, last, spare, room):
    """What is written to the two buffers, or None: the trail turned round, and the trail with the letters `last` behind it."""
    if at >= len(cells) or spare < at or room < at + len(last):
        return None
    way = trail(cells, at)
    return way[::-1], way + last


class Queue:
    """A queue over so many cells, of which only the states are kept."""

    def __init__(self, size):
        self.size = size
        self.noted = []
        self.waiting = []

    def note(self, state):
        if len(self.noted) == self.size:
            return False
        self.waiting.append((len(self.noted), state))
        self.noted.append(state)
        return True

    def take(self):
        return self.waiting.pop(0) if self.waiting else None

    def get(self, i):
        return (i, self.noted[i]) if i < len(self.noted) else None


def first_way(start, letters, step, ends):
    """The first word that leads from an item to one that `ends`, or None. The items that a word of each length leads to first are gathered, until one ends; then those of them
    on the way to such an item, from the last length back; and the word goes by the lowest letter that stays on the way."""
    levels = [{start}]
    met = {start}
    while levels[-1] and not any(map(ends, levels[-1])):
        following = {step(item, letter) for item in levels[-1] for letter in range(letters)} - met
        met |= following
        levels.append(following)
    if not levels[-1]:
        return None
    on_way = [{item for item in levels[-1] if ends(item)}]
    for level in levels[-2::-1]:
        on_way.append({item for item in level if any(step(item, letter) in on_way[-1] for letter in range(letters))})
    word = []
    item = start
    for nearer in on_way[-2::-1]:
        letter = next(letter for letter in range(letters) if step(item, letter) in nearer)
        word.append(letter)
        item = step(item, letter)
    return word


def first_word(rule):
    """The first kept word, or None."""
    return first_way(rule.start, rule.letters, lambda state, letter: rule.next[state][letter], lambda state: rule.kept[state])


def seek(rule):
    """The search for a kept state, step by step: the cells that are noted, and the word or None."""
    if rule.kept[rule.start]:
        return [], []
    cells = [(rule.start, 0, 0)]
    noted = {rule.start}
    taken = 0
    while taken < len(cells):
        for letter in range(rule.letters):
            to = rule.next[cells[taken][0]][letter]
            if to in noted:
                continue
            if rule.kept[to]:
                return cells, trail(cells, taken) + [letter]
            noted.add(to)
            cells.append((to, taken, letter))
        taken += 1
    return cells, None


def sought(rule):
    """The same, with the word of the other search beside it."""
    cells, word = seek(rule)
    assert word == first_word(rule), "two searches for the first kept word disagree"
    return cells, word


def first_kept(rule, cells, room):
    """The cells noted, and the word or None."""
    check_room(SEARCH, rule.count, cells, room)
    return sought(rule)


def relate(first, second, first_cells, first_room, second_cells, second_room):
    """What the two searches give."""
    states = first.count * second.count
    fault = fits(first, second, states)
    if fault:
        raise fault
    for number, given in ((8, (first_cells, second_cells)), (9, (first_room, second_room))):
        for side, room in zip((FIRST, SECOND), given):
            if room < states:
                raise Fault(number, SEARCH, side=side)
    only_first, only_second = sought(difference(first, second)), sought(difference(second, first))
    assert within(first, second) == (only_first[1] is None), "a word that only the first keeps"
    assert within(second, first) == (only_second[1] is None), "a word that only the second keeps"
    return only_first, only_second


def within(first, second):
    """Whether the second keeps all that the first keeps: over all pairs of states that some word leads to."""
    reached = {(first.start, second.start)}
    waiting = list(reached)
    while waiting:
        p, q = waiting.pop()
        if first.kept[p] and not second.kept[q]:
            return False
        for to in zip(first.next[p], second.next[q]):
            if to not in reached:
                reached.add(to)
                waiting.append(to)
    return True


def relation_number(only_first, only_second):
    """The number of a relation, by the two words or None."""
    return (0 if only_second is None else 1) if only_first is None else (2 if only_second is None else 3)
