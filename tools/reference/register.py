"""The register, after docs/REGISTER.md."""

from rules import REGISTER, Fault
from searches import check_room, first_way, trail


def first_separating(rule, p, q):
    """The first word that separates two states, or None: over pairs of states, none of which are made one."""
    return first_way(
        (p, q),
        rule.letters,
        lambda pair, letter: (rule.next[pair[0]][letter], rule.next[pair[1]][letter]),
        lambda pair: rule.kept[pair[0]] != rule.kept[pair[1]],
    )


def closure(rule, pairs):
    """The smallest right-invariant equivalence that holds some pairs: the lowest state of the class of each. Pairs are made one, and then the next states of any two of a class,
    until nothing changes."""
    lowest = list(range(rule.count))
    for p, q in pairs:
        lowest = joined_with(lowest, p, q)
    changed = True
    while changed:
        changed = False
        for state in range(rule.count):
            for one, other in zip(rule.next[state], rule.next[lowest[state]]):
                if lowest[one] != lowest[other]:
                    lowest = joined_with(lowest, one, other)
                    changed = True
    return lowest


def joined_with(labels, p, q):
    """The labels with two classes made one, written anew as a whole."""
    low, high = sorted((labels[p], labels[q]))
    return [low if label == high else label for label in labels]


def compare_by_steps(rule, labels, p, q):
    """The steps of comparing: the labels afterwards, the noted cells, and the word or None."""
    if labels[p] == labels[q]:
        return labels, [], None
    if rule.kept[p] != rule.kept[q]:
        return labels, [], []
    before = labels
    labels = joined_with(labels, p, q)
    cells = [(p, q, 0, 0)]
    taken = 0
    while taken < len(cells):
        for letter in range(rule.letters):
            x, y = rule.next[cells[taken][0]][letter], rule.next[cells[taken][1]][letter]
            if labels[x] == labels[y]:
                continue
            if rule.kept[x] != rule.kept[y]:
                return before, cells, trail(cells, taken) + [letter]
            labels = joined_with(labels, x, y)
            cells.append((x, y, taken, letter))
        taken += 1
    return labels, cells, None


class Register:
    """A register over a rule. It keeps the pairs that were answered "same" and the sum of their joins, and tries its answers against them."""

    def __init__(self, rule):
        self.rule = rule
        self.clear()

    def clear(self):
        self.labels = list(range(self.rule.count))
        self.pairs = []
        self.joins = 0

    def check_states(self, p, q):
        if p >= self.rule.count or q >= self.rule.count:
            raise Fault(7, REGISTER)

    def joined(self, p, q):
        self.check_states(p, q)
        return self.labels[p] == self.labels[q]

    def class_count(self):
        return len(set(self.labels))

    def compare(self, p, q, cells, room):
        """The noted cells, and the word or None."""
        self.check_states(p, q)
        check_room(REGISTER, self.rule.count, cells, room)
        labels, noted, word = compare_by_steps(self.rule, self.labels, p, q)
        assert word == first_separating(self.rule, p, q), "the steps and the search over all pairs disagree"
        if word is None:
            self.labels = labels
            self.pairs.append((p, q))
            self.joins += len(noted)
            self.check_law()
        return noted, word

    def check_law(self):
        """The joined states are those of the smallest right-invariant equivalence that holds the pairs, and the classes and joins add up to the states."""
        if self.rule.count <= 400:
            assert self.labels == closure(self.rule, self.pairs), "the joined states are not the smallest equivalence"
        assert self.class_count() + self.joins == self.rule.count, "classes and joins do not add up"

    def kept_by(self, p, q, word):
        """The one of two states that keeps a word."""
        for letter in word:
            p, q = self.rule.next[p][letter], self.rule.next[q][letter]
        return self.rule.kept[p]
