"""Sheets as rows of single bits, after docs/SHEETS.md."""

from rules import BLANK, SHEET, Fault, Rule


def bits_of(data):
    return "".join(format(byte, "08b") for byte in data)


def bytes_of(bits):
    bits += "0" * (-len(bits) % 8)
    return int(bits, 2).to_bytes(len(bits) // 8, "big") if bits else b""


def read_field(data, at, width):
    bits = bits_of(data)
    if at + width > len(bits):
        raise Fault(1, SHEET)
    return int(bits[at : at + width] or "0", 2)


def write_field(data, at, width, value):
    """The bytes afterwards."""
    bits = bits_of(data)
    if at + width > len(bits):
        raise Fault(1, SHEET)
    field = format(value, "016b")[16 - width :]
    return bytes_of(bits[:at] + field + bits[at + width :])


class Bits:
    """Takes fields off a row of bits."""

    def __init__(self, data):
        self.bits = bits_of(data)
        self.at = 0

    def take(self, width):
        field = self.bits[self.at : self.at + width]
        self.at += width
        return field

    def number(self, width):
        return int(self.take(width), 2)

    def is_filled(self):
        """Whether one of the bits left is 1."""
        return "1" in self.bits[self.at :]


def table(data):
    """The rule on a table sheet."""
    if len(data) < 2:
        raise Fault(1, SHEET)
    bits = Bits(data)
    letters, count = bits.number(4) + 1, bits.number(10) + 1
    if len(data) != -(-(14 + count * (1 + 10 * letters)) // 8):
        raise Fault(2, SHEET)
    kept, next_states = [], []
    for _ in range(count):
        kept.append(bits.take(1) == "1")
        next_states.append(tuple(bits.number(10) for _ in range(letters)))
    for state, row in enumerate(next_states):
        for letter, to in enumerate(row):
            if to >= count:
                raise Fault(3, SHEET, place=state, letter=letter)
    if bits.is_filled():
        raise Fault(4, SHEET)
    return Rule(count, letters, 0, tuple(kept), tuple(next_states))


def write_table(rule):
    """The table sheet of a rule that starts at state 0."""
    rows = (str(int(kept)) + "".join(format(to, "010b") for to in row) for kept, row in zip(rule.kept, rule.next))
    return bytes_of(format(rule.letters - 1, "04b") + format(rule.count - 1, "010b") + "".join(rows))


class Automaton:
    """A nondeterministic automaton, in single states."""

    def __init__(self, data):
        if not data:
            raise Fault(1, SHEET)
        bits = Bits(data)
        self.letters, self.own = bits.number(4) + 1, bits.number(4) + 1
        if self.own > 10:
            raise Fault(11, SHEET)
        if len(data) != -(-(8 + self.own * (2 + self.own * self.letters)) // 8):
            raise Fault(2, SHEET)
        self.starts, self.kept = self.members(bits), self.members(bits)
        self.arrows = {(state, letter): self.members(bits) for state in range(self.own) for letter in range(self.letters)}
        if bits.is_filled():
            raise Fault(4, SHEET)

    def members(self, bits):
        """A set of own states: the first bit stands for own state 0."""
        return frozenset(state for state, bit in enumerate(bits.take(self.own)) if bit == "1")

    def accepts(self, word):
        """Whether some run of single states leads from a start to a kept state. The runs are followed one by one."""

        def leads(state, i):
            if i == len(word):
                return state in self.kept
            if (state, i) not in dead and any(leads(to, i + 1) for to in sorted(self.arrows[state, word[i]])):
                return True
            dead.add((state, i))
            return False

        dead = set()
        return any(leads(state, 0) for state in sorted(self.starts))

    def rule(self):
        """The subset construction, over sets of single states."""
        sets = [frozenset(state for state in range(self.own) if format(number, f"0{self.own}b")[state] == "1") for number in range(2**self.own)]
        number = {members: i for i, members in enumerate(sets)}

        def step(members, letter):
            return number[frozenset().union(*(self.arrows[state, letter] for state in members))]

        return Rule(
            len(sets),
            self.letters,
            number[self.starts],
            tuple(bool(members & self.kept) for members in sets),
            tuple(tuple(step(members, letter) for letter in range(self.letters)) for members in sets),
        )


def nfa(data):
    """The rule on the sheet of a nondeterministic automaton."""
    return Automaton(data).rule()


class TableHolder:
    """Holds the rule of the table sheet that was opened last."""

    automaton = None

    def __init__(self):
        self.rule = BLANK

    def open(self, data):
        self.rule = table(data)


class NfaHolder:
    """Holds the nondeterministic automaton of the sheet that was opened last, and its rule; at first the blank rule, of no such automaton."""

    def __init__(self):
        self.rule = BLANK
        self.automaton = None

    def open(self, data):
        automaton = Automaton(data)
        self.rule, self.automaton = automaton.rule(), automaton
