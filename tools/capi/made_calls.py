"""Makes calls of the C interface from a number; docs/CAPI.md says what is in them."""

from dataclasses import dataclass

import cases
import sheets
from made import chain, cycle, disguised, nfa_sheet, random_rule, with_kept, with_step
from register import joined_with
from rules import MOST_STATES, Rule, complement

TABLE_REFUSALS = (1, 2, 3, 4)
NFA_REFUSALS = (1, 11, 2, 4)
SIDES = ("first", "second", "both")


def latest_parting(first, second):
    """Two rules of one letter that go round, of so many states, which are prime to each other. They part as late as may be: all words that are shorter leave two classes of states."""
    labels = list(range(first + second))
    for length in range(first + second - 2):
        labels = joined_with(labels, length % first, first + length % second)
    kept = [label == labels[0] for label in labels]
    return [Rule(count, 1, 0, tuple(of), cycle(count, 1, 0).next) for count, of in ((first, kept[:first]), (second, kept[first:]))]


@dataclass(frozen=True)
class Call:
    """A call: the slices that it reads, and how long the buffers are that it writes."""

    kind: str
    name: str
    given: tuple
    rooms: tuple
    null: bool

    def shown(self):
        slices = [f"  slice {i} ({len(data)} bytes) {data.hex() or '-'}" for i, data in enumerate(self.given, 1)]
        empty = "null pointers" if self.null else "no null pointers"
        return "\n".join([f"lanthuvel_{self.name}, one of: {self.kind}"] + slices + [f"  lengths of buffers {list(self.rooms)}; empty slices are {empty}"])


class Calls(cases.Cases):
    """Gathers calls, in kinds. What the cases of the crosscheck are made of serves here too."""

    def __init__(self, seed):
        super().__init__(seed)
        self.kind = None
        self.calls = []

    def call(self, name, given, rooms=()):
        self.calls.append(Call(self.kind, name, tuple(given), tuple(rooms), self.rng.random() < 0.5))

    def all(self):
        for kind, number, make in (
            ("pairs of tables with the same words", 300, self.same),
            ("random pairs of tables", 400, self.any_pair),
            ("pairs of tables that part late", 200, self.late),
            ("relations of each kind", 200, self.relation_of_kind),
            ("pairs of which sheets are refused", 480, self.refused_sheets),
            ("numbers of letters that differ", 100, self.other_letters),
            ("pairs of states around the bound", 60, self.many_pairs),
            ("buffers of each length", 400, self.buffers),
            ("empty sheets, texts and buffers", 100, self.empty),
            ("sheets damaged anyhow", 200, self.damaged),
            ("texts on tables", 600, self.table_text),
            ("texts on refused tables", 120, self.refused_table_text),
            ("texts on nondeterministic automata", 300, self.nfa_text),
            ("texts on refused sheets of such", 200, self.refused_nfa_text),
            ("of full size", 1, self.full),
        ):
            self.kind = kind
            for _ in range(number):
                make()
        return self.calls

    # Pairs of tables.

    def both(self, first, second):
        """Settles and relates two rules, with buffers that suffice."""
        rng = self.rng
        given = [sheets.write_table(rule) for rule in (first, second)]
        if rng.random() < 0.5:
            given.reverse()
        states, pairs = first.count + second.count, min(first.count * second.count, MOST_STATES)
        self.call("settle", given, [rng.choice((states, states + 7, 2048))])
        self.call("relate", given, [rng.choice((pairs, pairs + 7, 4096)) for _ in range(2)])

    def same(self):
        base = self.base()
        self.both(disguised(self.rng, base, 24), disguised(self.rng, base, 24))

    def any_pair(self):
        rng = self.rng
        letters, kept = rng.choice((1, 1, 2, 3, 4, 15, 16)), rng.choice((0.1, 0.5, 0.9))
        self.both(*(random_rule(rng, rng.randrange(1, 13), letters, kept) for _ in range(2)))

    def late(self):
        rng = self.rng
        count, letters = rng.choice((5, 10, 20, 30, 40)), rng.randrange(1, 4)
        base = chain(rng, count, letters, rng.choice((0, 0.2)))
        other = with_kept(base, count - 1)
        if rng.random() < 0.3:
            other = with_step(rng, other, count - 1)
        self.both(disguised(rng, base, count + 6), disguised(rng, other, count + 6))

    def relation_of_kind(self):
        self.both(*self.related_pair(self.turn("relation", range(4))))

    # Pairs that are refused.

    def small_table(self):
        """A rule of few states, and its sheet."""
        rule = random_rule(self.rng, self.rng.randrange(1, 6), self.rng.randrange(1, 4))
        return rule, sheets.write_table(rule)

    def refused_with(self, number):
        """A table sheet that is refused with this number."""
        while True:
            rule, data = self.small_table()
            bad = self.damaged_as(number, data, rule.count, rule.letters)
            if cases.refusal_of(sheets.table, bad) == number:
                return bad

    def refused_sheets(self):
        """The first sheet, the second or both are refused, with each number in turn; buffers may be short besides."""
        rng = self.rng
        number, side = self.turn("refused", [(number, side) for number in TABLE_REFUSALS for side in SIDES])
        first, second = (self.small_table()[1] for _ in range(2))
        if side == "both":
            first, second = self.refused_with(number), self.refused_with(rng.choice(TABLE_REFUSALS))
        elif side == "first":
            first = self.refused_with(number)
        else:
            second = self.refused_with(number)
        self.call("settle", (first, second), [rng.randrange(20)])
        self.call("relate", (first, second), [rng.randrange(40) for _ in range(2)])

    def damaged(self):
        """A damaged sheet on one side, and as a sheet of either kind; it may be accepted still."""
        rng = self.rng
        rule, whole = self.small_table()
        bad = self.damage(whole)
        given = (bad, whole) if rng.random() < 0.5 else (whole, bad)
        self.call("settle", given, [2048])
        self.call("relate", given, [4096, 4096])
        self.call("table_keeps", (bad, self.text_of(rule.letters, 8)))
        self.call("nfa_keeps", (self.damage(nfa_sheet(rng, rng.randrange(1, 6), 2)), self.text_of(2, 8)))

    def other_letters(self):
        """Numbers of letters that differ, sometimes with too many pairs of states, and with short buffers."""
        rng = self.rng
        given = [sheets.write_table(rule) for rule in self.misfits(5)]
        self.call("settle", given, [rng.choice((0, 5, 2048))])
        self.call("relate", given, [rng.choice((0, 5, 4096)) for _ in range(2)])

    def many_pairs(self):
        """Just as many pairs of states as may be, a few more or fewer, and many more."""
        rng = self.rng
        counts = self.turn("pairs", ((64, 64), (17, 241), (63, 65), (4, 1024), (1024, 4), (5, 820), (65, 64), (100, 200)))
        letters = rng.randrange(1, 3)
        given = [sheets.write_table(random_rule(rng, count, letters, rng.choice((0.02, 0.5)))) for count in counts]
        self.call("relate", given, [rng.choice((0, 4095, 4096, 4096, 4096)) for _ in range(2)])

    def buffers(self):
        """Buffers with nothing, one byte too few, just enough, and more, in turn."""
        rng = self.rng
        letters = rng.randrange(1, 4)
        first, second = (random_rule(rng, rng.randrange(1, 8), letters, rng.choice((0.1, 0.5))) for _ in range(2))
        given = [sheets.write_table(rule) for rule in (first, second)]
        states, pairs = first.count + second.count, first.count * second.count
        less, more = self.turn("rooms", [(one, other) for one in (0, 1, 2, 3) for other in (0, 1, 2, 3)])
        self.call("settle", given, [(0, states - 1, states, states + 1 + rng.randrange(40))[less]])
        rooms = 0, pairs - 1, pairs, pairs + 1 + rng.randrange(40)
        self.call("relate", given, [rooms[less], rooms[more]])

    def empty(self):
        """No sheet, no text, or no buffer."""
        rng = self.rng
        data = rng.choice((b"", self.small_table()[1]))
        given = rng.choice(((b"", data), (data, b""), (data, data)))
        self.call("settle", given, [0])
        self.call("relate", given, rng.choice(((0, 0), (0, 4096), (4096, 0))))
        text = rng.choice((b"", b"a", b"z"))
        self.call("table_keeps", *[rng.choice(((b"", text), (self.small_table()[1], b"")))])
        self.call("nfa_keeps", *[rng.choice(((b"", text), (nfa_sheet(rng, rng.randrange(1, 5), 2), b"")))])

    # Texts.

    def text_of(self, letters, longest, stray=0.4):
        """A text of the letters that are there, and sometimes of others or of bytes that are no letters."""
        rng = self.rng
        data = bytearray(97 + rng.randrange(letters) for _ in range(rng.randrange(longest + 1)))
        if data and rng.random() < stray:
            for _ in range(rng.choice((1, 1, 2, 3))):
                data[rng.randrange(len(data))] = rng.choice((97 + letters, 112, 113, 96, 65, 0, 10, 15, 255, rng.randrange(256)))
        return bytes(data)

    def table_text(self):
        rng = self.rng
        letters = rng.choice((1, 2, 2, 3, 15, 16))
        rule = rng.choice((random_rule, chain))(rng, rng.randrange(1, 20), letters, 0.5)
        self.call("table_keeps", (sheets.write_table(rule), self.text_of(letters, 30)))

    def refused_table_text(self):
        self.call("table_keeps", (self.refused_with(self.turn("refused table", TABLE_REFUSALS)), self.text_of(3, 8)))

    def nfa_text(self):
        """Of 1 to 10 own states, in turn."""
        rng = self.rng
        own, letters = self.turn("own", range(1, 11)), rng.choice((1, 2, 2, 3, 4, 16))
        sheet = nfa_sheet(rng, own, letters, rng.choice((0.05, 0.15, 0.3)))
        self.call("nfa_keeps", (sheet, self.text_of(letters, 20)))

    def refused_nfa_text(self):
        self.call("nfa_keeps", (self.refused_nfa(self.turn("refused nfa", NFA_REFUSALS)), self.text_of(2, 8)))

    def refused_nfa(self, number):
        """A sheet of a nondeterministic automaton that is refused with this number; with too many own states, sometimes as long as it would have to be."""
        rng = self.rng
        if number == 11 and rng.random() < 0.5:
            return nfa_sheet(rng, rng.randrange(11, 17), rng.randrange(1, 17))
        while True:
            bad = self.damaged_nfa_as(number, nfa_sheet(rng, rng.randrange(1, 6), rng.randrange(1, 5)))
            if cases.refusal_of(sheets.nfa, bad) == number:
                return bad

    # Sheets and words as large as may be.

    def full(self):
        self.full_pairs()
        self.full_relations()
        self.full_texts()

    def full_pairs(self):
        """Of 1,000 states and more: with the same words, and with ones that part late; buffers just as long as is asked for, and one byte too short."""
        rng = self.rng
        base = chain(rng, 1000, 16, 0.3)
        self.call("settle", [sheets.write_table(disguised(rng, base)) for _ in range(2)], [2048])
        one, other = self.late_copies()
        self.call("settle", (one, one), [2048])
        self.call("settle", (one, other), [2048])
        self.call("settle", (one, other), [2047])
        self.call("relate", (one, other), (4096, 4096))
        self.call("settle", (one, other[:-1]), [2048])
        self.call("settle", (one + b"\0", other), [2048])
        long = chain(rng, 1024, 2)
        self.call("settle", [sheets.write_table(rule) for rule in (long, with_kept(long, 1023))], [2048])
        for room in (2047, 2046):
            self.call("settle", [sheets.write_table(rule) for rule in latest_parting(1024, 1023)], [room])

    def full_relations(self):
        """Of as many pairs of states as may be, or almost, some with a word of 4,094 letters."""
        rng = self.rng
        for first, second in (
            (cycle(64, 1, 63), cycle(64, 1, 5)),
            (cycle(63, 1, 62), complement(cycle(65, 1, 64))),
            (complement(cycle(65, 1, 64)), cycle(63, 1, 62)),
            (random_rule(rng, 1024, 16, 0.001), random_rule(rng, 4, 16, 0.5)),
        ):
            self.call("relate", [sheets.write_table(rule) for rule in (first, second)], (4096, 4096))

    def full_texts(self):
        rng = self.rng
        largest = sheets.write_table(random_rule(rng, 1024, 16))
        for text in (self.text_of(16, 50000, 0), self.text_of(16, 50000, 1), b"p" * 100000, b""):
            self.call("table_keeps", (largest, text))
        for dense in (0.05, 0.15):
            sheet = nfa_sheet(rng, 10, 16, dense)
            self.call("nfa_keeps", (sheet, self.text_of(16, 300, 0)))
            self.call("nfa_keeps", (sheet + b"\0", self.text_of(16, 300, 0)))
