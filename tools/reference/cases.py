"""Makes cases from a number; docs/CROSSCHECK.md says what is in them."""

import random

import catalogue
import searches
import sheets
from answers import Answers
from made import chain, cycle, disguised, hexed, nfa_sheet, random_rule, random_word, table, with_kept, with_step
from rules import FIRST, SECOND, Fault, Rule

# The refusals of a relation for want of room: the number, and the search that has too little.
WANTS_OF_ROOM = ((8, FIRST), (8, SECOND), (9, FIRST), (9, SECOND))
# Rules on sheets that are refused.
REFUSED = ("T -", "T 00", "T 000200", "T 00020081", "T 00020001", "N -", "N 0a", "N 01", "N 000f")


def refusal_of(read, data):
    """The number of the refusal of some bytes, or None."""
    try:
        read(data)
        return None
    except Fault as refusal:
        return refusal.number


def relation_of(one, other):
    """The number of the relation of two rules with the same letters."""
    return {(True, True): 0, (True, False): 1, (False, True): 2, (False, False): 3}[searches.within(one, other), searches.within(other, one)]


class Cases:
    """Gathers the lines of cases, and counts the cases of each kind."""

    def __init__(self, seed):
        self.rng = random.Random(seed)
        self.lines = []
        self.counts = {}
        self.turns = {}

    def add(self, *lines):
        self.lines.extend(lines)

    def make(self, kind, number, case):
        for _ in range(number):
            case()
        self.counts[kind] = self.counts.get(kind, 0) + number

    def turn(self, name, kinds):
        """The next of some kinds. They come in turn, so that none is left out."""
        at = self.turns.get(name, 0)
        self.turns[name] = at + 1
        return kinds[at % len(kinds)]

    def text(self):
        """All cases, as one text."""
        self.make("fields of bits", 200, self.field)
        self.make("checks of room", 50, self.room)
        self.make("trails of any cells", 150, self.trail)
        self.make("queues", 100, self.queue)
        self.make("pairs of sheets with the same words", 400, self.same_pair)
        self.make("pairs that part late", 400, self.late_pair)
        self.make("pairs of sheets that are refused", 100, self.refused_pair)
        self.make("damaged table sheets", 250, self.damaged_table)
        self.make("damaged sheets of nondeterministic automata", 200, self.damaged_nfa)
        self.make("nondeterministic automata", 200, self.nondeterministic)
        self.make("combinations", 300, self.combination)
        self.make("lists of calls on a register", 300, self.register_list)
        self.make("first kept words", 200, self.first_word)
        self.make("relations", 200, self.relation)
        self.make("relations of other rules than tables", 100, self.combined_relation)
        self.make("walks and judged words", 100, self.walked)
        self.make("catalogues", 200, self.catalogue)
        self.full_size()
        return "".join(line + "\n" for line in self.lines)

    # Fields of bits.

    def field(self):
        rng = self.rng
        data = hexed(rng.randbytes(rng.randrange(7)))
        at, width = rng.randrange(56), rng.randrange(18)
        self.add(f"read {data} {at} {width}")
        self.add(f"write {data} {at} {width} {rng.choice((0, 1, 65535, rng.randrange(65536)))}")

    # Room, trails and queues.

    def room(self):
        rng = self.rng
        states = rng.choice((1, 2, rng.randrange(1, 4097), 4096))
        cells, room = (max(0, states + rng.choice((-states, -1, 0, 1))) for _ in range(2))
        self.add(f"room {states} {cells} {room}")


    def trail(self):
        """Cells with any origins, most of which stand before their cell."""
        rng = self.rng
        size = rng.randrange(12)
        origins = [rng.randrange(i + 1) if rng.random() < 0.8 else rng.randrange(15) for i in range(size)]
        data = hexed(bytes(byte for origin in origins for byte in (origin, rng.randrange(rng.choice((16, 256))))))
        for last in ("", "", f" {rng.randrange(256)}"):
            at = rng.randrange(max(1, size)) if rng.random() < 0.9 else rng.choice((size, size + 1, 2**64 - 1))
            near = min(at, 20)
            spare, room = (max(0, near + rng.choice((-1, 0, 0, 1, 1, 2, 3))) for _ in range(2))
            self.add(f"{'longer' if last else 'trail'}{last} {rng.choice(('states', 'pairs'))} {data} {at} {spare} {room}")

    def queue(self):
        rng = self.rng
        calls = []
        for _ in range(rng.randrange(25)):
            calls.append(rng.choice((f"note {rng.randrange(1000)}", f"note {rng.randrange(1000)}", "take", "take", f"get {rng.choice((0, 1, 2, 3, 9))}", "noted", "cells")))
        self.add(" ".join([f"queue {rng.randrange(8)}"] + calls))

    # Pairs of table sheets.

    def base(self):
        rng = self.rng
        count, letters = rng.randrange(1, 9), rng.randrange(1, 4)
        return random_rule(rng, count, letters, rng.choice((0.1, 0.5, 0.9))) if rng.random() < 0.6 else chain(rng, count, letters, 0.3)

    def pair(self, first, second):
        """The calls on two sheets, and on the disjoint union of their rules."""
        rng = self.rng
        one, other = hexed(sheets.write_table(first)), hexed(sheets.write_table(second))
        if rng.random() < 0.5:
            one, other, first, second = other, one, second, first
        self.add(f"settle {one} {other}")
        states, product = first.count + second.count, first.count * second.count
        if rng.random() < 0.5 and product < 1000:
            rooms = [max(0, product + rng.choice((0, 0, 0, 1, 5, -1))) for _ in range(2)]
            self.add(f"sheets {one} {other} {rooms[0]} {rooms[1]}")
        if rng.random() < 0.5:
            self.add(f"rule U T {one} T {other}", f"compare 0 {first.count} {states} {states}", "count", f"compare {first.count} 0 {states + 2} {states + 3}", "end")

    def same_pair(self):
        base = self.base()
        self.pair(disguised(self.rng, base, 24), disguised(self.rng, base, 24))

    def late_pair(self):
        rng = self.rng
        count, letters = rng.choice((5, 10, 20, 30, 40)), rng.randrange(1, 4)
        base = chain(rng, count, letters, rng.choice((0, 0.2)))
        second = with_kept(base, count - 1) if rng.random() < 0.7 else with_step(rng, with_kept(base, count - 1), count - 1)
        self.pair(disguised(rng, base, count + 6), disguised(rng, second, count + 6))

    def refused_pair(self):
        """The first sheet, the second or both are refused, or the numbers of letters differ; or one of the two buffers is too short, which only a relation refuses."""
        rng = self.rng
        kind = self.turn("refused pair", ("first", "second", "both", "letters", "first room", "second room"))
        first, second = (random_rule(rng, rng.randrange(1, 5), letters) for letters in ((1, 2) if kind == "letters" else (2, 2)))
        if rng.random() < 0.5:
            first, second = second, first
        one, other = sheets.write_table(first), sheets.write_table(second)
        if kind in ("first", "both"):
            one = self.refused_table(one)
        if kind in ("second", "both"):
            other = self.refused_table(other)
        rooms = [rng.randrange(30) for _ in range(2)]
        if kind.endswith("room"):
            states = first.count * second.count
            rooms = [rng.randrange(states), states] if kind == "first room" else [states, rng.randrange(states)]
        self.add(f"settle {hexed(one)} {hexed(other)}", f"sheets {hexed(one)} {hexed(other)} {rooms[0]} {rooms[1]}")

    # Damaged sheets.

    def damage(self, data):
        """A sheet in whose bytes something was changed."""
        rng = self.rng
        data = bytearray(data)
        for _ in range(rng.choice((1, 1, 2))):
            kind = rng.randrange(6)
            if kind == 0:
                data = data[: rng.choice((0, 1, 2, max(0, len(data) - 1)))]
            elif kind == 1:
                data += rng.randbytes(rng.randrange(1, 3))
            elif data and kind == 2:
                data[-1] |= 1 << rng.randrange(3)
            elif data and kind == 3:
                data[0] = rng.randrange(256)
            elif data:
                data[rng.randrange(len(data))] ^= 1 << rng.randrange(8)
        return bytes(data)

    def refused_table(self, data):
        """A damaged table sheet that is refused."""
        while True:
            damaged = self.damage(data)
            if refusal_of(sheets.table, damaged) is not None:
                return damaged

    def opening(self, data):
        return f"{self.rng.choice(('open', 'replace'))} {hexed(data)}"

    def questions(self, letters, longest=8, number=2):
        for _ in range(number):
            self.add("keeps " + random_word(self.rng, letters, longest))

    def damaged_table(self):
        """The sheet is refused with each number in turn, and every sixth one is damaged anyhow, and may be accepted."""
        rng = self.rng
        number = self.turn("damaged table", (1, 2, 3, 3, 4, 0))
        while True:
            count, letters = rng.randrange(1, 12), rng.randrange(1, 6)
            data = sheets.write_table(random_rule(rng, count, letters))
            bad = self.damaged_as(number, data, count, letters)
            if number in (0, refusal_of(sheets.table, bad)):
                break
        self.add("table")
        if rng.random() < 0.7:
            self.add(self.opening(data))
        self.add(self.opening(bad))
        self.questions(letters)
        if rng.random() < 0.5:
            self.add(self.opening(sheets.write_table(random_rule(rng, rng.randrange(1, 5), rng.randrange(1, 4)))))
            self.add(self.opening(self.damage(data)))
        self.add("end")

    def damaged_as(self, number, data, count, letters):
        """A table sheet with damage that is refused with this number, where there is room for it; with further damage that comes later in the order, sometimes."""
        rng = self.rng
        bits = list(sheets.bits_of(data))
        if number == 1:
            return data[: rng.randrange(2)]
        if number == 3 and count < 1024:
            for _ in range(rng.randrange(1, 4)):
                state, letter = rng.randrange(count), rng.randrange(letters)
                at = 14 + state * (1 + 10 * letters) + 1 + 10 * letter
                bits[at : at + 10] = format(rng.choice((count, 1023, rng.randrange(count, 1024))), "010b")
        filled = 14 + count * (1 + 10 * letters)
        if filled < len(bits) and (number == 4 or rng.random() < 0.3):
            bits[rng.randrange(filled, len(bits))] = "1"
        data = sheets.bytes_of("".join(bits))
        if number == 2:
            return data[: max(2, len(data) - 1)] if rng.random() < 0.5 else data + b"\0"
        return data if number else self.damage(data)

    def damaged_nfa(self):
        """The sheet is refused with each number in turn, and every fifth one is damaged anyhow, and may be accepted."""
        rng = self.rng
        number = self.turn("damaged nfa", (1, 11, 2, 4, 0))
        while True:
            own, letters = rng.randrange(1, 6), rng.randrange(1, 5)
            data = nfa_sheet(rng, own, letters)
            bad = self.damaged_nfa_as(number, data)
            if number in (0, refusal_of(sheets.nfa, bad)):
                break
        self.add("nfa")
        if rng.random() < 0.7:
            self.add(self.opening(data))
        self.add(self.opening(bad))
        self.questions(letters)
        if rng.random() < 0.4:
            self.add(self.opening(nfa_sheet(rng, rng.randrange(1, 5), rng.randrange(1, 4))), self.opening(self.damage(data)))
        self.add("end")

    def damaged_nfa_as(self, number, data):
        """The sheet of a nondeterministic automaton with damage that is refused with this number, where there is room for it."""
        rng = self.rng
        if number == 1:
            return b""
        if number == 11:
            return bytes([rng.randrange(16) * 16 + rng.randrange(10, 16)]) + data[1 : rng.choice((1, len(data)))]
        if number == 2:
            return data[:-1] if rng.random() < 0.5 else data + rng.choice((b"\0", b"\1"))
        return data[:-1] + bytes([data[-1] | 1]) if number else self.damage(data)

    # Nondeterministic automata.

    def nondeterministic(self):
        rng = self.rng
        own, letters = rng.randrange(1, 7), rng.randrange(1, 4)
        states = 2**own
        sheet = hexed(nfa_sheet(rng, own, letters, rng.choice((0.1, 0.3, 0.5))))
        self.add(f"rule N {sheet}")
        self.questions(letters, 10, 4)
        for _ in range(2):
            self.add(f"compare {rng.randrange(states)} {rng.randrange(states)} {states} {states}")
        self.add("count", f"first {states} {states}", "walk " + f"{rng.randrange(states + 1)} " + random_word(rng, letters, 10), "end")

    # Combinations.

    def leaf(self, letters, most):
        """A rule on a sheet; sometimes one that is refused."""
        rng = self.rng
        kind = rng.random()
        if kind < 0.03:
            return rng.choice(("T 00", "N 0a", "T 00020081"))
        if kind < 0.25:
            return "N " + hexed(nfa_sheet(rng, rng.randrange(1, min(most.bit_length(), 6)), letters))
        return table(random_rule(rng, rng.randrange(1, most + 1), letters))

    def nest(self, depth, letters, most, strange):
        """A combination; each rule in it has other letters as often as `strange` says."""
        rng = self.rng
        if depth == 0 or rng.random() < 0.15:
            return self.leaf(letters if rng.random() >= strange else rng.randrange(1, 4), most)
        kind = rng.choice("CIUD")
        parts = [self.nest(depth - 1, letters, most, strange) for _ in range(1 if kind == "C" else 2)]
        return " ".join([kind] + parts)

    def combination(self):
        rng = self.rng
        letters = rng.choice((1, 1, 2, 3))
        most, strange = rng.choice(((4, 0), (4, 0), (5, 0.02), (5, 0.3), (90, 0)))
        while True:
            text = self.nest(rng.choice((1, 2, 3, 3)), letters, most, strange)
            placed = []
            states = Answers("").part_of(text.split(" "), placed, [])[0].count
            if states <= 150 and (most < 90 or any("fault" in line for height, line in placed)):
                break
        self.add("rule " + text)
        self.questions(letters, 8, 2)
        self.add(f"walk {rng.randrange(states + 1)} " + random_word(rng, letters, 8))
        self.add(f"kept {rng.randrange(states + 2)}", f"next {rng.randrange(states + 2)} {rng.randrange(letters + 1)}")
        self.add(f"first {states} {states}")
        self.add(f"compare {rng.randrange(states)} {rng.randrange(states)} {states} {states}", "count", "end")

    # Lists of calls on a register.

    def register_list(self):
        rng = self.rng
        letters = rng.randrange(1, 4)
        kind = rng.randrange(4)
        if kind == 0:
            own = rng.randrange(2, 5)
            text, states = "N " + hexed(nfa_sheet(rng, own, letters)), 2**own
        elif kind == 1:
            base = random_rule(rng, rng.randrange(1, 4), letters)
            one, other = disguised(rng, base, 7), disguised(rng, base if rng.random() < 0.8 else with_kept(base, 0), 7)
            kind = rng.choice("UUUI")
            text, states = f"{kind} {table(one)} {table(other)}", one.count + other.count if kind == "U" else one.count * other.count
        else:
            one = disguised(rng, random_rule(rng, rng.randrange(1, 6), letters), 14)
            text, states = table(one), one.count
        self.add("rule " + text)
        calls = [self.register_call(states) for _ in range(rng.randrange(9, 40))]
        calls.insert(rng.randrange(len(calls) + 1), self.refused_call(states))
        self.add(*calls)
        self.add("count", "classes", "end")

    def rooms(self, states, refusal):
        """Numbers of cells and of bytes for so many states: enough, or so that the refusal is 8 or 9."""
        rng = self.rng
        cells, room = (states + rng.choice((0, 0, 0, 1, 3)) for _ in range(2))
        if refusal == 8:
            cells = rng.randrange(states)
        if refusal == 9 or refusal == 8 and rng.random() < 0.5:
            room = rng.randrange(states)
        return cells, room

    def refused_call(self, states):
        """A call on a register that is refused with 7, 8 or 9, in turn."""
        rng = self.rng
        kind, side = self.turn("refused call", (("joined", 0), ("joined", 1), (7, 0), (7, 1), (8, 0), (9, 0)))
        pair = [rng.randrange(states), rng.randrange(states)]
        if kind not in (8, 9):
            pair[side] = rng.choice((states, states + 1, 4096, 2**64 - 1))
        if kind == "joined":
            return f"joined {pair[0]} {pair[1]}"
        cells, room = self.rooms(states, kind if kind != 7 else rng.choice((0, 8, 9)))
        return f"compare {pair[0]} {pair[1]} {cells} {room}"

    def register_call(self, states):
        rng = self.rng
        p, q = (rng.randrange(states) if rng.random() < 0.97 else rng.choice((states, states + 1, 4096, 2**64 - 1)) for _ in range(2))
        kind = rng.random()
        if kind < 0.6:
            cells, room = self.rooms(states, rng.choice((8, 9)) if rng.random() < (0.7 if max(p, q) >= states else 0.1) else 0)
            return f"compare {p} {q} {cells} {room}"
        if kind < 0.82:
            return f"joined {p} {q}"
        if kind < 0.93:
            return "count"
        return "clear" if kind < 0.97 else "classes"

    # First kept words, and relations.

    def first_word(self):
        rng = self.rng
        letters = rng.randrange(1, 5)
        count = rng.randrange(1, 30)
        rule = random_rule(rng, count, letters, rng.choice((0, 0.05, 0.3)))
        if rng.random() < 0.5:
            rule = chain(rng, count, letters)
            rule = with_kept(rule, count - 1) if rng.random() < 0.8 else rule
        cells, room = self.rooms(count, self.turn("first word", (0, 0, 8, 0, 0, 9)))
        self.add("rule " + rng.choice(("", "", "C ")) + table(rule), f"first {cells} {room}", "end")

    def relation(self):
        """Each verdict and each refusal, in turn."""
        rng = self.rng
        kind = self.turn("relation", (0, 1, 2, 3, 5, 6) + WANTS_OF_ROOM)
        wanting = kind if kind in WANTS_OF_ROOM else None
        if kind in (5, 6):
            one, other = self.misfits(kind)
            wanting = rng.choice(WANTS_OF_ROOM + (None,))
        else:
            one, other = self.related_pair(rng.randrange(4) if wanting else kind)
        states = min(one.count * other.count, 4097)
        self.add(f"relate {self.relation_rooms(states, wanting)} {table(one)} {table(other)}")

    def misfits(self, number):
        """Two rules of which no difference is made: with different numbers of letters (5), or with too many states (6)."""
        rng = self.rng
        letters = rng.randrange(1, 4)
        one = cycle(60, letters, 3) if number == 6 or rng.random() < 0.3 else random_rule(rng, rng.randrange(1, 8), letters)
        other = random_rule(rng, 70 if one.count == 60 else 3, letters if number == 6 else letters + 1)
        return (one, other) if rng.random() < 0.5 else (other, one)

    def related_pair(self, verdict):
        """Two rules with the same letters that are so related: drawn anew until they are."""
        rng = self.rng
        while True:
            base = random_rule(rng, rng.randrange(1, 8), rng.randrange(1, 4), rng.choice((0.1, 0.5)))
            kept = tuple(kept or rng.random() < 0.3 for kept in base.kept)
            more = disguised(rng, Rule(base.count, base.letters, 0, kept, base.next), 10)
            if verdict == 0:
                one, other = disguised(rng, base, 10), disguised(rng, base, 10)
            elif verdict == 3:
                one, other = (random_rule(rng, rng.randrange(2, 8), base.letters, 0.4) for _ in range(2))
            else:
                one, other = (base, more) if verdict == 1 else (more, base)
            if relation_of(one, other) == verdict:
                return one, other

    def relation_rooms(self, states, wanting):
        """Cells and bytes for both searches: enough for so many states, or such that this want of room is the first one in the order of checks."""
        rng = self.rng
        sizes = {check: states + rng.choice((0, 0, 1, 4)) for check in WANTS_OF_ROOM}
        if wanting:
            for check in WANTS_OF_ROOM[WANTS_OF_ROOM.index(wanting) :]:
                if check == wanting or rng.random() < 0.4:
                    sizes[check] = rng.randrange(states)
        return " ".join(str(sizes[number, side]) for side in (FIRST, SECOND) for number in (8, 9))

    def combined_relation(self):
        """Relations of rules of which some are nondeterministic automata, combinations, or blank since their sheet is refused."""
        rng = self.rng
        kind = self.turn("combined relation", ("nfas", "combinations", "refused"))
        while True:
            one, other = {"nfas": self.nfa_pair, "combinations": self.nest_pair, "refused": self.blank_pair}[kind]()
            placed, leaves = [], []
            words = f"{one} {other}".split(" ")
            (first, _), (second, _) = (Answers("").part_of(words, placed, leaves) for _ in range(2))
            heights = [height for height, line in placed]
            # The lines of fit questions of the two rules are not those of the first and then those of the second.
            mixed = heights != sorted(heights)
            if first.count * second.count <= 400 and (mixed or kind != "combinations"):
                break
        rooms = self.relation_rooms(first.count * second.count, self.turn("combined rooms", (None, None, None, rng.choice(WANTS_OF_ROOM))))
        self.add(f"relate {rooms} {one} {other}")

    def nfa_pair(self):
        """The writing of two rules of which one at least is on the sheet of a nondeterministic automaton."""
        rng = self.rng
        letters = rng.randrange(1, 4)
        one = "N " + hexed(nfa_sheet(rng, rng.randrange(1, 5), letters))
        other = rng.choice((one, "N " + hexed(nfa_sheet(rng, rng.randrange(1, 5), letters)), table(random_rule(rng, rng.randrange(1, 8), letters))))
        pair = [rng.choice(("", "", "C ", "C C ")) + rule for rule in (one, other)]
        return pair if rng.random() < 0.5 else pair[::-1]

    def nest_pair(self):
        """The writing of two rules, most of them combinations."""
        rng = self.rng
        letters, strange = rng.choice((1, 2)), rng.choice((0, 0, 0.1))
        return [self.nest(rng.choice((1, 2, 3)), letters, 3, strange) for _ in range(2)]

    def blank_pair(self):
        """The writing of two rules of which one at least stands on a refused sheet, or has one within it."""
        rng = self.rng
        beside = table(random_rule(rng, rng.randrange(1, 6), rng.choice((1, 1, 1, 2))))

        def refused():
            sheet = rng.choice(REFUSED)
            return rng.choice((sheet, sheet, f"C {sheet}", f"U {sheet} {beside}", f"D C {sheet} {beside}", f"I {beside} C {sheet}"))

        pair = [refused(), rng.choice((refused(), beside))]
        return pair if rng.random() < 0.5 else pair[::-1]

    # Walks and judged words.

    def walked(self):
        rng = self.rng
        letters = rng.choice((1, 2, 3, 15, 16))
        count = rng.randrange(1, 6)
        self.add("rule " + table(random_rule(rng, count, letters)))
        for _ in range(4):
            self.add("keeps " + random_word(rng, letters, 12, 0.4))
            self.add(f"walk {rng.choice((rng.randrange(count), rng.randrange(count), count, 2**64 - 1))} " + random_word(rng, letters, 12, 0.4))
        self.add(f"kept {rng.randrange(count + 2)}", f"next {rng.randrange(count + 2)} {rng.randrange(letters + 2)}", "end")

    # Catalogues.

    def lot(self, longest=8):
        rng = self.rng
        mark = "".join(rng.choice("abcdefghijklmnop") for _ in range(rng.randrange(1, longest + 1)))
        return f"LOT {rng.choice((rng.randrange(1, 10), rng.randrange(1, 1000000), 999999))} {mark}\n"

    def faulty(self):
        """Texts that are no lot lines, and often begin as one: one of each kind."""
        rng = self.rng
        number, mark = rng.randrange(1, 1000000), rng.choice(("a", "abba", "pp"))
        return (
            "\n", " ", "L", "LO", "LOT", "LOT ", "lot 1 a\n", "LAT 1 a\n", "LOt 1 a\n", "LOT\t1 a\n", "LOT  1 a\n",
            f"LOT 0{number} {mark}\n", "LOT 0 a\n", f"LOT {number + 1000000} {mark}\n", f"LOT {mark}\n", f"LOT -1 {mark}\n",
            f"LOT {number}\n", f"LOT {number} \n", f"LOT {number}", f"LOT {number} ", f"LOT {number} {mark}", f"LOT {number}{mark}\n",
            f"LOT {number}  {mark}\n", f"LOT {number} {mark}q\n", f"LOT {number} {mark.upper()}\n", f"LOT {number} {mark}\r\n",
            f"LOT {number} {mark} \n", f"LOT {number} {mark}\0\n", f" LOT {number} {mark}\n", f"LOT {number} \xe4\n",
        )

    def catalogue(self):
        rng = self.rng
        text = "".join(self.lot() for _ in range(rng.randrange(6))).encode()
        kind = self.turn("catalogue", ("faulty", "whole", "faulty", "changed", "faulty", "cut"))
        if kind == "faulty":
            kinds = self.faulty()
            fault, behind = self.turn("faulty", [(line, behind) for behind in (0, rng.randrange(1, 3)) for line in kinds])
            text += (fault + "".join(self.lot() for _ in range(behind))).encode()
            assert catalogue.read(text)[1] is not None, "a line that is meant to be faulty is none"
        elif kind == "changed" and text:
            text = bytearray(text)
            text[rng.randrange(len(text))] = rng.choice((rng.randrange(256), 32, 48, 97, 10))
            text = bytes(text)
        elif kind == "cut":
            text = text[: rng.randrange(len(text) + 1)]
        self.add("catalogue " + hexed(text))

    # Rules, words and texts as large as may be.

    def full_size(self):
        for case in (self.largest_sheets, self.long_words, self.largest_relations, self.largest_combinations, self.largest_nfas, self.longest_catalogues):
            before = len(self.lines)
            case()
            ended = sum(line in ("end",) or line.split(" ")[0] in ("settle", "sheets", "relate", "catalogue") for line in self.lines[before:])
            self.counts["of full size"] = self.counts.get("of full size", 0) + ended

    def largest_sheets(self):
        """Two disguised sheets of 1,000 states or more and 16 letters, with the same words. A sheet of 1,024 states and 16 letters, as large as may be, with itself, and with a
        copy in which the last bit that is no filling differs, so that one step of the last state alone leads elsewhere; and such a sheet, opened."""
        rng = self.rng
        base = chain(rng, 1000, 16, 0.3)
        self.add(f"settle {hexed(sheets.write_table(disguised(rng, base)))} {hexed(sheets.write_table(disguised(rng, base)))}")
        one, other = self.late_copies()
        self.add(f"settle {hexed(one)} {hexed(one)}", f"settle {hexed(one)} {hexed(other)}")
        full = random_rule(rng, 1024, 16, 0.001)
        self.add("table", "open " + hexed(sheets.write_table(full)), "first 1024 1024", "keeps text 61", "end")

    def late_copies(self):
        """Two largest sheets that differ in the last bit before the filling alone, and have not the same words."""
        while True:
            one = sheets.write_table(chain(self.rng, 1024, 16, 0.3))
            other = one[:-1] + bytes([one[-1] ^ 4])
            assert len(one) == 20610, "a largest sheet has 20,610 bytes"
            if relation_of(sheets.table(one), sheets.table(other)):
                return one, other

    def long_words(self):
        """Chains of 1,024 states, whose words have over 1,000 letters."""
        rng = self.rng
        base = chain(rng, 1024, 1, 0)
        last = with_kept(base, 1023)
        self.add(f"settle {hexed(sheets.write_table(base))} {hexed(sheets.write_table(last))}")
        self.add("rule " + table(last), "first 1024 1024", "first 1023 1024", "first 1024 1023", "keeps numbers " + "00" * 1022, "keeps text " + "61" * 1023 + "62", "end")
        two = chain(rng, 1024, 2, 0)
        self.add(f"settle {hexed(sheets.write_table(two))} {hexed(sheets.write_table(with_kept(two, 1023)))}")
        self.add(f"relate 4096 4096 4096 4096 {table(cycle(63, 1, 62))} {table(with_kept(cycle(65, 1, 64), 64))}")

    def largest_relations(self):
        """Sheets whose difference has 4,096 states, and ones whose difference would have more."""
        one, other, further = (hexed(sheets.write_table(rule)) for rule in (cycle(64, 1, 63), cycle(64, 1, 5), cycle(65, 1, 64)))
        self.add(f"sheets {one} {other} 4096 4096", f"sheets {one} {other} 4095 4096", f"sheets {one} {other} 4096 4095")
        self.add(f"sheets {one} {further} 4096 4096", f"sheets {further} {one} 0 0", f"settle {one} {further}")

    def largest_combinations(self):
        """Combinations of 4,096 states, and of more."""
        rng = self.rng
        one, other = cycle(64, 2, 63), cycle(64, 2, 5)
        self.add(f"rule I {table(one)} {table(other)}", "first 4096 4096", "compare 0 4095 4096 4096", "count", "walk 4095 text 6162", "end")
        self.add(f"rule D {table(one)} {table(cycle(64, 2, 63))}", "first 4096 4096", "compare 0 65 4096 4096", "compare 1 0 4096 4096", "count", "end")
        self.add(f"rule I {table(cycle(63, 1, 62))} C {table(cycle(65, 1, 64))}", "first 4096 4095", "first 4095 4095", "first 4094 4095", "end")
        self.add(f"rule I {table(cycle(63, 1, 62))} {table(cycle(65, 1, 64))}", "first 4095 4095", "compare 0 1 4095 4095", "end")
        self.add(f"rule C I {table(cycle(64, 1, 1))} {table(cycle(65, 1, 64))}", "first 4096 4096", "end")
        base = chain(rng, 1024, 1, 0.5)
        shown = table(disguised(rng, base)), table(base), table(with_kept(base, 1023))
        self.add(f"rule U U {shown[0]} {shown[1]} U {shown[1]} {shown[2]}", "compare 0 1024 4096 4096", "compare 1024 2048 4096 4096", "compare 0 3072 4096 4096", "compare 0 3072 4096 4095", "count", "end")
        self.add(f"rule U U {shown[0]} {shown[1]} U {shown[1]} U {shown[2]} {table(cycle(1, 1, 0))}", "count", "first 1 1", "end")

    def largest_nfas(self):
        """Nondeterministic automata of 10 own states."""
        rng = self.rng
        for letters in (1, 2, 16):
            sheet = hexed(nfa_sheet(rng, 10, letters, 0.15))
            self.add(f"rule N {sheet}", "first 1024 1024", "keeps " + random_word(rng, letters, 40, 0), "compare 0 1023 1024 1024", "compare 1 2 1024 1024", "count", "end")
        self.add(f"rule U U N {hexed(nfa_sheet(rng, 10, 1))} N {hexed(nfa_sheet(rng, 10, 1))} U N {hexed(nfa_sheet(rng, 10, 1))} N {hexed(nfa_sheet(rng, 10, 1))}", "compare 1 1025 4096 4096", "count", "end")

    def longest_catalogues(self):
        """Texts of 60,000 bytes, and of one more."""
        text = "".join(self.lot(900) for _ in range(200)).encode()
        last = b"LOT 77 "
        text = text[: text.rindex(b"\n", 0, 59000) + 1]
        text += last + b"o" * (60000 - len(text) - len(last) - 1) + b"\n"
        self.add("catalogue " + hexed(text), "catalogue " + hexed(text + b"x"))
