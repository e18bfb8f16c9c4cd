"""Tries the reference by brute force on small rules, sheets and texts. It fails loudly where two ways to an answer disagree."""

import itertools
import random

import cases
import catalogue
import rules
import searches
import sheets
from answers import Answers
from made import chain, cycle, disguised, nfa_sheet, random_rule
from register import Register, closure, compare_by_steps, first_separating
from rules import BLANK, COMBINED, PAIR, SHEET, Fault, Rule


def words(letters, longest):
    """All words up to a length, in order: shorter ones first, and then by letters."""
    for length in range(longest + 1):
        yield from itertools.product(range(letters), repeat=length)


def keeps(rule, state, word):
    for letter in word:
        state = rule.next[state][letter]
    return rule.kept[state]


def equivalences(count):
    """All equivalences on so many states, as the class of each."""

    def go(labels):
        if len(labels) == count:
            yield tuple(labels)
            return
        for label in range(max(labels, default=-1) + 2):
            yield from go(labels + [label])

    yield from go([])


def is_right_invariant(rule, labels):
    states = range(rule.count)
    return all(
        labels[rule.next[p][letter]] == labels[rule.next[q][letter]]
        for p in states for q in states if labels[p] == labels[q] for letter in range(rule.letters)
    )


def smallest(rule, pairs):
    """The smallest right-invariant equivalence that holds some pairs: what all of them join."""
    states = range(rule.count)
    all_of_them = [labels for labels in equivalences(rule.count) if is_right_invariant(rule, labels) and all(labels[p] == labels[q] for p, q in pairs)]
    return [min(q for q in states if all(labels[p] == labels[q] for labels in all_of_them)) for p in states]


def check(holds, *told):
    if not holds:
        raise AssertionError(" ".join(map(str, told)))


def check_smallest(rng):
    """The closure and the joins of a register are the smallest equivalence."""
    for _ in range(300):
        rule = random_rule(rng, rng.randrange(1, 6), rng.randrange(1, 3))
        pairs = [(rng.randrange(rule.count), rng.randrange(rule.count)) for _ in range(rng.randrange(4))]
        check(closure(rule, pairs) == smallest(rule, pairs), "closure", rule, pairs)
        register = Register(rule)
        for p, q in pairs:
            register.compare(p, q, rule.count, rule.count)
        check(register.labels == smallest(rule, register.pairs), "register", rule, pairs)
        check(register.class_count() == len(set(smallest(rule, register.pairs))), "classes", rule, pairs)


def check_separating(rng):
    """The first separating word is the first of all words that separate; and comparing notes exactly the new words."""
    for _ in range(200):
        rule = random_rule(rng, rng.randrange(1, 6), rng.randrange(1, 3), rng.choice((0.2, 0.5)))
        p, q = rng.randrange(rule.count), rng.randrange(rule.count)
        apart = (list(word) for word in words(rule.letters, rule.count) if keeps(rule, p, word) != keeps(rule, q, word))
        first = next(apart, None)
        check(first_separating(rule, p, q) == first, "separating", rule, p, q)
        labels, noted, word = compare_by_steps(rule, list(range(rule.count)), p, q)
        check(word == first, "steps", rule, p, q)
        check([searches.trail(noted, i) for i in range(len(noted))] == new_words(rule, p, q, first), "new words", rule, p, q)


def new_words(rule, p, q, first):
    """The words whose pair no equivalence of the pairs of earlier words holds, up to a word that separates."""
    found = []
    pairs = []
    for word in words(rule.letters, rule.count):
        if first is not None and list(word) == first:
            break
        x, y = rules.walk(rule, p, word), rules.walk(rule, q, word)
        if not joined_by(rule.count, pairs, x, y):
            found.append(list(word))
            pairs.append((x, y))
    return found


def joined_by(count, pairs, x, y):
    """Whether every equivalence that holds some pairs joins x and y."""
    return all(labels[x] == labels[y] for labels in equivalences(count) if all(labels[p] == labels[q] for p, q in pairs))


def check_first_kept(rng):
    for _ in range(300):
        rule = random_rule(rng, rng.randrange(1, 7), rng.randrange(1, 3), 0.2)
        first = next((list(word) for word in words(rule.letters, rule.count) if keeps(rule, rule.start, word)), None)
        noted, word = searches.seek(rule)
        check(word == first and searches.first_word(rule) == first, "first kept", rule)
        check(len({cell[0] for cell in noted}) == len(noted), "noted twice", rule)


def check_relations(rng):
    for _ in range(200):
        letters = rng.randrange(1, 3)
        one, other = (random_rule(rng, rng.randrange(1, 4), letters) for _ in range(2))
        longest = one.count * other.count
        firsts = []
        for first, second in ((one, other), (other, one)):
            firsts.append(next((list(w) for w in words(letters, longest) if keeps(first, 0, w) and not keeps(second, 0, w)), None))
        found = [word for cells, word in searches.relate(one, other, 99, 99, 99, 99)]
        check(found == firsts, "relation", one, other)


def check_combined(rng):
    """What a combination keeps, in terms of its rules."""
    for _ in range(200):
        letters = rng.randrange(1, 3)
        one, other = (random_rule(rng, rng.randrange(1, 5), letters) for _ in range(2))
        both, left, beside, turned = rules.intersection(one, other), rules.difference(one, other), rules.union(one, other), rules.complement(one)
        for word in words(letters, 5):
            a, b = keeps(one, one.start, word), keeps(other, other.start, word)
            check(keeps(both, both.start, word) == (a and b), "intersection", one, other)
            check(keeps(left, left.start, word) == (a and not b), "difference", one, other)
            check(keeps(beside, beside.start, word) == a and keeps(beside, one.count + other.start, word) == b, "union", one, other)
            check(keeps(turned, turned.start, word) != a, "complement", one)
    check(rules.union(BLANK, random_rule(rng, 2, 2)) == BLANK, "a misfit is blank")


def check_nfas(rng):
    """The subset construction keeps the words that some run of single states accepts."""
    for _ in range(150):
        letters = rng.randrange(1, 3)
        data = nfa_sheet(rng, rng.randrange(1, 5), letters)
        automaton = sheets.Automaton(data)
        rule = automaton.rule()
        for word in words(letters, 6):
            check(automaton.accepts(word) == keeps(rule, rule.start, word), "nfa", data.hex(), word)


def check_tables(rng):
    """A sheet that was written is read as its rule. Of rows of four bytes, and of five of which the last is 0, all those are tried that have any first byte and then three out of 0, 1,
    2, 64 and 128: the accepted ones are those that are written of the rules read from them, and those of one state and one or two letters are among them."""
    for _ in range(200):
        rule = random_rule(rng, rng.randrange(1, 40), rng.randrange(1, 17))
        check(sheets.table(sheets.write_table(rule)) == rule, "table", rule)
    written = {sheets.write_table(Rule(1, letters, 0, (kept,), ((0,) * letters,))) for letters in (1, 2) for kept in (False, True)}
    read = set()
    for head in range(256):
        for tail in itertools.product((0, 1, 2, 64, 128), repeat=3):
            for size in range(4, 6):
                data = bytes((head, *tail, 0))[:size]
                if accepts(data):
                    read.add(data)
    check(written <= read and all(sheets.write_table(sheets.table(data)) == data for data in read), "accepted tables")


def accepts(data):
    try:
        sheets.table(data)
        return True
    except Fault:
        return False


def check_fields(rng):
    """Fields of bits by numbers: a sheet is one number, of which a field is a part."""
    for _ in range(500):
        data = rng.randbytes(rng.randrange(6))
        whole, long = int.from_bytes(data, "big"), 8 * len(data)
        at, width = rng.randrange(40), rng.randrange(17)
        if at + width > long:
            continue
        shift = long - at - width
        check(sheets.read_field(data, at, width) == (whole >> shift) % 2**width, "field", data.hex(), at, width)
        value = rng.randrange(65536)
        after = whole - ((whole >> shift) % 2**width << shift) + (value % 2**width << shift)
        check(sheets.write_field(data, at, width, value) == after.to_bytes(len(data), "big"), "written field", data.hex(), at, width)


def lines_of(alphabet, longest):
    """All lot lines over some letters, digits and lengths."""
    digits = [byte for byte in alphabet if byte in b"0123456789"]
    letters = [byte for byte in alphabet if byte in b"abcdefghijklmnop"]
    for n in range(1, 7):
        for number in itertools.product(digits, repeat=n):
            if number[0] == ord("0"):
                continue
            for m in range(1, longest - 6 - n + 1):
                for mark in itertools.product(letters, repeat=m):
                    yield b"LOT " + bytes(number) + b" " + bytes(mark) + b"\n"


def check_lines():
    """A row of bytes begins a lot line exactly if it is the beginning of one of all lot lines, of a few letters and digits."""
    alphabet = b"01aq \n\r"
    beginnings = {b""}
    for line in lines_of(b"01a", 13):
        beginnings.update(line[:i] for i in range(len(line) + 1))
    for length in range(5):
        for rest in itertools.product(alphabet, repeat=length):
            data = b"LOT " + bytes(rest)
            check(catalogue.can_begin(data) == (data in beginnings), "beginning", data)
    for data in (b"L", b"LO", b"LOT", b"LOT ", b"O", b"LL", b"LOT1", b"LOT 111111", b"LOT 1111111", b"LOT 111111 a\n", b"LOT 1 a\n\n"):
        check(catalogue.can_begin(data) == (data in beginnings), "beginning", data)
    check_places(b"LT 01aq\n")


def check_places(alphabet):
    """The place of a refusal: the bytes before it begin a line, and the bytes up to and with it do not."""
    rng = random.Random(5)
    for _ in range(3000):
        line = bytearray(b"LOT 10 aa\nLOT 1 a\n"[: rng.randrange(19)])
        for _ in range(rng.randrange(3)):
            line.insert(rng.randrange(len(line) + 1), rng.choice(alphabet))
        text = bytes(line)
        lots, refusal = catalogue.read(text)
        begin = sum(len(b"LOT %d " % number) + len(mark) + 1 for number, mark in lots)
        if refusal is None:
            check(begin == len(text), "end", text)
        else:
            place = refusal.place
            check(catalogue.can_begin(text[begin:place]), "place", text)
            check(place == len(text) or not catalogue.can_begin(text[begin : place + 1]), "place", text)


# Sheets of the documents: one state that is kept, with one letter and with two; an even number of a; the words that end with ba; and the word a alone.
EVERY_A, EVERY, EVEN, ENDING, ONLY_A = "00020000", "1002000000", "10060080000001", "10080000200801800008", "0194"


def table(sheet):
    return sheets.table(bytes.fromhex(sheet))


def check_examples():
    """The worked examples of docs/EXAMPLES.md, SHEETS.md, PROGRAMS.md, REGISTER.md and SEARCHES.md."""
    check_example_sheets()
    check_example_refusals()
    check_example_searches()
    check_printed()


def check_example_sheets():
    """What the accepted sheets keep, of all words up to 10 letters; their starts, and the sizes of the largest sheets."""
    only_a = sheets.nfa(bytes.fromhex(ONLY_A))
    kept_by = (
        (table(EVERY_A), 1, lambda word: True),
        (table(EVERY), 2, lambda word: True),
        (table(EVEN), 2, lambda word: word.count(0) % 2 == 0),
        (table(ENDING), 2, lambda word: word[-2:] == (1, 0)),
        (only_a, 1, lambda word: word == (0,)),
    )
    for rule, letters, kept in kept_by:
        check(rule.letters == letters, "letters", rule)
        for word in words(letters, 10):
            check(keeps(rule, rule.start, word) == kept(word), "a word of an example", rule, word)
    check([rule.count for rule, _, _ in kept_by] == [1, 1, 2, 3, 4], "states of the examples")
    check(only_a.start == 2 and sheets.Automaton(bytes.fromhex(ONLY_A)).own == 2, "a nondeterministic automaton")
    check(table(EVEN) == Rule(2, 2, 0, (True, False), ((1, 0), (0, 1))), "an even number of a, bit by bit")
    rng = random.Random(1)
    largest = sheets.write_table(cycle(1024, 16, 0)), nfa_sheet(rng, 10, 16)
    check([len(data) for data in largest] == [20610, 204], "largest sheets")
    check((sheets.table(largest[0]).count, sheets.nfa(largest[1]).count) == (1024, 1024), "states of the largest sheets")


def check_example_refusals():
    refused = (sheets.table, "000200", 2), (sheets.table, "00020001", 4), (sheets.table, "00020081", 3), (sheets.table, "", 1), (sheets.nfa, "0A", 11)
    for read, sheet, number in refused:
        try:
            read(bytes.fromhex(sheet))
            check(False, sheet)
        except Fault as fault:
            check(fault == Fault(number, SHEET), sheet, fault)
    for written in cases.REFUSED:
        leaves = []
        Answers("").part_of(written.split(" "), [], leaves)
        check(len(leaves) == 1, "a sheet that is meant to be refused", written)
    one, other = cycle(64, 1, 0), cycle(65, 1, 0)
    check(rules.fits(one, one, 64 * 64) is None and rules.intersection(one, one).count == 4096, "64 and 64 states")
    check(rules.fits(one, other, 64 * 65) == Fault(6, COMBINED, side=PAIR) and rules.intersection(one, other) == BLANK, "64 and 65 states")


def check_example_searches():
    even, every = table(EVEN), table(EVERY)
    check(compare_by_steps(rules.union(even, even), [0, 1, 2, 3], 0, 2)[1:] == ([(0, 2, 0, 0), (1, 3, 0, 0)], None), "even with itself")
    both = rules.union(even, every)
    check(compare_by_steps(both, [0, 1, 2], 0, 2)[1:] == ([(0, 2, 0, 0)], [0]), "even with every")
    check(not Register(both).kept_by(0, 2, [0]), "the word a is kept by state 2")
    check(searches.seek(even) == ([], []) and searches.seek(rules.complement(even)) == ([(0, 0, 0)], [0]), "first kept words")
    five = Rule(5, 2, 0, (False,) * 4 + (True,), ((1, 2), (3, 4), (4, 3), (3, 3), (3, 3)))
    check(searches.seek(five) == ([(0, 0, 0), (1, 0, 0), (2, 0, 1), (3, 1, 0)], [0, 1]), "a search")


def spelled(word):
    return "".join("abcdefghijklmnop"[letter] for letter in word) or "-"


def settlement_line(first, second):
    """The line of docs/PROGRAMS.md for two sheets that are settled."""
    said = Answers(f"settle {first} {second}").run().split()
    if said[1] == "same":
        return f"same {said[2]}"
    word = [] if said[4] == "-" else map(int, said[4].split(","))
    return f"differ {('', 'first', 'second')[int(said[2])]} {spelled(word)} {said[3]}"


def relation_line(first, second):
    """The line of docs/PROGRAMS.md for two sheets that are related."""
    both = [word for cells, word in searches.relate(table(first), table(second), 4096, 4096, 4096, 4096)]
    name = ("equal", "first within second", "second within first", "neither")[searches.relation_number(*both)]
    return " ".join([name] + [spelled(word) for word in both if word is not None])


def sale_lines(sheet, text):
    """The lines of docs/PROGRAMS.md for a trial sale over a well-formed catalogue."""
    rule = table(sheet)
    told = []
    lots = catalogue.read(text)[0]
    for number, mark in lots:
        try:
            said = "kept" if rules.keeps(rule, rules.spelled("text", mark)) else "dropped"
        except Fault as fault:
            said = f"unknown letter at {fault.place}"
        told.append(said.split(" ")[0])
        yield f"LOT {number} {mark.decode()} {said}"
    yield f"{len(lots)} lots: " + ", ".join(f"{told.count(said)} {said}" for said in ("kept", "dropped", "unknown"))


def check_printed():
    """The lines that docs/PROGRAMS.md shows; those of a sale are the ones of the sheet that keeps an even number of a."""
    check(settlement_line(EVEN, EVERY) == "differ second a 1", "settle")
    check(settlement_line(EVEN, EVEN) == "same 2", "settle, the same sheet")
    check(relation_line(EVEN, ENDING) == "neither - ba", "relate")
    check(relation_line(EVEN, EVERY) == "first within second a", "relate, all words")
    sale = list(sale_lines(EVEN, b"LOT 17 abba\nLOT 18 ab\nLOT 19 ac\n"))
    wanted = ["LOT 17 abba kept", "LOT 18 ab dropped", "LOT 19 ac unknown letter at 1", "3 lots: 1 kept, 1 dropped, 1 unknown"]
    check(sale == wanted, "trial", sale)


def check_made(rng):
    """A rule that is disguised keeps the same words."""
    for _ in range(100):
        rule = rng.choice((random_rule, chain))(rng, rng.randrange(1, 7), rng.randrange(1, 3), 0.4)
        other = disguised(rng, rule)
        check(searches.within(rule, other) and searches.within(other, rule), "disguised", rule, other)


def run():
    rng = random.Random(7)
    check_examples()
    for part in (check_smallest, check_separating, check_first_kept, check_relations, check_combined, check_nfas, check_tables, check_fields, check_made):
        part(rng)
    check_lines()
    print("the reference agrees with brute force")
