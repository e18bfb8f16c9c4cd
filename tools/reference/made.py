"""Makes rules, sheets and words for the cases."""

import sheets
from rules import Rule

MOST = 1024


def random_rule(rng, count, letters, kept=0.5):
    """Any rule that starts at state 0."""
    return Rule(
        count,
        letters,
        0,
        tuple(rng.random() < kept for _ in range(count)),
        tuple(tuple(rng.randrange(count) for _ in range(letters)) for _ in range(count)),
    )


def chain(rng, count, letters, kept=0.0):
    """A rule in which one letter leads on from each state, and all others back; so its last state is reached by a long word alone."""
    rows = []
    for state in range(count):
        row = [rng.randrange(state + 1) for _ in range(letters)]
        row[rng.randrange(letters)] = min(state + 1, count - 1)
        rows.append(tuple(row))
    return Rule(count, letters, 0, tuple(rng.random() < kept for _ in range(count)), tuple(rows))


def cycle(length, letters, kept):
    """A rule that counts its letters up to a number and begins anew."""
    return Rule(length, letters, 0, tuple(state == kept for state in range(length)), tuple(((state + 1) % length,) * letters for state in range(length)))


def with_kept(rule, state):
    """The same rule, with the kept answer of one state reversed."""
    kept = list(rule.kept)
    kept[state] = not kept[state]
    return Rule(rule.count, rule.letters, rule.start, tuple(kept), rule.next)


def with_step(rng, rule, state):
    """The same rule, with one step of a state led elsewhere."""
    rows = [list(row) for row in rule.next]
    rows[state][rng.randrange(rule.letters)] = rng.randrange(rule.count)
    return Rule(rule.count, rule.letters, rule.start, rule.kept, tuple(map(tuple, rows)))


def disguised(rng, rule, most=MOST):
    """A rule with the same words, which looks otherwise: states split into copies, states that no word leads to added, and all renamed but state 0."""
    spare = most - rule.count
    of = list(range(rule.count))
    of += [rng.randrange(rule.count) for _ in range(rng.randrange(min(spare, rule.count) + 1))]
    copies = {state: [copy for copy, named in enumerate(of) if named == state] for state in range(rule.count)}
    unreached = rng.randrange(min(3, most - len(of)) + 1)
    count = len(of) + unreached
    kept = [rule.kept[state] for state in of] + [rng.random() < 0.5 for _ in range(unreached)]
    rows = [[rng.choice(copies[to]) for to in rule.next[state]] for state in of]
    rows += [[rng.randrange(count) for _ in range(rule.letters)] for _ in range(unreached)]
    name = [0] + rng.sample(range(1, count), count - 1)
    renamed = [None] * count
    for state in range(count):
        renamed[name[state]] = (kept[state], tuple(name[to] for to in rows[state]))
    return Rule(count, rule.letters, 0, tuple(row[0] for row in renamed), tuple(row[1] for row in renamed))


def nfa_sheet(rng, own, letters, dense=0.3):
    """The sheet of any nondeterministic automaton."""
    bits = format(letters - 1, "04b") + format(own - 1, "04b")
    bits += "".join("1" if rng.random() < (0.4 if i < 2 * own else dense) else "0" for i in range(own * (2 + own * letters)))
    return sheets.bytes_of(bits)


def hexed(data):
    return data.hex() or "-"


def table(rule):
    """A rule on a table sheet, as a case has it."""
    return "T " + sheets.write_table(rule).hex()


def random_word(rng, letters, longest, stray=0.1):
    """A form and the bytes of a word; sometimes a letter that is not there stands in it."""
    length = rng.randrange(longest + 1)
    form = rng.choice(("numbers", "text"))
    base = 97 if form == "text" else 0
    data = [base + rng.randrange(letters) for _ in range(length)]
    if length and rng.random() < stray:
        strays = [base + letters, base + 15, base + 16, 255, 96, 65, 0 if form == "text" else 16, 10]
        data[rng.randrange(length)] = rng.choice(strays)
    return f"{form} {hexed(bytes(data))}"
