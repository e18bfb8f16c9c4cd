"""How answers are written, after docs/CROSSCHECK.md."""

from rules import MOST_STATES, Fault

LONGEST_ROW = 16


def digest(numbers):
    total = 14695981039346656037
    for number in numbers:
        total = ((total ^ number) * 1099511628211) % 2**64
    return format(total, "016x")


def row(numbers):
    numbers = list(numbers)
    if len(numbers) > LONGEST_ROW:
        return f"#{len(numbers)}:{digest(numbers)}"
    return ",".join(map(str, numbers)) or "-"


def fault(refusal):
    return f"fault {refusal.number} {refusal.place} {refusal.letter} {refusal.layer} {refusal.side}"


def answer(ask):
    """What a question answers, written after `ok`, or its refusal."""
    try:
        return f"ok {ask()}"
    except Fault as refusal:
        return fault(refusal)


def word_buffer(room, word):
    """The row of a buffer in which a word was handed over, or None was."""
    word = word or []
    return row(word + [200 + i % 50 for i in range(len(word), room)])


def cell_buffer(size, cells, is_pair):
    numbers = [number for cell in cells for number in cell]
    for i in range(len(cells), size):
        rest = i % 1000
        numbers += ([50000 + rest, 51000 + rest] if is_pair else [50000 + rest]) + [52000 + rest, 200 + i % 50]
    return row(numbers)


def rule(of):
    """The line of a rule."""
    states, letters = range(of.count + 1), range(of.letters + 1)
    kept = [number(lambda: int(of.kept_at(state))) for state in states]
    following = [number(lambda: of.next_from(state, letter)) for state in states for letter in letters]
    raised = [MOST_STATES - of.count + to for row in of.next for to in row]
    return f"rule {of.count} {of.letters} {of.start} {row(kept)} {row(following)} {row(raised)}"


def number(ask):
    try:
        return ask()
    except Fault as refusal:
        return 100000 + refusal.number
