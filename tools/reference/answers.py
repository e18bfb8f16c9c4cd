"""Answers a text of cases, after docs/CROSSCHECK.md."""

import calls
import catalogue
import rules
import searches
import sheets
import show
from register import Register
from rules import Fault


def data_of(word):
    return b"" if word == "-" else bytes.fromhex(word)


class Answers:
    """Goes through the lines of a text of cases, and writes a line or more for each."""

    def __init__(self, text):
        self.text = text.splitlines()
        self.at = 0
        self.single = None
        self.out = []
        self.places = []

    def write(self, *words):
        """Writes a line, and notes which line of the cases it answers."""
        self.out.append(" ".join(map(str, words)))
        self.places.append(self.at)

    def lines(self):
        """The words of the lines from here on."""
        while self.at < len(self.text):
            self.at += 1
            yield self.text[self.at - 1].split(" ")

    def run(self):
        for word, *rest in self.lines():
            getattr(self, "on_" + word)(*rest)
        return "".join(line + "\n" for line in self.out)

    # Lines that stand alone.

    def on_read(self, data, at, width):
        if int(width) > 16:
            return self.write("wide", width)
        self.write(show.answer(lambda: sheets.read_field(data_of(data), int(at), int(width))))

    def on_write(self, data, at, width, value):
        if int(width) > 16:
            return self.write("wide", width)
        try:
            after, said = sheets.write_field(data_of(data), int(at), int(width), int(value)), "ok"
        except Fault as refusal:
            after, said = data_of(data), show.fault(refusal)
        self.write(said, show.row(after))

    def on_room(self, states, cells, room):
        for number, layer, given in ((8, rules.SEARCH, cells), (9, rules.REGISTER, room)):
            self.write("ok" if int(given) >= int(states) else show.fault(Fault(number, layer)))

    def written(self, data, at, last, spare, room):
        """The line of a trail, and of both buffers."""
        data = data_of(data)
        cells = list(zip(data[::2], data[1::2]))
        turned, word = searches.write_trail(cells, int(at), last, int(spare), int(room)) or (None, None)
        self.write("none" if word is None else len(word), show.word_buffer(int(spare), turned), show.word_buffer(int(room), word))

    def on_trail(self, kind, data, at, spare, room):
        self.written(data, at, [], spare, room)

    def on_longer(self, last, kind, data, at, spare, room):
        self.written(data, at, [int(last)], spare, room)

    def on_queue(self, size, *words):
        queue = searches.Queue(int(size))
        words = iter(words)
        said = []
        for word in words:
            if word == "note":
                said.append(int(queue.note(int(next(words)))))
            elif word in ("take", "get"):
                said += (queue.take() if word == "take" else queue.get(int(next(words)))) or [100000]
            elif word == "noted":
                said.append(len(queue.noted))
            else:
                said += [len(queue.noted)] + queue.noted
        self.write("ok", show.row(said), show.cell_buffer(int(size), [(state, 7, 3) for state in queue.noted], False))

    def on_settle(self, first, second):
        try:
            joins, side, word = calls.settle(data_of(first), data_of(second))
        except Fault as refusal:
            return self.write(show.fault(refusal))
        if word is None:
            return self.write("ok same", joins)
        self.write("ok differ", side, joins, show.row(word))

    def related(self, ask, rooms):
        """The line of two searches, `ask`, and of their cells, where they are lent some, and buffers."""
        try:
            found = ask()
            words = [word for cells, word in found]
            number = searches.relation_number(*words)
            lengths = ["none" if word is None else len(word) for word in words]
            said = f"ok {number} {lengths[0]} {lengths[1]}"
        except Fault as refusal:
            found, said = [([], None)] * 2, show.fault(refusal)
        shown = []
        for (cells, word), (size, room) in zip(found, rooms):
            if size is not None:
                shown.append(show.cell_buffer(size, cells, False))
            shown.append(show.word_buffer(room, word))
        self.write(said, *shown)

    def on_sheets(self, first, second, first_room, second_room):
        rooms = int(first_room), int(second_room)
        self.related(lambda: calls.relate(data_of(first), data_of(second), *rooms), [(None, room) for room in rooms])

    def on_relate(self, first_cells, first_room, second_cells, second_room, *words):
        sizes = [int(size) for size in (first_cells, first_room, second_cells, second_room)]
        words, placed, leaves = list(words), [], []
        (one, _), (other, _) = self.part_of(words, placed, leaves), self.part_of(words, placed, leaves)
        self.write_made(placed, leaves)
        self.related(lambda: searches.relate(one, other, *sizes), [sizes[:2], sizes[2:]])

    def on_catalogue(self, data):
        lots, refusal = catalogue.read(data_of(data))
        for number, mark in lots:
            self.write("ok 1", number, show.row(mark))
        for _ in range(3):
            self.write("ok 0" if refusal is None else show.fault(refusal))
        numbers, marks = [number for number, mark in lots], b"".join(mark + b"\xff" for number, mark in lots)
        self.write("list", len(lots), show.row(numbers), show.row(marks), "none" if refusal is None else show.fault(refusal))

    # Cases that go on.

    def write_made(self, placed, leaves):
        """The lines of refused sheets, and those of fit questions, by the height of their combinations and from left to right."""
        for refusal in leaves:
            self.write("leaf", show.fault(refusal))
        for height, line in sorted(placed, key=lambda entry: entry[0]):
            self.write(line)

    def part_of(self, words, placed, leaves):
        """The rule that words write, with its height, which is 0 for a sheet. The lines of fit questions go to `placed`, each with the height of its combination, and the refusals
        of sheets to `leaves`."""
        word = words.pop(0)
        if word in ("T", "N"):
            try:
                return (sheets.table if word == "T" else sheets.nfa)(data_of(words.pop(0))), 0
            except Fault as refusal:
                leaves.append(refusal)
                return rules.BLANK, 0
        if word == "C":
            rule, height = self.part_of(words, placed, leaves)
            return rules.complement(rule), height + 1
        one, height_of_one = self.part_of(words, placed, leaves)
        other, height_of_other = self.part_of(words, placed, leaves)
        height = max(height_of_one, height_of_other) + 1
        states = one.count + other.count if word == "U" else one.count * other.count
        refusal = rules.fits(one, other, states)
        fit = "ok" if refusal is None else show.fault(refusal)
        placed.append((height, f"fits {fit} {one.count} {one.letters} {other.count} {other.letters} {states}"))
        return {"I": rules.intersection, "U": rules.union, "D": rules.difference}[word](one, other), height

    def on_rule(self, *words):
        placed, leaves = [], []
        rule, _ = self.part_of(list(words), placed, leaves)
        self.single = None if words[0] != "N" or leaves else sheets.Automaton(data_of(words[1]))
        self.write_made(placed, leaves)
        self.write(show.rule(rule))
        register = Register(rule)
        for word, rest in self.until_end():
            if not self.asked(rule, word, rest):
                getattr(self, "register_" + word)(register, *map(int, rest))

    def on_table(self):
        self.hold(sheets.TableHolder())

    def on_nfa(self):
        self.hold(sheets.NfaHolder())

    def hold(self, holder):
        self.single = None
        for word, rest in self.until_end():
            if word in ("open", "replace"):
                try:
                    holder.open(data_of(rest[0]))
                    self.write("ok")
                except Fault as refusal:
                    self.write(show.fault(refusal))
                self.single = holder.automaton
                self.write(show.rule(holder.rule))
            else:
                assert self.asked(holder.rule, word, rest)

    def until_end(self):
        for word, *rest in self.lines():
            if word == "end":
                return
            yield word, rest

    # Questions to a rule.

    def asked(self, rule, word, rest):
        """Answers a question to the rule itself, if it is one."""
        ask = getattr(self, "ask_" + word, None)
        if ask is None:
            return False
        ask(rule, *rest)
        return True

    def ask_keeps(self, rule, form, data):
        word = rules.spelled(form, data_of(data))
        self.write(show.answer(lambda: int(calls.keeps(rule, word, self.single))))

    def ask_walk(self, rule, state, form, data):
        self.write(show.answer(lambda: rules.walk(rule, int(state), rules.spelled(form, data_of(data)))))

    def ask_kept(self, rule, state):
        there = int(state) < rule.count
        self.write(show.answer(lambda: int(rule.kept_at(int(state)))), int(there and rule.kept[int(state)]))

    def ask_next(self, rule, state, letter):
        self.write(show.answer(lambda: rule.next_from(int(state), int(letter))))

    def ask_first(self, rule, size, room):
        try:
            cells, word = searches.first_kept(rule, int(size), int(room))
            said = f"ok {'none' if word is None else len(word)} {len(cells)}"
        except Fault as refusal:
            cells, word, said = [], None, show.fault(refusal)
        self.write(said, show.cell_buffer(int(size), cells, False), show.word_buffer(int(room), word))

    # Calls on a register.

    def register_compare(self, register, p, q, size, room):
        try:
            cells, word = register.compare(p, q, size, room)
            if word is None:
                said = f"ok 0 {len(cells)}"
            else:
                said = f"ok 1 {len(word)} {p if register.kept_by(p, q, word) else q} {len(cells)}"
        except Fault as refusal:
            cells, word, said = [], None, show.fault(refusal)
        self.write(said, show.cell_buffer(size, cells, True), show.word_buffer(room, word))

    def register_joined(self, register, p, q):
        self.write(show.answer(lambda: int(register.joined(p, q))))

    def register_count(self, register):
        self.write(f"ok {register.class_count()}")

    def register_clear(self, register):
        register.clear()

    def register_classes(self, register):
        states = range(register.rule.count)
        self.write("ok", show.row(next(other for other in states if register.joined(other, state)) for state in states))
