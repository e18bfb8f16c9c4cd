"""The C interface as Python calls it: the names and structures of its header, and calls on memory of which every byte is told afterwards."""

import ctypes
import re

ENOUGH = 2**62
TYPES = {"size_t": ctypes.c_size_t, "uint8_t": ctypes.c_uint8}
GUARD = 16


def structure_of(name, fields):
    return type(name, (ctypes.Structure,), {"_fields_": [(field, TYPES[kind]) for kind, field in fields]})


class Header:
    def __init__(self, text):
        self.text = text

    def body(self, what, name):
        return re.search(rf"{what} lanthuvel_{name} {{(.*?)}};", self.text, re.S).group(1)

    def constants(self, name):
        """The numbers of an enum, by their names."""
        return {constant: int(number) for constant, number in re.findall(r"LANTHUVEL_(\w+) = (\d+)", self.body("enum", name))}

    def structure(self, name):
        return structure_of(name, re.findall(r"(\w+) (\w+);", self.body("struct", name)))


def pattern(size):
    """What stands in memory that is to be written: no letters, and no numbers of an answer."""
    return bytes(200 + i % 50 for i in range(size))


def room_for(structure):
    return pattern(ctypes.sizeof(structure))


def framed(data):
    """Some bytes between guard bytes."""
    return pattern(GUARD) + data + pattern(GUARD)


class Memory:
    """Bytes that a call is given a pointer to, which is null where it is asked for and there are none, and the guard bytes on both sides."""

    def __init__(self, data, null=False):
        self.length = len(data)
        self.size = len(framed(data))
        # Wide items, so that structures may stand here.
        self.held = (ctypes.c_uint64 * (self.size // 8 + 1))()
        ctypes.memmove(self.held, framed(data), self.size)
        self.pointer = None if null and not data else ctypes.addressof(self.held) + GUARD

    def all(self):
        return ctypes.string_at(self.held, self.size)

    def inside(self):
        return self.all()[GUARD:-GUARD]

    def around(self):
        return self.all()[:GUARD] + self.all()[-GUARD:]

    def numbers(self, structure):
        """The fields of a structure that stands here."""
        read = structure.from_buffer_copy(self.inside())
        return {field: getattr(read, field) for field, _ in structure._fields_}


class Library:
    def __init__(self, path, header):
        self.functions = ctypes.CDLL(path)
        self.refusal = header.structure("refusal")
        kept = structure_of("kept", [("uint8_t", "kept")])
        self.answers = {"settle": header.structure("settlement"), "relate": header.structure("relation"), "table_keeps": kept, "nfa_keeps": kept}
        for name in self.answers:
            function = self.function(name)
            slices = 4 if name == "relate" else 3 if name == "settle" else 2
            function.argtypes = [ctypes.c_void_p, ctypes.c_size_t] * slices + [ctypes.c_void_p] * 2
            function.restype = ctypes.c_uint8

        self.functions.memory_allow.argtypes = [ctypes.c_long]
        self.functions.memory_held.restype = ctypes.c_long

    def function(self, name):
        return getattr(self.functions, "lanthuvel_" + name)

    def untouched(self, name):
        """What stands in the place of an answer before the call, and around it."""
        return framed(room_for(self.answers[name]))

    def call(self, name, given, rooms, null, pieces=ENOUGH):
        """All that a call leaves: given slices, and buffers of some lengths, with the guard bytes around them; the refusal; the answer, which is told in bytes if it should not have
        been written; and how many pieces of memory it holds still. Empty slices are null pointers if `null` says so, and it is handed so many pieces of memory."""
        slices = [Memory(data, null) for data in given]
        buffers = [Memory(pattern(room), null) for room in rooms]
        answer, refusal = (Memory(room_for(structure)) for structure in (self.answers[name], self.refusal))
        lent = [part for memory in slices + buffers for part in (memory.pointer, memory.length)]
        self.functions.memory_allow(pieces)
        status = self.function(name)(*lent, answer.pointer, refusal.pointer)
        return told(
            status,
            refusal.numbers(self.refusal),
            answer.all() if status else answer.numbers(self.answers[name]),
            [memory.all() for memory in slices],
            [memory.all() for memory in buffers],
            refusal.around() + answer.around(),
            self.functions.memory_held(),
        )


def told(status, refusal, answer, slices, buffers, around=framed(b"") * 2, held=0):
    """What a call left, by what it is."""
    lines = {"status": status, "refusal": refusal, "answer": answer, "around refusal and answer": around, "pieces of memory held": held}
    lines |= {f"given slice {i}": data for i, data in enumerate(slices, 1)}
    lines |= {f"buffer {i}": data for i, data in enumerate(buffers, 1)}
    return lines
