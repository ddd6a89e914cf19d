"""A tour of the library from Python: a machine of a controller, number 3, and two pumps, 7 and 12, is entered, read, counted and changed.

Once `rt lib` in crates/nahokipe has written the archive, these lines make a shared object of it and run the tour, in the repository's root:

    cc -shared -o libnahokipe.so -Wl,--whole-archive crates/nahokipe/out/libnahokipe.a -Wl,--no-whole-archive
    python3 examples/tour.py ./libnahokipe.so

It prints what stands in examples/tour.txt.
"""

import ctypes
import sys
from ctypes import c_int64, c_size_t, c_uint8, c_uint16, c_uint64

# As in include/nahokipe.h.
MOST_PARTS = 16
MOST_ENTRIES = 17
LONGEST_TABLE = 8192
LONGEST_RECORD = 39217
UNKNOWN_POSITION = 17


class Answer(ctypes.Structure):
    """What a call answers: number 0 and what is given, or a refusal's number and place."""

    _fields_ = [("number", c_uint8), ("value", c_size_t)]


class Record(ctypes.Structure):
    """What reading a record answers."""

    _fields_ = [
        ("number", c_uint8),
        ("value", c_size_t),
        ("parts", c_size_t),
        ("mark", c_uint64),
        ("numbers", c_uint64 * MOST_PARTS),
        ("sets", c_size_t),
        ("offset", c_size_t),
        ("length", c_size_t),
    ]


class Step(ctypes.Structure):
    """A step of a walk along the sets of a record."""

    _fields_ = [("given", c_uint8), ("set", c_uint64), ("next", c_size_t), ("left", c_size_t)]


def function(library, name, answer, *parameters):
    """A function of the library. A slice is two parameters, an array and its length."""
    found = getattr(library, "nahokipe_" + name)
    found.restype = answer
    found.argtypes = parameters
    return found


class Library:
    """The functions of the tour, each with the answer and the parameters that the header gives it."""

    def __init__(self, path):
        library = ctypes.CDLL(path)
        size, number = c_size_t, c_uint64
        cells, entries, sets, octets = (ctypes.POINTER(kind) for kind in (c_uint64, c_int64, c_uint16, c_uint8))
        record, wanted, room = (octets, size), (cells, size), (octets, size)
        four = (entries, size, entries, size, entries, size, cells, size)
        self.whole_record = function(library, "whole_record", Record, *record)
        self.next_set = function(library, "next_set", Step, *record, size, size)
        self.mask_of = function(library, "mask_of", Answer, *wanted, *wanted)
        self.numbers_of = function(library, "numbers_of", Answer, *wanted, size, cells, size)
        self.entered_record = function(library, "entered_record", Answer, number, *wanted, sets, size, *room)
        self.table_of_record = function(library, "table_of_record", Answer, *record, *room)
        self.figures = function(library, "figures", Answer, size, *record, *four)
        self.take_out_part = function(library, "take_out_part", Answer, *record, number, *room)
        self.add_part = function(library, "add_part", Answer, *record, *room)


def array(kind, values):
    """An array of C, and its length."""
    return (kind * len(values))(*values), len(values)


def given(call, answer):
    """What a call gives; a refusal is said, and ends the tour."""
    if answer.number != 0:
        print(f"{call}: refused {answer.number} {answer.value}")
        sys.exit(1)
    return answer.value


def written(call, work):
    """The bytes that a call writes into a buffer that is always enough."""
    buffer = (c_uint8 * LONGEST_RECORD)()
    return bytes(buffer[: given(call, work(buffer, len(buffer)))])


def read_record(library, record):
    """The record that the bytes are."""
    read = library.whole_record(*array(c_uint8, record))
    given("whole_record", read)
    return read


def sets_of(library, record, read):
    """The sets of a record, one after the other, as masks of positions."""
    following, left = read.offset, read.sets
    while left > 0:
        step = library.next_set(*array(c_uint8, record), following, left)
        following, left = step.next, step.left
        yield step.set


def print_record(library, what, record):
    """The bytes, the part numbers, the mark, and every set by part numbers."""
    read = read_record(library, record)
    numbers = read.numbers[: read.parts]
    print(f"{what}:", *(f"{octet:02X}" for octet in record))
    print("  parts", *numbers)
    print("  mark", read.mark)
    for mask in sets_of(library, record, read):
        names = (c_uint64 * MOST_PARTS)()
        answer = library.numbers_of(*array(c_uint64, numbers), mask, names, MOST_PARTS)
        print("  set", *names[: given("numbers_of", answer)])


def print_figures(library, record):
    """In how many of the orders in which the parts can fail each failure, and each part's failure, stops the machine."""
    read = read_record(library, record)
    table = (c_uint8 * LONGEST_TABLE)()
    length = given("table_of_record", library.table_of_record(*array(c_uint8, record), table, LONGEST_TABLE))
    counts, signature, domination = ((c_int64 * MOST_ENTRIES)() for _ in range(3))
    importance = (c_uint64 * MOST_PARTS)()
    rooms = (counts, MOST_ENTRIES, signature, MOST_ENTRIES, domination, MOST_ENTRIES, importance, MOST_PARTS)
    given("figures", library.figures(read.parts, table, length, *rooms))
    orders = sum(signature[: read.parts])
    for failure in range(read.parts):
        print(f"failure {failure + 1} stops it in {signature[failure]} of {orders} orders")
    for position in range(read.parts):
        print(f"part {read.numbers[position]} stops it in {importance[position]} of {orders} orders")


def main(path):
    library = Library(path)
    numbers = array(c_uint64, [3, 7, 12])
    wanted = [array(c_uint64, [3, 7]), array(c_uint64, [3, 12])]
    sets = array(c_uint16, [given("mask_of", library.mask_of(*numbers, *names)) for names in wanted])
    machine = written("entered_record", lambda *room: library.entered_record(15, *numbers, *sets, *room))
    print_record(library, "entered", machine)
    print_figures(library, machine)

    changed = written("take_out_part", lambda *room: library.take_out_part(*array(c_uint8, machine), 7, *room))
    print_record(library, "part 7 taken out", changed)
    machine = written("add_part", lambda *room: library.add_part(*array(c_uint8, changed), *room))
    print_record(library, "a part added", machine)

    buffer = (c_uint8 * LONGEST_RECORD)()
    answer = library.take_out_part(*array(c_uint8, machine), 7, buffer, LONGEST_RECORD)
    print(f"part 7 taken out again: refused {answer.number} {answer.value}")
    return 0 if answer.number == UNKNOWN_POSITION else 1


if __name__ == "__main__":
    if len(sys.argv) != 2:
        sys.exit("tour.py needs the path of the shared object: python3 examples/tour.py ./libnahokipe.so")
    sys.exit(main(sys.argv[1]))
