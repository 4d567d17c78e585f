#!/usr/bin/env python3
"""A second implementation of opening and writing chain files, written from docs/ alone.

    python3 tools/file_cases.py > crates/file_cases/stdout       what the program file_cases has to print
    python3 tools/file_cases.py --data crates/file_cases/data    chain D's file, chain_d.chn, which it reads
"""

import sys
from pathlib import Path
from typing import NamedTuple


class Refused(Exception):
    def __init__(self, number, place):
        super().__init__(number, place)
        self.number = number
        self.place = place


class Row(NamedTuple):
    rates: list
    edges: list  # pairs of a successor and its coefficients


class Chain(NamedTuple):
    rates: int
    unit: int
    start: int
    marks: list
    rows: list


class Field:
    """Reads numbers one after the other. One that is cut off is refused at the end of what is read."""

    def __init__(self, data, place, end, number):
        self.data = data
        self.place = place
        self.end = end
        self.number = number

    def take(self, width, lawful, signed=False):
        place = self.place
        if place + width > self.end:
            raise Refused(self.number, self.end)
        value = int.from_bytes(self.data[place : place + width], "little", signed=signed)
        if not lawful(value):
            raise Refused(self.number, place)
        self.place = place + width
        return value


def is_exactly(wanted):
    return lambda value: value == wanted


def within(low, high):
    return lambda value: low <= value <= high


def any_number(_):
    return True


def open_contents(data):
    """The offset and the length of each body."""
    field = Field(data, 0, len(data), 1)
    field.take(2, is_exactly(1))
    field.take(2, is_exactly(4))
    bodies = []
    offset = 44
    for section in range(4):
        field.take(2, is_exactly(section + 1))
        field.take(4, is_exactly(offset))
        last = section == 3
        length = field.take(4, is_exactly(len(data) - offset) if last else any_number)
        bodies.append((offset, length))
        offset += length
    return bodies


def open_numbers(data, body):
    offset, length = body
    if length != 7:
        raise Refused(2, 10)
    field = Field(data, offset, offset + length, 2)
    states = field.take(2, within(1, 4096))
    rates = field.take(1, within(1, 4))
    unit = field.take(2, within(1, 1000))
    start = field.take(2, within(0, states - 1))
    return states, rates, unit, start


def open_marks(data, body, states):
    offset, length = body
    if length != states:
        raise Refused(3, 20)
    field = Field(data, offset, offset + length, 3)
    return [field.take(1, within(0, 1)) for _ in range(states)]


def open_row(field, states, rates):
    named = []
    for _ in range(field.take(1, within(0, 3))):
        least = named[-1] + 1 if named else 0
        named.append(field.take(1, within(least, rates - 1)))
    edges = []
    for _ in range(field.take(1, within(1, 8))):
        least = edges[-1][0] + 1 if edges else 0
        successor = field.take(2, within(least, states - 1))
        coefficients = [field.take(2, within(-8000, 8000), signed=True) for _ in range(2 ** len(named))]
        edges.append((successor, coefficients))
    return Row(named, edges)


def has_right_sums(row, unit):
    sums = [sum(column) for column in zip(*(coefficients for _, coefficients in row.edges))]
    return sums == [unit] + [0] * (len(sums) - 1)


def open_rows(data, offsets, rows, states, rates, unit):
    if offsets[1] != 4 * states:
        raise Refused(4, 30)
    begin, length = rows
    offset_field = Field(data, offsets[0], offsets[0] + offsets[1], 4)
    row_field = Field(data, begin, begin + length, 4)
    opened = []
    for _ in range(states):
        place = row_field.place
        offset_field.take(4, is_exactly(place - begin))
        row = open_row(row_field, states, rates)
        if not has_right_sums(row, unit):
            raise Refused(5, place)
        opened.append(row)
    if row_field.place != begin + length:
        raise Refused(4, 40)
    return opened


def open_chain(data):
    bodies = open_contents(data)
    states, rates, unit, start = open_numbers(data, bodies[0])
    marks = open_marks(data, bodies[1], states)
    rows = open_rows(data, bodies[2], bodies[3], states, rates, unit)
    return Chain(rates, unit, start, marks, rows)


def put(value, width):
    return value.to_bytes(width, "little", signed=value < 0)


def write_row(row):
    data = put(len(row.rates), 1) + bytes(row.rates) + put(len(row.edges), 1)
    for successor, coefficients in row.edges:
        data += put(successor, 2) + b"".join(put(coefficient, 2) for coefficient in coefficients)
    return data


def write_chain(chain):
    rows = [write_row(row) for row in chain.rows]
    offsets = [sum(len(row) for row in rows[:state]) for state in range(len(rows))]
    bodies = [
        put(len(rows), 2) + put(chain.rates, 1) + put(chain.unit, 2) + put(chain.start, 2),
        bytes(chain.marks),
        b"".join(put(offset, 4) for offset in offsets),
        b"".join(rows),
    ]
    data = put(1, 2) + put(4, 2)
    offset = 44
    for section, body in enumerate(bodies):
        data += put(section + 1, 2) + put(offset, 4) + put(len(body), 4)
        offset += len(body)
    return data + b"".join(bodies)


def loop(state, unit):
    return Row([], [(state, [unit])])


def first_chain():
    """What a stored chain begins as."""
    return Chain(rates=1, unit=1, start=0, marks=[0], rows=[loop(0, 1)])


def chain_d():
    rows = [
        Row([0], [(1, [0, 1]), (3, [1, -1])]),
        Row([1], [(0, [0, 1]), (2, [1, -1])]),
        loop(2, 1),
        loop(3, 1),
    ]
    return Chain(rates=2, unit=1, start=0, marks=[0, 0, 1, 0], rows=rows)


def pass_line(passes, repeats):
    states = passes * (repeats + 1) + 2
    rows = []
    for state in range(states - 2):
        next_pass = (state // (repeats + 1) + 1) * (repeats + 1)
        if state % (repeats + 1) < repeats:
            edges = [(state + 1, [0, 1, 0, -1]), (next_pass, [1, -1, 0, 0]), (states - 1, [0, 0, 0, 1])]
            rows.append(Row([0, 1], edges))
        else:
            rows.append(Row([0], [(next_pass, [1, -1]), (states - 1, [0, 1])]))
    rows += [loop(states - 2, 1), loop(states - 1, 1)]
    return Chain(rates=2, unit=1, start=0, marks=[0] * (states - 1) + [1], rows=rows)


def mark_of(chain, state):
    if state >= len(chain.rows):
        raise Refused(13, 0)
    return chain.marks[state]


def row_of(chain, state):
    if state >= len(chain.rows):
        raise Refused(13, 0)
    return chain.rows[state]


def answer(call, *arguments, end=None):
    """What a call says; a refusal at the end of the file is told as such, since the end moves from cut to cut."""
    try:
        call(*arguments)
        return "opens"
    except Refused as refused:
        place = "at the end" if refused.place == end else refused.place
        return f"refused {refused.number} {place}"


def show_runs(label, answers):
    """Each run of equal answers, with the numbers that get it, counted from 0."""
    shown = []
    first = 0
    for last, this in enumerate(answers):
        if last + 1 < len(answers) and answers[last + 1] == this:
            continue
        shown.append(f"{first} to {last} {this}" if first < last else f"{last} {this}")
        first = last + 1
    print(f"{label}: " + ", ".join(shown))


def move_end(data, section):
    """One byte more for a section's body: the next body's first, or one at the end of the file."""
    at = 10 + 10 * section
    length = int.from_bytes(data[at : at + 4], "little")
    data = data[:at] + put(length + 1, 4) + data[at + 4 :]
    if section == 3:
        return data + b"\0"
    offset = int.from_bytes(data[at + 6 : at + 10], "little")
    length = int.from_bytes(data[at + 10 : at + 14], "little")
    return data[: at + 6] + put(offset + 1, 4) + put(length - 1, 4) + data[at + 14 :]


def show_damaged(data):
    cuts = [data[:end] for end in range(len(data) + 1)]
    show_runs("cut", [answer(open_chain, cut, end=len(cut)) for cut in cuts])
    begin = int.from_bytes(data[36:40], "little")
    cuts = [data[:40] + put(end - begin, 4) + data[44:end] for end in range(begin, len(data) + 1)]
    show_runs("rows cut", [answer(open_chain, cut, end=len(cut)) for cut in cuts])
    show_runs("end moved", [answer(open_chain, move_end(data, section)) for section in range(4)])
    for place in range(len(data)):
        changed = [data[:place] + bytes([value]) + data[place + 1 :] for value in range(256)]
        show_runs(f"byte {place}", [answer(open_chain, file) for file in changed])


def show_numbers(chain):
    print(f"states {len(chain.rows)}, rates {chain.rates}, unit {chain.unit}, start {chain.start}")


def show_written(chain, data):
    print("written again: " + ("same bytes" if write_chain(chain) == data else "other bytes"))


def show_file(chain):
    show_numbers(chain)
    data = write_chain(chain)
    print(f"{len(data)} bytes")
    for begin in range(0, len(data), 16):
        print(" " + data[begin : begin + 16].hex(" "))
    print(answer(open_chain, data))
    show_written(open_chain(data), data)


def show_kept(data, damaged, state):
    chain = open_chain(data)
    print(answer(open_chain, data))
    print("then " + answer(open_chain, damaged))
    show_numbers(chain)
    show_written(chain, data)
    print(f"mark {state}: " + answer(mark_of, chain, state))
    kept = row_of(chain, 0)
    print(f"row {state}: {answer(row_of, chain, state)}, the record keeps rates {len(kept.rates)}, edges {len(kept.edges)}")


def main():
    data = write_chain(chain_d())
    if len(sys.argv) == 3 and sys.argv[1] == "--data":
        (Path(sys.argv[2]) / "chain_d.chn").write_bytes(data)
        return
    show_damaged(data)
    print("a new stored chain")
    show_file(first_chain())
    print("a pass line of 2 passes and 1 repeat")
    show_file(pass_line(2, 1))
    print("chain D, then a damaged file")
    show_kept(data, data[:78] + b"\x02" + data[79:], 4)


main()
