"""The judge of a sheet: judge.py FILE... prints `NAME: LINE` for each; with no file it judges standard input.

Written from docs/FORMATS.md, docs/RULES.md and docs/REFUSALS.md. The checks stand in the documents'
sequence: the first that fails decides.
"""

from __future__ import annotations

import sys
from functools import reduce
from operator import or_
from typing import List, NamedTuple, Optional, Set, Union

import judges
from nets import (
    MOST_ARCS,
    MOST_PLACES,
    MOST_STEPS,
    PLACES_OUT_OF_RANGE,
    TOO_MANY_STEPS_OR_ARCS,
    WRONG_LENGTH,
    Refused,
    load_chained,
)

HEAD = 4
SPARE = 1_000_000
BOARD_LIMIT = 2_147_483_647
DONE_LIMIT = 65_535
ORDER_MEMORY = 4_096
EXACT, AT_LEAST = 0, 1

ROWS_UNFIT = 7
DONE_ABOVE_LIMIT = 8
ORDER_MEMORY_SHORT = 9
SPARE_SHORT = 10
SHORT = 11
CUT_OFF = 12
MISSED = 13
BOARD_ROW_UNFIT = 19


class Sheet(NamedTuple):
    """What a sheet says, once its bytes are found fit."""

    net: judges.Net
    start: List[int]
    tally: List[int]
    kind: int
    target: List[int]


# From bytes to a sheet.


def numbers(data: bytes, at: int, size: int, count: int) -> List[int]:
    """`count` numbers of `size` bytes each, high byte first."""
    return [int.from_bytes(data[i : i + size], "big") for i in range(at, at + size * count, size)]


def read(data: bytes) -> Union[Sheet, Refused]:
    """The sheet, or the first fault of its bytes."""
    if len(data) < HEAD:
        return Refused(WRONG_LENGTH, 0)
    places, steps, arcs = data[0], data[1], data[2] * 256 + data[3]
    if not 1 <= places <= MOST_PLACES:
        return Refused(PLACES_OUT_OF_RANGE, 0)
    if steps > MOST_STEPS or arcs > MOST_ARCS:
        return Refused(TOO_MANY_STEPS_OR_ARCS, 0)
    start_at = HEAD + 3 * steps + 4 * arcs
    tally_at = start_at + 4 * places
    kind_at = tally_at + 2 * steps
    if len(data) != kind_at + 1 + 4 * places:
        return Refused(WRONG_LENGTH, 0)

    loaded = load_chained(data[:start_at])
    if isinstance(loaded, Refused):
        return loaded
    if data[kind_at] not in (EXACT, AT_LEAST):
        return Refused(ROWS_UNFIT, 0)
    net = judges.Net(
        places,
        tuple(loaded.input_of(t) for t in range(steps)),
        tuple(tuple(loaded.yield_at(t, p) for p in range(places)) for t in range(steps)),
    )
    start, tally = numbers(data, start_at, 4, places), numbers(data, tally_at, 2, steps)
    return Sheet(net, start, tally, data[kind_at], numbers(data, kind_at + 1, 4, places))


# From a sheet to its verdict.


def size_refusal(sheet: Sheet) -> Optional[Refused]:
    """The first size that does not fit: the board, the done row, the order memory, the spare."""
    if sum(sheet.start) + SPARE > BOARD_LIMIT:
        return Refused(BOARD_ROW_UNFIT, 0)
    total = sum(sheet.tally)
    if total > DONE_LIMIT:
        return Refused(DONE_ABOVE_LIMIT, 0)
    if total > ORDER_MEMORY:
        return Refused(ORDER_MEMORY_SHORT, 0)
    if sum(n * sum(row) for n, row in zip(sheet.tally, sheet.net.yields)) > SPARE:
        return Refused(SPARE_SHORT, 0)
    return None


def place_refusal(sheet: Sheet) -> Optional[Refused]:
    """What is wrong with the tally itself: short before cut off before missed, and the least such place."""
    finals = judges.final_numbers(sheet.net, sheet.start, sheet.tally)
    short = [p for p, number in enumerate(finals) if number < 0]
    if short:
        return Refused(SHORT, short[0])
    cut_off = judges.cut_off_places(sheet.net, sheet.start, sheet.tally)
    if cut_off:
        return Refused(CUT_OFF, min(cut_off))
    for place, (number, wanted) in enumerate(zip(finals, sheet.target)):
        if number < wanted or (sheet.kind == EXACT and number > wanted):
            return Refused(MISSED, place)
    return None


class Order:
    """The first order, found step by step: the least safe step each time.

    Sets of places and of steps are whole numbers, with a binary digit for each member.
    """

    def __init__(self, sheet: Sheet) -> None:
        self.inputs = sheet.net.inputs
        self.yields = [[(p, n) for p, n in enumerate(row) if n] for row in sheet.net.yields]
        self.leads = [sum(1 << p for p, _ in row) for row in self.yields]
        self.counts = list(sheet.start)
        self.left = list(sheet.tally)
        self.held = sum(1 << p for p, n in enumerate(self.counts) if n)
        self.asked = sum(1 << t for t, n in enumerate(self.left) if n)
        self.known = {}

    def all_reached(self, held: int, asked: int) -> bool:
        """Whether no place is cut off: every input of a step asked for is reached from the held places."""
        if (held, asked) not in self.known:
            steps = {t for t in range(len(self.left)) if asked >> t & 1}
            self.known[held, asked] = self.all_reach(held, steps)
        return self.known[held, asked]

    def all_reach(self, reached: int, waiting: Set[int]) -> bool:
        """Whether the reached places grow until they have the inputs of all these steps."""
        while waiting:
            ready = {t for t in waiting if reached >> self.inputs[t] & 1}
            if not ready:
                return False
            reached = reduce(or_, (self.leads[t] for t in ready), reached)
            waiting = waiting - ready
        return True

    def is_safe(self, step: int) -> bool:
        """Whether a step that is left can be fired, and leaves no place cut off where none was."""
        place = 1 << self.inputs[step]
        if not self.held & place:
            return False
        emptied = place if self.counts[self.inputs[step]] == 1 else 0
        held = self.held & ~emptied | self.leads[step]
        if held & emptied == emptied:
            return True  # every place that held a block still does, so what was reached is reached
        return self.all_reached(held, self.asked & ~((self.left[step] == 1) << step))

    def fire(self, step: int) -> None:
        """Counts the step down and moves its blocks."""
        self.left[step] -= 1
        self.asked &= ~((self.left[step] == 0) << step)
        place = self.inputs[step]
        self.counts[place] -= 1
        self.held &= ~((self.counts[place] == 0) << place)
        for put, blocks in self.yields[step]:
            self.counts[put] += blocks
        self.held |= self.leads[step]

    def steps(self) -> List[int]:
        """The whole order."""
        order = []
        for _ in range(sum(self.left)):
            step = next(t for t, n in enumerate(self.left) if n and self.is_safe(t))
            self.fire(step)
            order.append(step)
        return order


# From a verdict to its line.


def judge(data: bytes) -> str:
    """The line of a sheet, without its end."""
    sheet = read(data)
    refused = sheet if isinstance(sheet, Refused) else size_refusal(sheet) or place_refusal(sheet)
    if refused is not None:
        return f"no {refused.number} {refused.detail}"
    return " ".join(["ok", *map(str, Order(sheet).steps())])


def verdict(line: str) -> str:
    """What a line says in short: `ok`, or `no` with the refusal's number."""
    return "ok" if line.startswith("ok") else line.rsplit(" ", 1)[0]


def main(names: List[str]) -> int:
    if not names:
        print(judge(sys.stdin.buffer.read()))
    status = 0
    for name in names:
        try:
            with open(name, "rb") as file:
                data = file.read()
        except OSError as error:
            print(f"{name}: {error.strerror}", file=sys.stderr)
            status = 2
            continue
        print(f"{name}: {judge(data)}")
    return status


if __name__ == "__main__":
    sys.exit(main(sys.argv[1:]))
