"""Sheets by chance: well formed, nearly well formed and damaged ones, from tiny to the largest."""

from __future__ import annotations

from typing import List, NamedTuple, Sequence

from judge import BOARD_LIMIT, DONE_LIMIT, ORDER_MEMORY, SPARE
from judges import Net, final_numbers, fire
from make_net_table import Chance, Meaning, as_chained, damaged
from nets import MOST_ARCS
from sheets import Sheet, one_at, row


class Size(NamedTuple):
    """At most so many places, steps, and steps to fire."""

    places: int
    steps: int
    fired: int


TINY = Size(5, 6, 12)
MIDDLE = Size(20, 30, 160)
LARGE = Size(64, 128, ORDER_MEMORY)


# Nets by chance.


def moving_rows(chance: Chance, inputs: Sequence[int], places: int) -> List[List[int]]:
    """Each step moves its block to a place, so that blocks come back only by rings."""
    return [one_at(chance.below(places), places) for _ in inputs]


def ring_rows(chance: Chance, inputs: Sequence[int], places: int) -> List[List[int]]:
    """Each step moves its block to the next place, but for some that lead elsewhere."""
    return [one_at(chance.below(places) if chance.one_in(5) else (p + 1) % places, places) for p in inputs]


def yielding_rows(chance: Chance, inputs: Sequence[int], places: int) -> List[List[int]]:
    """Each step yields at one to three places, mostly 1."""
    rows = []
    for _ in inputs:
        yields = [0] * places
        for _ in range(chance.pick((1, 1, 1, 2, 3))):
            yields[chance.below(places)] = chance.pick((1, 1, 1, 1, 2, 3, chance.within(1, 255)))
        rows.append(yields)
    return rows


def random_net(chance: Chance, size: Size) -> Net:
    """A net whose steps all yield something; the largest size nearly always fills its limits."""
    full = size == LARGE and not chance.one_in(4)
    places = size.places if full else chance.within(1, size.places)
    steps = size.steps if full else chance.below(size.steps + 1)
    inputs = [chance.below(places) for _ in range(steps)]
    if chance.one_in(2):
        inputs = [t % places for t in range(steps)]
    rows = chance.pick((moving_rows, ring_rows, yielding_rows))(chance, inputs, places)
    return Net(places, tuple(inputs), tuple(map(tuple, rows)))


# What is asked of a net.


def walked(chance: Chance, net: Net, start: Sequence[int], most: int, back: bool) -> List[int]:
    """How often each step is in an order fired by chance from the start; with `back`, in its longest front
    that ends with no place below where it began, so that no place is short from any other start."""
    counts, kept, ends = [0] * net.steps, [0] * net.steps, tuple(start)
    for _ in range(chance.below(most + 1)):
        ready = [t for t in range(net.steps) if ends[net.inputs[t]] > 0]
        if not ready:
            break
        step = chance.pick(ready)
        counts[step] += 1
        ends = fire(net, ends, step)
        if not back or all(n >= m for n, m in zip(ends, start)):
            kept = list(counts)
    return kept


def random_start(chance: Chance, places: int) -> List[int]:
    """Few blocks, so that the last one at a place matters; sometimes many."""
    few = chance.pick(((0, 0, 0, 1), (0, 0, 1, 2), (0, 1, 1, 3), (1, 2, 5, 40)))
    return [chance.pick(few) for _ in range(places)]


def random_tally(chance: Chance, net: Net, start: Sequence[int], most: int) -> List[int]:
    """Fired from the start, from another start, by one block that comes back, or made of any numbers."""
    way = chance.below(10)
    if way < 5:
        return walked(chance, net, start, most, back=False)
    if way < 6:
        return walked(chance, net, random_start(chance, net.places), min(most, 60), back=False)
    if way < 9:
        return walked(chance, net, one_at(chance.below(net.places), net.places), min(most, 60), back=True)
    return [chance.pick((0, 0, 1, 1, 2, 3)) for _ in range(net.steps)]


def random_target(chance: Chance, finals: Sequence[int], kind: int) -> List[int]:
    """The final numbers, for an at-least target sometimes less, and seldom with one place off by one."""
    target = [max(number, 0) for number in finals]
    if kind == 1 and chance.one_in(2):
        target = [chance.below(number + 1) for number in target]
    if chance.one_in(6):
        place = chance.below(len(target))
        target[place] = max(target[place] + chance.pick((-1, 1)), 0)
    return target


def random_sheet(chance: Chance, size: Size) -> bytes:
    """A well-formed sheet; one that asks for no step is mostly thrown again."""
    net = random_net(chance, size)
    start = random_start(chance, net.places)
    tally = random_tally(chance, net, start, size.fired)
    if not any(tally) and not chance.one_in(10):
        return random_sheet(chance, size)
    return asking(chance, net, start, tally, fill=size == LARGE and chance.one_in(3))


def asking(chance: Chance, net: Net, start: Sequence[int], tally: Sequence[int], fill: bool = False) -> bytes:
    """The sheet that asks this, with a target by chance; `fill` brings the arcs to their limit."""
    kind = chance.below(2)
    target = random_target(chance, final_numbers(net, start, tally), kind)
    file = as_chained(chance, Meaning(net.places, list(zip(net.inputs, net.yields))))
    if fill:
        more = MOST_ARCS - int.from_bytes(file[2:4], "big")
        file = file[:2] + row([MOST_ARCS], 2) + file[4:] + bytes([chance.below(net.places), 1, 0, 0]) * more
    return Sheet(file, start, tally, kind, target).written()


def heavy_sheet(chance: Chance) -> bytes:
    """Yields near the spare: step 0 yields much at every place, step 1 one block, so that the sum falls
    where it should: just within the spare or just above it."""
    places = chance.within(2, 30)
    net = Net(places, (0, 1), (tuple(chance.within(130, 255) for _ in range(places)), tuple(one_at(1, places))))
    often = SPARE // sum(net.yields[0])
    rest = SPARE - often * sum(net.yields[0]) + chance.pick((-1, 0, 0, 1, 1, 2))
    tally = [min(often, ORDER_MEMORY), max(min(rest, ORDER_MEMORY - often), 0)]
    return asking(chance, net, [1] * places, tally)


# Nearly well formed: one field of a sheet changed to a number near a border.


class Parts(NamedTuple):
    """Where the parts of a sheet begin, by its head."""

    places: int
    steps: int
    arcs: int
    arcs_at: int
    start_at: int
    tally_at: int
    kind_at: int


def parts(data: bytes) -> Parts:
    """The parts of a well-formed sheet."""
    places, steps, arcs = data[0], data[1], data[2] * 256 + data[3]
    arcs_at = 4 + 3 * steps
    start_at = arcs_at + 4 * arcs
    tally_at = start_at + 4 * places
    return Parts(places, steps, arcs, arcs_at, start_at, tally_at, tally_at + 2 * steps)


def with_number(data: bytes, at: int, size: int, number: int) -> bytes:
    """The sheet with another number at an offset; one that does not fit becomes the nearest that does."""
    fitting = min(max(number, 0), 256**size - 1)
    return data[:at] + fitting.to_bytes(size, "big") + data[at + size :]


def sum_of_others(data: bytes, first: int, size: int, count: int, at: int) -> int:
    """The sum of the numbers of a row but for the one at an offset."""
    spots = range(first, first + size * count, size)
    return sum(int.from_bytes(data[spot : spot + size], "big") for spot in spots if spot != at)


def other_head(chance: Chance, data: bytes, where: Parts) -> bytes:
    at = chance.below(3)
    old = where[at]
    number = chance.pick((0, old - 1, old + 1, (64, 128, 1023)[at], (65, 129, 1024)[at], 65_535))
    return with_number(data, at, 2 if at == 2 else 1, number)


def other_step(chance: Chance, data: bytes, where: Parts) -> bytes:
    at = 4 + 3 * chance.below(where.steps)
    if chance.one_in(2):
        return with_number(data, at, 1, chance.pick((0, where.places - 1, where.places, where.places + 1, 255)))
    return with_number(data, at + 1, 2, chance.pick((0, 0, 0, 1, where.arcs, where.arcs + 1, 65_535)))


def other_arc(chance: Chance, data: bytes, where: Parts) -> bytes:
    number = chance.within(1, where.arcs)
    at = where.arcs_at + 4 * (number - 1)
    field = chance.below(3)
    if field == 0:
        return with_number(data, at, 1, chance.pick((0, where.places - 1, where.places, where.places + 1, 255)))
    if field == 1:
        return with_number(data, at + 1, 1, chance.pick((0, 0, 1, 255)))
    return with_number(data, at + 2, 2, chance.pick((number - 1, number, number + 1, where.arcs, where.arcs + 1)))


def other_start(chance: Chance, data: bytes, where: Parts) -> bytes:
    at = where.start_at + 4 * chance.below(where.places)
    room = BOARD_LIMIT - SPARE - sum_of_others(data, where.start_at, 4, where.places, at)
    return with_number(data, at, 4, chance.pick((0, 1, room - 1, room, room + 1, BOARD_LIMIT, 2**32 - 1)))


def other_tally(chance: Chance, data: bytes, where: Parts) -> bytes:
    at = where.tally_at + 2 * chance.below(where.steps)
    others = sum_of_others(data, where.tally_at, 2, where.steps, at)
    old = data[at] * 256 + data[at + 1]
    totals = (ORDER_MEMORY, ORDER_MEMORY + 1, DONE_LIMIT, DONE_LIMIT + 1, DONE_LIMIT + 2)
    return with_number(data, at, 2, chance.pick((0, old - 1, old + 1, *(total - others for total in totals))))


def other_kind(chance: Chance, data: bytes, where: Parts) -> bytes:
    return with_number(data, where.kind_at, 1, chance.pick((0, 1, 2, 3, 128, 255)))


def other_target(chance: Chance, data: bytes, where: Parts) -> bytes:
    at = where.kind_at + 1 + 4 * chance.below(where.places)
    old = int.from_bytes(data[at : at + 4], "big")
    return with_number(data, at, 4, chance.pick((0, old - 1, old + 1, 2**31, 2**32 - 1)))


def other_length(chance: Chance, data: bytes, _: Parts) -> bytes:
    return chance.pick((data[:-1], data[:-4], data + b"\0", data + b"\0\0\0\0", data[: chance.below(len(data))]))


def nearly(chance: Chance, data: bytes) -> bytes:
    """A well-formed sheet with one or two fields changed."""
    where = parts(data)
    changes = [other_head, other_kind, other_length, other_start, other_start, other_target]
    changes += [other_step, other_tally, other_tally] if where.steps else []
    changes += [other_arc] if where.arcs else []
    change = chance.pick(changes)
    if chance.one_in(4):
        first = chance.pick([c for c in changes if c not in (other_head, other_length)])
        data = first(chance, data, where)
    return change(chance, data, where)


def wild(chance: Chance) -> bytes:
    """Small bytes behind a small head, often as many as the head tells."""
    head = bytes([chance.below(4), chance.below(4), 0, chance.below(4)])
    told = parts(head).kind_at + 1 + 4 * head[0] - 4
    length = told if chance.one_in(2) else chance.below(told + 9)
    data = head + bytes(chance.pick((0, 0, 0, 1, 1, 2, 3, 4)) for _ in range(length))
    return data[: chance.below(6)] if chance.one_in(8) else data


# All together.

SORTS = {
    "tiny": lambda chance: random_sheet(chance, TINY),
    "nearly tiny": lambda chance: nearly(chance, random_sheet(chance, TINY)),
    "damaged": lambda chance: damaged(chance, random_sheet(chance, TINY)),
    "wild": wild,
    "middle": lambda chance: random_sheet(chance, MIDDLE),
    "nearly middle": lambda chance: nearly(chance, random_sheet(chance, MIDDLE)),
    "heavy": heavy_sheet,
    "large": lambda chance: random_sheet(chance, LARGE),
    "nearly large": lambda chance: nearly(chance, random_sheet(chance, LARGE)),
}
OF_A_THOUSAND = dict(zip(SORTS, (380, 260, 110, 56, 90, 60, 12, 24, 8)))
A_THOUSAND = [sort for sort, often in OF_A_THOUSAND.items() for _ in range(often)]


def any_sheet(chance: Chance) -> bytes:
    """A sheet of any sort, most of them small."""
    return SORTS[chance.pick(A_THOUSAND)](chance)
