"""Sheets made by hand for the table, each with its line: limits, each refusal at several spots, two faults at once."""

from __future__ import annotations

from dataclasses import dataclass, field
from itertools import combinations
from typing import Iterator, List, NamedTuple, Optional, Sequence, Tuple, Union

from make_example_sheets import examples
from make_net_table import Arc, Meaning, Step, chained, swapped, three_spots
from sheets import Sheet, moves, one_at, plain_chained, row

EXACT, AT_LEAST = 0, 1
SPARE = 1_000_000
MOST_BLOCKS = 2_147_483_647 - SPARE  # that a start may have

Case = Tuple[bytes, str]


def stay(places: int, steps: int = 0) -> bytes:
    """A net whose step t takes a block at place t and puts it back; beyond the last place it goes on at place 0."""
    return plain_chained(moves(places, [(t % places, t % places) for t in range(steps or places)]))


def ok(*steps: int) -> str:
    """The line of an order."""
    return " ".join(["ok", *map(str, steps)])


# Examples and lengths.


def documented() -> Iterator[Case]:
    """The example sheets, and what is left of them when bytes are missing or too many."""
    for example in examples().values():
        yield example.sheet, example.line
    detour = examples()["detour"].sheet
    for length in range(len(detour)):
        yield detour[:length], "no 1 0"
    for more in (b"\0", b"\1", b"\0\0", b"\0\0\0\0", detour):
        yield detour + more, "no 1 0"


def every_byte_changed() -> Iterator[Tuple[bytes, None]]:
    """The detour and the lock with one byte changed, at every offset; the reference judges these."""
    for name in ("detour", "lock"):
        sheet = examples()[name].sheet
        for at, old in enumerate(sheet):
            for new in sorted({0, 1, old ^ 3, (old + 1) % 256, 255} - {old}):
                yield sheet[:at] + bytes([new]) + sheet[at + 1 :], None


def short_heads() -> Iterator[Case]:
    """Fewer bytes than a head, whatever they say."""
    for first in (0, 1, 64, 65, 255):
        for rest in (b"", b"\0", b"\x81", b"\0\0", b"\0\4", b"\x81\4"):
            yield bytes([first]) + rest, "no 1 0"


def head_fault(places: int, steps: int, arcs: int) -> Optional[str]:
    """The refusal that the sizes alone give."""
    if not 1 <= places <= 64:
        return "no 2 0"
    return "no 3 0" if steps > 128 or arcs > 1_023 else None


def sized(places: int, steps: int, arcs: int) -> bytes:
    """A sheet of these sizes that asks for nothing and is right but for them; steps share arc 1."""
    net = chained(places, [(0, min(arcs, 1))] * steps, [(0, 1, 0)] * arcs)
    return Sheet(net, [0] * places, [0] * steps, AT_LEAST, [0] * places).written()


def sizes() -> Iterator[Case]:
    """Sizes on both sides of each limit, with the right length, one byte less and one more."""
    some = [(p, t, a) for p in (0, 1, 64, 65) for t in (0, 1, 128, 129) for a in (0, 1)]
    for places, steps, arcs in (*some, (1, 0, 1_023), (1, 0, 1_024), (64, 128, 1_023), (255, 0, 0), (1, 255, 0)):
        data = sized(places, steps, arcs)
        fault = head_fault(places, steps, arcs)
        yield data, fault or ("no 6 0" if steps and not arcs else "ok")
        if len(data) < 6_000:
            yield data[:-1], fault or "no 1 0"
            yield data + b"\0", fault or "no 1 0"
    for places, steps, arcs in ((1, 0, 65_535), (64, 128, 1_024), (0, 129, 1_024), (65, 255, 65_535), (63, 127, 1_022)):
        yield bytes([places, steps]) + row([arcs], 2), head_fault(places, steps, arcs) or "no 1 0"


def lengths_told() -> Iterator[Case]:
    """Heads that tell one place, step or arc more or less than there is."""
    for places, steps, arcs in ((3, 3, 3), (1, 1, 1), (5, 2, 4)):
        data = sized(places, steps, arcs)
        for at, by in ((0, 1), (1, 1), (3, 1), (0, -1), (1, -1), (3, -1)):
            head = bytearray(data[:4])
            head[at] += by
            yield bytes(head) + data[4:], head_fault(head[0], head[1], head[3]) or "no 1 0"


# Each refusal at the first, a middle and the last step, arc or place.


def step_faults() -> Iterator[Case]:
    for places, steps, arcs in ((1, 1, 1), (3, 5, 4), (64, 7, 2), (2, 128, 3)):
        chain = [(0, 1, 0)] * arcs
        good = [(t % places, 1 + t % arcs) for t in range(steps)]
        for at in three_spots(0, steps - 1):
            for bad in ((places, 1), (255, 1), (0, arcs + 1), (0, 65_535), (places, 0)):
                yield nothing_asked(places, swapped(good, at, bad), chain), f"no 4 {at}"
            yield nothing_asked(places, swapped(good, at, (0, 0)), chain), f"no 6 {at}"
            yield nothing_asked(places, good[:at] + [(places, 1)] * (steps - at), chain), f"no 4 {at}"
            yield nothing_asked(places, good[:at] + [(0, 0)] * (steps - at), chain), f"no 6 {at}"
            yield nothing_asked(places, swapped(good, at, (places - 1, arcs)), chain), "ok"


def arc_faults() -> Iterator[Case]:
    for places, arcs in ((1, 1), (4, 3), (64, 20), (3, 300)):
        good = [(0, 1, 0)] * arcs
        for at in three_spots(1, arcs):
            for bad in ((places, 1, 0), (255, 1, 0), (0, 0, 0), (0, 1, at), (0, 1, arcs + 1), (0, 1, 65_535)):
                yield nothing_asked(places, [(0, 1)], swapped(good, at - 1, bad)), f"no 5 {at}"
            yield nothing_asked(places, [], good[: at - 1] + [(0, 0, 0)] * (arcs - at + 1)), f"no 5 {at}"
            yield nothing_asked(places, [(0, 1)], swapped(good, at - 1, (places - 1, 255, 0))), "ok"
            if at < arcs:
                # The next arc is at the same place; at a higher place it is allowed.
                yield nothing_asked(places, [(0, 1)], swapped(good, at - 1, (0, 1, arcs))), f"no 5 {at}"
                higher = swapped(swapped(good, arcs - 1, (1, 1, 0)), at - 1, (0, 1, arcs))
                yield nothing_asked(places, [(0, 1)], higher), "ok"


def nothing_asked(places: int, steps: Sequence[Step], arcs: Sequence[Arc]) -> bytes:
    """A sheet of this net with no block and no step asked for."""
    return Sheet(chained(places, steps, arcs), [0] * places, [0] * len(steps), EXACT, [0] * places).written()


def full_net() -> Tuple[List[Step], List[Arc]]:
    """128 steps and 1,023 arcs in chains through all 64 places."""
    arcs = []
    for number in range(1, 1_024):
        place = (number - 1) % 64
        arcs.append((place, 1, 0 if place == 63 or number == 1_023 else number + 1))
    return [(t % 64, 1_023 - 8 * t) for t in range(128)], arcs


def full_faults() -> Iterator[Case]:
    """Faults at the ends of the largest net."""
    steps, arcs = full_net()
    yield nothing_asked(64, steps, arcs), "ok"
    for at, bad in ((0, (64, 1)), (127, (0, 1_024))):
        yield nothing_asked(64, swapped(steps, at, bad), arcs), f"no 4 {at}"
    for at, bad in ((1, (64, 1, 2)), (512, (63, 0, 0)), (1_023, (62, 1, 1_024))):
        yield nothing_asked(64, steps, swapped(arcs, at - 1, bad)), f"no 5 {at}"
    yield nothing_asked(64, swapped(steps, 127, (63, 0)), arcs), "no 6 127"


def kinds() -> Iterator[Case]:
    """Every sort of kind byte on sheets that are accepted, missed, short, cut off."""
    for name, line in (("detour", "ok 1 2 0"), ("at-least", "ok 0 1 2"), ("short", "no 11 1"), ("cut-off", "no 12 0")):
        sheet = examples()[name].sheet
        for kind in (0, 1, 2, 3, 127, 128, 254, 255):
            exact_line = "no 13 0" if name == "at-least" else line
            said = "no 7 0" if kind > 1 else line if kind else exact_line
            yield sheet[:43] + bytes([kind]) + sheet[44:], said


def spots_of(places: int) -> Iterator[Tuple[int, int]]:
    """Pairs of places, the lesser first: the first, a middle and the last, each alone (twice) and with a later one."""
    some = three_spots(0, places - 1)
    yield from ((p, p) for p in some)
    yield from combinations(some, 2)


def places_at_fault() -> Iterator[Case]:
    """Short, cut off and missed at the first, a middle and the last place, at one and at two at once."""
    for places in (1, 2, 3, 5, 33, 64):
        net, ones = stay(places), [1] * places
        drain = plain_chained(moves(places + 1, [(p, places) for p in range(places)])) if places < 64 else None
        for first, second in spots_of(places):
            both = [int(p in (first, second)) for p in range(places)]
            none_there = [1 - n for n in both]
            yield Sheet(net, none_there, ones, EXACT, none_there).written(), f"no 12 {first}"
            for kind in (EXACT, AT_LEAST):
                above = [1 + n for n in both]
                yield Sheet(net, ones, [0] * places, kind, above).written(), f"no 13 {first}"
                line = "ok" if kind else f"no 13 {first}"
                yield Sheet(net, ones, [0] * places, kind, none_there).written(), line
            if drain:
                rows = (ones + [0], [1 + n for n in both], AT_LEAST, [0] * (places + 1))
                yield Sheet(drain, *rows).written(), f"no 11 {first}"
                yield Sheet(drain, none_there + [1], both, EXACT, none_there + [3]).written(), f"no 11 {first}"
    last = plain_chained(moves(64, [(63, 0)]))
    yield Sheet(last, [0] * 64, [1], AT_LEAST, [0] * 64).written(), "no 11 63"


def cut_offs() -> Iterator[Case]:
    """What makes a place cut off, or seems to reach it."""
    doubler = plain_chained(Meaning(1, [(0, [2])]))
    yield Sheet(doubler, [0], [1], EXACT, [1]).written(), "no 12 0"
    # Steps 0 and 1 go between places 0 and 1, steps 2 and 3 between 2 and 3; step 4, from 0 to 2, is not asked for.
    rings = plain_chained(moves(4, [(0, 1), (1, 0), (2, 3), (3, 2), (0, 2)]))
    for tally in ([0, 0, 1, 1, 0], [1, 1, 1, 1, 0], [2, 2, 5, 5, 0]):
        yield Sheet(rings, [1, 0, 0, 0], tally, EXACT, [1, 0, 0, 0]).written(), "no 12 2"
    yield Sheet(rings, [1, 0, 0, 0], [1, 1, 1, 1, 1], EXACT, [0, 0, 1, 0]).written(), ok(0, 1, 4, 2, 3)
    for places in (3, 6, 64):
        for at in three_spots(0, places - 2):
            # Only the last place is taken from, and it is empty; what it yields at is cut off as well.
            there = [int(p in (at, places - 1)) for p in range(places)]
            net, none = plain_chained(Meaning(places, [(places - 1, there)])), [0] * places
            yield Sheet(net, none, [1], EXACT, one_at(at, places)).written(), f"no 12 {at}"
            yield Sheet(net, one_at(at, places), [1], AT_LEAST, none).written(), f"no 12 {places - 1}"


def orders() -> Iterator[Case]:
    """Orders that look ahead: step 0 takes a block out of a ring, steps 1 to n + 1 go round it."""
    for n in (1, 2, 5, 20, 62):
        ring = [(p, (p + 1) % (n + 1)) for p in range(n + 1)]
        net, round_once = plain_chained(moves(n + 2, [(0, n + 1), *ring])), [*range(1, n + 2)]
        out = one_at(n + 1, n + 2)
        for rounds in (1, 2, 3):
            sheet = Sheet(net, one_at(0, n + 2), [1] + [rounds] * (n + 1), EXACT, out)
            yield sheet.written(), ok(*round_once * rounds, 0)
        left = [1] + out[1:]
        yield Sheet(net, [2] + [0] * (n + 1), [1] * (n + 2), EXACT, left).written(), ok(0, *round_once)
        # The way out has the greatest number.
        net = plain_chained(moves(n + 2, [*ring, (0, n + 1)]))
        yield Sheet(net, one_at(0, n + 2), [1] * (n + 2), EXACT, out).written(), ok(*range(n + 2))
    # The detour with a step 3 from place 2 back to 0.
    net = plain_chained(moves(3, [(0, 2), (0, 1), (1, 0), (2, 0)]))
    for tally, order in (([1, 1, 1, 0], (1, 2, 0)), ([1, 1, 1, 1], (0, 3, 1, 2)), ([2, 1, 1, 1], (0, 3, 1, 2, 0))):
        yield Sheet(net, [1, 0, 0], tally, AT_LEAST, [0, 0, 0]).written(), ok(*order)


# Sums at their limits.


def laws() -> Iterator[Case]:
    """Start counts that add up to just what the law of boards allows, and to more."""
    for places in (1, 2, 5, 64):
        for at in three_spots(0, places - 1):
            for count, line in ((MOST_BLOCKS, "ok"), (MOST_BLOCKS + 1, "no 19 0"), (2**32 - 1, "no 19 0")):
                yield only_start([count if p == at else 0 for p in range(places)], line)
        for extra, line in ((0, "ok"), (1, "no 19 0"), (SPARE, "no 19 0"), (SPARE + 1, "no 19 0")):
            yield only_start([MOST_BLOCKS + extra - 7 * (places - 1)] + [7] * (places - 1), line)
    for start in ([2**31, 2**31], [2**32 - 1, 1], [2**32 - 1] * 64, [2**31 - 1] * 3, [2**26] * 64, [MOST_BLOCKS] * 2):
        yield only_start(start, "no 19 0")
    each = MOST_BLOCKS // 64
    yield only_start([each] * 63 + [MOST_BLOCKS - 63 * each], "ok")
    yield only_start([each] * 63 + [MOST_BLOCKS - 63 * each + 1], "no 19 0")
    full = plain_chained(Meaning(1, [(0, [255])]))
    left = MOST_BLOCKS + 254 * 60
    yield Sheet(full, [MOST_BLOCKS], [60], EXACT, [left]).written(), ok(*[0] * 60)
    yield Sheet(full, [MOST_BLOCKS], [60], EXACT, [left + 1]).written(), "no 13 0"
    yield Sheet(full, [MOST_BLOCKS], [60], AT_LEAST, [2**32 - 1]).written(), "no 13 0"


def only_start(start: Sequence[int], line: str) -> Case:
    """A sheet that asks for no step, with these counts from start to end."""
    return Sheet(stay(len(start)), start, [0] * len(start), EXACT, start).written(), line


def totals() -> Iterator[Case]:
    """Tallies that add up to the limits, and to one more; each step puts its block back."""
    for steps in (1, 2, 5, 128):
        for total in (4_096, 4_097, 65_534, 65_535, 65_536, 65_537, 69_632, 131_070):
            for at in three_spots(0, steps - 1):
                tally = spread(total, steps, at)
                if tally is not None and (total, steps) != (4_096, 5):
                    yield Sheet(stay(1, steps), [1], tally, EXACT, [1]).written(), total_line(tally)
    for each in (31, 32, 33, 511, 512, 65_535):
        yield Sheet(stay(1, 128), [1], [each] * 128, EXACT, [1]).written(), total_line([each] * 128)


def spread(total: int, steps: int, at: int) -> Optional[List[int]]:
    """A tally with this total, most of it at one step; None where the steps are too few."""
    tally = [0] * steps
    tally[at] = min(total, 65_535)
    tally[(at + 1) % steps] += total - tally[at]
    return tally if max(tally) <= 65_535 and sum(tally) == total else None


def total_line(tally: Sequence[int]) -> str:
    """What the total alone says, of steps that can be fired whenever they are left: their order rises."""
    if sum(tally) > 65_535:
        return "no 8 0"
    return "no 9 0" if sum(tally) > 4_096 else ok(*(t for t, n in enumerate(tally) for _ in range(n)))


def spares() -> Iterator[Case]:
    """Yields that add up to just the spare, and to one more."""
    for places, weight in ((1, 250), (4, 250), (5, 200), (8, 250), (16, 250), (25, 200), (32, 250), (40, 250), (64, 125)):
        times = SPARE // (places * weight)
        net = plain_chained(Meaning(places, [(places - 1, [weight] * places), (0, one_at(0, places))]))
        for tally, fits in (([times, 0], True), ([times, 1], False), ([times + 1, 0], False), ([times - 1, 9], True)):
            yield Sheet(net, [1] * places, tally, AT_LEAST, [0] * places).written(), spare_line(tally, fits)
    # 61 × 64 × 255 and 64 × 70 are just the spare.
    net = plain_chained(Meaning(64, [(0, [255] * 64), (5, [70] * 64), (63, one_at(63, 64))]))
    for tally, fits in (([61, 1, 0], True), ([61, 1, 1], False), ([61, 0, 4_035], True), ([4_096, 0, 0], False)):
        yield Sheet(net, [1] * 64, tally, AT_LEAST, [0] * 64).written(), spare_line(tally, fits)
    # 997 × 1,003 is 9 less than the spare: nine blocks more fit, ten do not.
    net = plain_chained(Meaning(4, [(3, [250, 251, 251, 251]), (1, [0, 1, 0, 0]), (2, [4, 0, 0, 5])]))
    for tally, fits in (([997, 9, 0], True), ([997, 10, 0], False), ([997, 0, 1], True), ([997, 1, 1], False)):
        yield Sheet(net, [0, 1, 1, 1], tally, AT_LEAST, [0] * 4).written(), spare_line(tally, fits)


def spare_line(tally: Sequence[int], fits: bool) -> str:
    """What the spare alone says, of steps that can be fired whenever they are left."""
    return total_line(tally) if fits else "no 10 0"


def step_numbers() -> Iterator[Case]:
    """Orders in which step numbers have one, two and three digits."""
    for steps in (10, 11, 100, 101, 128):
        yield Sheet(stay(1, steps), [1], [1] * steps, EXACT, [1]).written(), ok(*range(steps))
        last = [int(t >= steps - 2) for t in range(steps)]
        yield Sheet(stay(64, steps), [1] * 64, last, EXACT, [1] * 64).written(), ok(steps - 2, steps - 1)
    hundreds = [0] * 100 + [147] * 24 + [142] * 4
    yield Sheet(stay(1, 128), [1], hundreds, EXACT, [1]).written(), total_line(hundreds)


# Two faults at once: the earlier check decides.


@dataclass
class Draft:
    """A sheet in which each fault can be planted without undoing another."""

    steps: List[Step]
    arcs: List[Arc]
    start: List[int]
    tally: List[int]
    target: List[int]
    kind: int = EXACT
    head: dict = field(default_factory=dict)
    longer: int = 0
    most_bytes: int = 10_000

    def written(self) -> bytes:
        net = bytearray(chained(8, self.steps, self.arcs))
        for at, byte in self.head.items():
            net[at] = byte
        data = Sheet(bytes(net), self.start, self.tally, self.kind, self.target).written()
        return (data + b"\0" * self.longer)[: self.most_bytes]


def sound_draft() -> Draft:
    """Steps 0 and 5 move a block from place 0 to 1, step 1 from 2 to 1, steps 2 and 3 between 3 and 4, which
    are empty; step 4 takes at 6 and yields 255 at 6 and at 7. Steps 0 (twice) and 1 (once) are asked for."""
    return Draft(
        steps=[(0, 1), (2, 1), (3, 2), (4, 3), (6, 4), (0, 1)],
        arcs=[(1, 1, 0), (4, 1, 0), (3, 1, 0), (6, 255, 5), (7, 255, 0)],
        start=[4, 0, 1, 0, 0, 1, 1, 0],
        tally=[2, 1, 0, 0, 0, 0],
        target=[2, 3, 0, 0, 0, 1, 1, 0],
    )


class Fault(NamedTuple):
    """A number of the draft's part, or a part as a whole, that a check refuses with a line."""

    check: int
    part: str
    at: Union[int, slice, None]
    value: object
    line: str

    def plant(self, draft: Draft) -> None:
        if self.at is None:
            setattr(draft, self.part, self.value)
        else:
            getattr(draft, self.part)[self.at] = self.value


FAULTS = [
    Fault(1, "most_bytes", None, 3, "no 1 0"),
    Fault(1, "most_bytes", None, 0, "no 1 0"),
    Fault(2, "head", 0, 0, "no 2 0"),
    Fault(2, "head", 0, 65, "no 2 0"),
    Fault(3, "head", 1, 129, "no 3 0"),
    Fault(3, "head", 2, 4, "no 3 0"),
    Fault(4, "longer", None, 1, "no 1 0"),
    Fault(4, "most_bytes", None, 60, "no 1 0"),
    Fault(5, "steps", 4, (8, 4), "no 4 4"),
    Fault(5, "steps", 5, (0, 6), "no 4 5"),
    Fault(6, "arcs", 2, (3, 0, 0), "no 5 3"),
    Fault(6, "arcs", 0, (8, 1, 0), "no 5 1"),
    Fault(6, "arcs", 4, (7, 255, 5), "no 5 5"),
    Fault(7, "steps", 3, (4, 0), "no 6 3"),
    Fault(7, "steps", 0, (0, 0), "no 6 0"),
    Fault(8, "kind", None, 2, "no 7 0"),
    Fault(8, "kind", None, 255, "no 7 0"),
    Fault(9, "start", 5, 2_147_483_647, "no 19 0"),
    Fault(9, "start", 5, MOST_BLOCKS - 5, "no 19 0"),
    Fault(10, "tally", 0, 65_535, "no 8 0"),
    Fault(11, "tally", 5, 4_094, "no 9 0"),
    Fault(12, "tally", 4, 1_961, "no 10 0"),
    Fault(13, "tally", 1, 2, "no 11 2"),
    Fault(14, "tally", slice(2, 4), [1, 1], "no 12 3"),
    Fault(15, "target", 1, 7, "no 13 1"),
    Fault(15, "target", 6, 0, "no 13 6"),
]


def faults_together() -> Iterator[Case]:
    """No fault, each fault alone, each two of different checks, and all checks from each on."""
    yield sound_draft().written(), "ok 0 0 1"
    pairs = [pair for pair in combinations(FAULTS, 2) if pair[0].check < pair[1].check]
    first_of_each = {fault.check: fault for fault in reversed(FAULTS)}
    rests = [[first_of_each[check] for check in range(first, 16)] for first in range(1, 16)]
    for group in (*([fault] for fault in FAULTS), *pairs, *rests):
        draft = sound_draft()
        for fault in reversed(group):
            fault.plant(draft)
        yield draft.written(), group[0].line


ALL_CASES = (
    documented,
    short_heads,
    sizes,
    lengths_told,
    step_faults,
    arc_faults,
    full_faults,
    kinds,
    places_at_fault,
    cut_offs,
    orders,
    laws,
    totals,
    spares,
    step_numbers,
    faults_together,
    every_byte_changed,
)


def all_cases() -> Iterator[Tuple[bytes, Optional[str]]]:
    """All cases made by hand, in the sequence of the table."""
    for cases in ALL_CASES:
        yield from cases()
