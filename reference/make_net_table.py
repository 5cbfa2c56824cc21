"""Writes the table of net files that a program compares its own answers against.

Usage: python3 reference/make_net_table.py

It writes crates/net_vectors/stdin (the cases) and crates/net_vectors/stdout (what the
comparing program prints when it agrees). The same bytes come out every time.

A case is a line `MAKE HEX EXPECT`: MAKE is `grid` or `chained`, HEX the file's
bytes (`-` for none), EXPECT either `no NUMBER DETAIL` or `ok P T DIGEST`.
"""

from __future__ import annotations

from pathlib import Path
from random import Random
from typing import Dict, List, NamedTuple, Optional, Sequence, Tuple, Union

from nets import Net, Refused, load_chained, load_grid

FOLDER = Path(__file__).resolve().parent.parent / "crates" / "net_vectors"
SEED = 20
MOST_BYTES = 900_000
LEAST_OF_EACH_REFUSAL = 30
DAMAGES_OF_EACH_MAKE = 1_600
WILD_OF_EACH_MAKE = 500

LOADERS = {"grid": load_grid, "chained": load_chained}

Row = Tuple[int, Sequence[int]]  # input place, yields at place 0, 1, ..
Step = Tuple[int, int]  # input place, first arc
Arc = Tuple[int, int, int]  # place, weight, next arc


class Meaning(NamedTuple):
    """A net as it is meant, before it is written down in either make."""

    places: int
    rows: List[Row]


Want = Union[Refused, Meaning, str]
OK = "accepted"


# ---------------------------------------------------------------- the table


def digest(net: Net) -> int:
    """One number made from all answers of a net, also just past its ends."""
    h = 0

    def mix(value: int) -> None:
        nonlocal h
        h = (h * 31 + value + 1) % 65521

    mix(net.places)
    mix(net.steps)
    for step in range(net.steps + 2):
        place = net.input_of(step)
        mix(255 if place is None else place)
        for place in range(net.places + 2):
            mix(net.yield_at(step, place))
    return h


def meaning_of(net: Net) -> Meaning:
    """A loaded net as inputs and rows of yields."""
    rows = []
    for step in range(net.steps):
        rows.append((net.input_of(step), [net.yield_at(step, p) for p in range(net.places)]))
    return Meaning(net.places, rows)


class Table:
    """The cases so far, each file once for each make, and their counts."""

    def __init__(self) -> None:
        self.lines: Dict[Tuple[str, bytes], str] = {}
        self.accepted = {make: 0 for make in LOADERS}
        self.refused = {make: 0 for make in LOADERS}
        self.refusals = {(make, number): 0 for make in LOADERS for number in range(1, 7)}
        self.details: Dict[int, set] = {number: set() for number in range(1, 7)}

    def add(self, make: str, data: bytes, want: Optional[Want] = None) -> None:
        """Adds a case; `want`, where given, is what was worked out by hand."""
        answer = LOADERS[make](data)
        if want is not None:
            _agree(make, data, answer, want)
        if (make, data) in self.lines:
            return
        if isinstance(answer, Refused):
            expect = f"no {answer.number} {answer.detail}"
            self.refused[make] += 1
            self.refusals[make, answer.number] += 1
            self.details[answer.number].add(answer.detail)
        else:
            expect = f"ok {answer.places} {answer.steps} {digest(answer)}"
            self.accepted[make] += 1
        self.lines[make, data] = f"{make} {data.hex() or '-'} {expect}\n"

    def cases(self) -> str:
        """The text of crates/net_vectors/stdin."""
        return "".join(self.lines.values())

    def summary(self) -> str:
        """The text of crates/net_vectors/stdout."""
        lines = []
        for make in LOADERS:
            accepted, refused = self.accepted[make], self.refused[make]
            files = accepted + refused
            lines.append(f"{make}: {files} files, {accepted} accepted, {refused} refused")
        for number in range(1, 7):
            lines.append(f"refusal {number}: {self.count(number)}")
        lines.append("0 differences")
        return "".join(line + "\n" for line in lines)

    def count(self, number: int) -> int:
        """How often a refusal occurs, in both makes."""
        return sum(self.refusals[make, number] for make in LOADERS)


def _agree(make: str, data: bytes, answer: Union[Net, Refused], want: Want) -> None:
    """Stops the program when the reference does not answer what is wanted."""
    if isinstance(want, Refused):
        good = answer == want
    elif isinstance(want, Meaning):
        good = isinstance(answer, Net) and meaning_of(answer) == want
    else:
        good = isinstance(answer, Net)
    if not good:
        raise SystemExit(f"{make} {data.hex()}: wanted {want}, the reference says {answer}")


# ------------------------------------------------------ writing files down


def grid(places: int, rows: Sequence[Row]) -> bytes:
    """A grid file; nothing is checked."""
    return bytes([places, len(rows)]) + b"".join(bytes([i, *ys]) for i, ys in rows)


def chained(places: int, steps: Sequence[Step], arcs: Sequence[Arc]) -> bytes:
    """A chained file; nothing is checked."""
    data = bytes([places, len(steps), *divmod(len(arcs), 256)])
    data += b"".join(bytes([i, *divmod(first, 256)]) for i, first in steps)
    return data + b"".join(bytes([p, w, *divmod(n, 256)]) for p, w, n in arcs)


def given(text: str) -> bytes:
    """The bytes of an example that is written with spaces and commas."""
    return bytes.fromhex(text.replace(",", " "))


def swapped(items: Sequence, at: int, item: object) -> list:
    """The list with one item replaced."""
    return [*items[:at], item, *items[at + 1 :]]


def three_spots(first: int, last: int) -> List[int]:
    """The first, a middle and the last number."""
    return sorted({first, (first + last) // 2, last})


# ------------------------------------------------------- cases made by hand


def add_examples(table: Table) -> None:
    """The worked examples and the examples of the refusal table."""
    three = Meaning(3, [(0, [0, 0, 1]), (0, [0, 1, 0]), (1, [1, 0, 0])])
    table.add("grid", given("03 03, 00 00 00 01, 00 00 01 00, 01 01 00 00"), three)
    table.add(
        "chained",
        given("03 03 00 03, 00 00 01, 00 00 02, 01 00 03, 02 01 00 00, 01 01 00 00, 00 01 00 00"),
        three,
    )
    two = Meaning(2, [(0, [1, 3])])
    table.add("chained", given("02 01 00 02, 00 00 01, 00 01 00 02, 01 03 00 00"), two)
    table.add("grid", given("02 01, 00 01 03"), two)

    table.add("grid", b"", Refused(1, 0))
    table.add("chained", b"", Refused(1, 0))
    table.add("grid", given("41 00"), Refused(2, 0))
    table.add("grid", given("01 81"), Refused(3, 0))
    table.add("grid", given("01 01 01 01"), Refused(4, 0))
    table.add("chained", given("01 01 00 01, 00 00 01, 00 00 00 00"), Refused(5, 1))
    table.add("grid", given("01 01 00 00"), Refused(6, 0))


def add_short_heads(table: Table) -> None:
    """Files too short for a head, whatever their bytes say."""
    values = (0, 1, 2, 3, 63, 64, 65, 127, 128, 129, 255)
    for a in values:
        table.add("grid", bytes([a]), Refused(1, 0))
        table.add("chained", bytes([a]), Refused(1, 0))
        for b in (0, 1, 128, 129, 255):
            table.add("chained", bytes([a, b]), Refused(1, 0))
            table.add("chained", bytes([a, b, 4]), Refused(1, 0))


def add_sizes(table: Table) -> None:
    """Sizes on both sides of each limit, with the right length and one byte off."""
    for places in (0, 1, 64, 65):
        for steps in (0, 1, 128, 129):
            _add_grid_sizes(table, places, steps)
            for arcs in (0, 1):
                _add_chained_sizes(table, places, steps, arcs, (0, -1, 1))
    _add_chained_sizes(table, 1, 0, 1023, (0, -1, 1))
    _add_chained_sizes(table, 1, 0, 1024, (0,))
    _add_chained_sizes(table, 64, 128, 1023, (0,))
    _add_chained_sizes(table, 64, 128, 1024, (0,))

    for a in (0, 1, 2, 63, 64, 65, 66, 128, 192, 255):
        for b in (0, 1, 2, 127, 128, 129, 130, 192, 255):
            want = _head_fault(a, b, 0) or (OK if b == 0 else Refused(1, 0))
            table.add("grid", bytes([a, b]), want)
            for c, d in ((0, 0), (0, 1), (3, 255), (4, 0), (4, 1), (8, 0), (255, 255)):
                arcs = 256 * c + d
                want = _head_fault(a, b, arcs) or (OK if b == arcs == 0 else Refused(1, 0))
                if b in (0, 128, 129, 255):
                    table.add("chained", bytes([a, b, c, d]), want)


def _head_fault(places: int, steps: int, arcs: int) -> Optional[Refused]:
    """The refusal that the sizes alone give."""
    if places in range(1, 65):
        return None if steps in range(129) and arcs in range(1024) else Refused(3, 0)
    return Refused(2, 0)


def _off_by(data: bytes, change: int) -> bytes:
    """The file one byte shorter, as it is, or one byte longer."""
    return data[:-1] if change < 0 else data + bytes(change)


def _add_grid_sizes(table: Table, places: int, steps: int) -> None:
    """A grid file without zeros among its yields, of three lengths."""
    rows = [(0, [1 + (s + p) % 255 for p in range(places)]) for s in range(steps)]
    data = grid(places, rows)
    fault = _head_fault(places, steps, 0)
    if (places, steps) != (65, 129):  # long, and the lone head 41 81 is in the table too
        table.add("grid", data, fault or OK)
    if fault is None or len(data) < 300:
        short = Refused(1, 0) if steps == 0 else fault or Refused(1, 0)
        table.add("grid", _off_by(data, -1), short)
        table.add("grid", _off_by(data, 1), fault or Refused(1, 0))


def _add_chained_sizes(
    table: Table, places: int, steps: int, arcs: int, changes: Sequence[int]
) -> None:
    """Arc n goes on to the next place and arc, except at the last place."""
    chain = []
    for number in range(1, arcs + 1):
        place = (number - 1) % max(places, 1)
        ends = place >= places - 1 or number == arcs
        chain.append((place, 1 + number % 255, 0 if ends else number + 1))
    firsts = [1 + s * 7 % arcs if arcs else 0 for s in range(steps)]
    data = chained(places, [(0, first) for first in firsts], chain)
    fault = _head_fault(places, steps, arcs)
    whole = OK if arcs or not steps else Refused(6, 0)
    for change in changes:
        if change < 0 and len(data) == 4:
            want: Want = Refused(1, 0)
        else:
            want = fault or (whole if change == 0 else Refused(1, 0))
        table.add("chained", _off_by(data, change), want)


def add_prefixes(table: Table) -> None:
    """Every prefix of a few valid files, and each with bytes after its end."""
    some_rows = [(4, [0, 0, 0, 0, 9]), (0, [1, 2, 3, 4, 5]), (2, [255, 0, 0, 0, 0])]
    grids = [
        given("03 03, 00 00 00 01, 00 00 01 00, 01 01 00 00"),
        grid(1, [(0, [n]) for n in (1, 2, 255)]),
        grid(5, some_rows),
        grid(7, []),
    ]
    chains = [
        given("03 03 00 03, 00 00 01, 00 00 02, 01 00 03, 02 01 00 00, 01 01 00 00, 00 01 00 00"),
        given("02 01 00 02, 00 00 01, 00 01 00 02, 01 03 00 00"),
        chained(6, [(5, 1), (0, 3)], [(0, 1, 2), (2, 7, 4), (3, 8, 4), (5, 255, 0)]),
        chained(2, [], [(0, 1, 2), (1, 1, 0)]),
    ]
    for make, files in (("grid", grids), ("chained", chains)):
        for data in files:
            table.add(make, data, OK)
            for length in range(len(data)):
                table.add(make, data[:length], Refused(1, 0))
            for more in (b"\x00", b"\x01", b"\x00\x00\x00\x00", data):
                table.add(make, data + more, Refused(1, 0))
    for data in grids:
        table.add("chained", data)
    for data in chains:
        table.add("grid", data)


def add_grid_faults(table: Table) -> None:
    """Refusals 4 and 6 of a grid file at the first, a middle and the last step."""
    for places, steps in ((1, 1), (2, 5), (3, 3), (1, 128), (64, 3), (5, 40)):
        rows = [(s % places, [(s + p) % 4 + 1 for p in range(places)]) for s in range(steps)]
        nothing = [0] * places
        for at in three_spots(0, steps - 1):
            input_place, yields = rows[at]
            for bad in (places, places + 1, 255):
                table.add("grid", grid(places, swapped(rows, at, (bad, yields))), Refused(4, at))
            empty = swapped(rows, at, (input_place, nothing))
            table.add("grid", grid(places, empty), Refused(6, at))
            table.add("grid", grid(places, swapped(rows, at, (places - 1, yields))), OK)
            for place in three_spots(0, places - 1):
                for count in (1, 255):
                    only = swapped(nothing, place, count)
                    table.add("grid", grid(places, swapped(rows, at, (input_place, only))), OK)
            # A step without yield before an unfit one: the unfit step decides.
            if at > 0:
                both = swapped(empty, steps - 1, (places, rows[-1][1]))
                both = swapped(both, 0, (0, nothing))
                table.add("grid", grid(places, both), Refused(4, steps - 1))
            # One step with both faults, and two steps with the same fault.
            table.add("grid", grid(places, swapped(rows, at, (places, nothing))), Refused(4, at))
            later = rows[:at] + [(places, yields)] * (steps - at)
            table.add("grid", grid(places, later), Refused(4, at))
            later = rows[:at] + [(0, nothing)] * (steps - at)
            table.add("grid", grid(places, later), Refused(6, at))
    # The length decides before the steps do.
    table.add("grid", given("01 02, 01 01"), Refused(1, 0))
    table.add("grid", given("01 01, 00 00 00"), Refused(1, 0))


def add_chained_step_faults(table: Table) -> None:
    """Refusals 4 and 6 of a chained file at the first, a middle and the last step."""
    for places, steps, count in ((1, 1, 1), (2, 3, 2), (4, 5, 6), (3, 128, 4), (64, 9, 30)):
        arcs = [(p % places, 1 + p % 255, 0) for p in range(count)]
        good = [(s % places, 1 + s % count) for s in range(steps)]
        for at in three_spots(0, steps - 1):
            place, first = good[at]

            def add(step: Step, want: Want) -> None:
                table.add("chained", chained(places, swapped(good, at, step), arcs), want)

            for bad in (places, places + 1, 255):
                add((bad, first), Refused(4, at))
            for bad in (count + 1, count + 2, count + 256 * 4, 256 * 128 + 1, 65535):
                add((place, bad), Refused(4, at))
            add((places, count + 1), Refused(4, at))
            add((places, 0), Refused(4, at))
            add((place, 0), Refused(6, at))
            add((places - 1, count), OK)
            add((0, 1), OK)

            # A step without yield, or an unfit arc, before an unfit step.
            last = (places, 1) if at % 2 else (0, count + 1)
            mixed = swapped(swapped(good, at, (place, 0)), steps - 1, last)
            table.add("chained", chained(places, mixed, arcs), Refused(4, steps - 1))
            weightless = swapped(arcs, 0, (0, 0, 0))
            table.add("chained", chained(places, mixed, weightless), Refused(4, steps - 1))
            # An unfit arc decides before a step without yield.
            empty = swapped(good, at, (place, 0))
            table.add("chained", chained(places, empty, weightless), Refused(5, 1))
            # The same fault again at later steps.
            for bad, number in (((places, 1), 4), ((0, count + 1), 4), ((0, 0), 6)):
                later = good[:at] + [bad] * (steps - at)
                table.add("chained", chained(places, later, arcs), Refused(number, at))
    # No arcs at all: every first arc is 0 or above A.
    table.add("chained", chained(3, [(0, 0), (1, 0)], []), Refused(6, 0))
    table.add("chained", chained(3, [(0, 0), (1, 1)], []), Refused(4, 1))
    table.add("chained", chained(3, [], []), OK)


def add_arc_faults(table: Table) -> None:
    """Refusal 5 at the first, a middle and the last arc, and what is still allowed."""
    for places, count in ((1, 1), (4, 3), (5, 9), (64, 40)):
        _add_arc_faults(table, places, count, three_spots(1, count))
    _add_arc_faults(table, 60, 257, [256])
    _add_next_rules(table)
    _add_full_files(table)


def _add_arc_faults(table: Table, places: int, count: int, spots: Sequence[int]) -> None:
    """All arcs end their chains and lie at a middle place, but for the arc at fault."""
    middle = places // 2
    good = [(middle, 1 + n % 255, 0) for n in range(count)]
    steps = [(0, 1), (places - 1, count)]

    for at in spots:

        def add(arc: Arc, want: Want, base: Sequence[Arc] = good) -> None:
            table.add("chained", chained(places, steps, swapped(base, at - 1, arc)), want)

        fault = Refused(5, at)
        for bad in (places, places + 1, 255):
            add((bad, 1, 0), fault)
        add((places - 1, 1, 0), OK)
        add((0, 0, 0), fault)
        add((0, 1, 0), OK)
        add((0, 255, 0), OK)

        below = 0 if middle > 0 else None  # a place below the middle
        add((0, 1, at), fault)  # its own number
        add((0, 1, at - 1), OK if at == 1 else fault)  # the number before, or the end
        add((0, 1, 1), fault)
        add((0, 1, count + 1), fault)
        for far in (count + 2, count + 256 * 4, 256 * 128, 65535):
            add((0, 1, far), fault)
        if at < count:
            add((middle, 1, count), fault)  # an equal place
            add((places - 1, 1, at + 1), fault)  # an equal or a lower place
            if below is not None:
                add((below, 1, count), OK)
                add((below, 1, at + 1), OK)
                # The next arc is at fault by itself: it is the one named.
                for bad in ((places, 1, 0), (255, 1, 0), (middle, 0, 0), (middle, 1, count + 1)):
                    add((below, 1, count), Refused(5, count), swapped(good, count - 1, bad))
        # The same fault again at later arcs.
        for bad in ((places, 1, 0), (0, 0, 0), (0, 1, 1)):
            later = good[: at - 1] + [bad] * (count - at + 1)
            table.add("chained", chained(places, steps, later), fault)
            # An arc is checked whether or not a chain has it.
            table.add("chained", chained(places, [], later), fault)
    table.add("chained", chained(places, [], good), OK)


def _add_next_rules(table: Table) -> None:
    """Chains, shared arcs and loose arcs in small nets, with their meaning written out."""
    fork = [(0, 1, 3), (1, 2, 3), (2, 3, 4), (3, 255, 0)]
    meant = Meaning(
        4,
        [
            (0, [1, 0, 3, 255]),
            (1, [0, 2, 3, 255]),
            (2, [0, 0, 3, 255]),
            (3, [0, 0, 0, 255]),
            (3, [1, 0, 3, 255]),
        ],
    )
    steps = [(0, 1), (1, 2), (2, 3), (3, 4), (3, 1)]
    table.add("chained", chained(4, steps, fork), meant)
    for first, second in ((1, 2), (2, 4), (3, 3), (4, 1)):
        table.add("chained", chained(4, [(0, first), (0, second)], fork), OK)

    # Arcs 1, 3 and 5 are in no chain; arc 3 leads into the chain of the step.
    loose = [(4, 9, 0), (1, 5, 4), (0, 7, 4), (3, 6, 0), (0, 1, 0)]
    meant = Meaning(5, [(4, [0, 5, 0, 6, 0])])
    table.add("chained", chained(5, [(4, 2)], loose), meant)

    # Every next number for each of five arcs at rising places, then at falling ones.
    for places in ([0, 1, 2, 3, 4], [4, 3, 2, 1, 0], [0, 2, 2, 1, 3]):
        for at in range(1, 6):
            for following in range(8):
                arcs = [(p, n + 1, 0) for n, p in enumerate(places)]
                arcs[at - 1] = (places[at - 1], 9, following)
                allowed = following == 0 or (
                    following in range(at + 1, 6) and places[following - 1] > places[at - 1]
                )
                want = OK if allowed else Refused(5, at)
                table.add("chained", chained(5, [(0, at)], arcs), want)

    # Every first arc of a file with three arcs.
    for first in (0, 1, 2, 3, 4, 255, 256, 257, 258, 259, 512, 65535):
        want = Refused(6, 0) if first == 0 else OK if first <= 3 else Refused(4, 0)
        table.add("chained", chained(2, [(1, first)], [(0, 1, 2), (1, 1, 0), (0, 1, 0)]), want)
    # Every weight at the border.
    for weight in (0, 1, 2, 127, 128, 254, 255):
        want = Meaning(1, [(0, [weight])]) if weight else Refused(5, 1)
        table.add("chained", chained(1, [(0, 1)], [(0, weight, 0)]), want)

    # Numbers that need both bytes: arcs 255 to 258 are one chain.
    arcs = [(0, 1, 0)] * 254 + [(1, 2, 256), (2, 3, 257), (3, 4, 258), (4, 5, 0)]
    meant = Meaning(
        5, [(0, [1, 0, 0, 0, 0]), (1, [0, 2, 3, 4, 5]), (2, [0, 0, 3, 4, 5]), (3, [0, 0, 0, 4, 5])]
    )
    table.add("chained", chained(5, [(0, 1), (1, 255), (2, 256), (3, 257)], arcs), meant)
    for first in (258, 259, 511, 512):
        want = OK if first == 258 else Refused(4, 1)
        table.add("chained", chained(5, [(0, 1), (0, first)], arcs), want)
    for at, following in ((255, 255), (256, 255), (256, 256), (257, 1), (257, 259), (258, 512)):
        bad = swapped(arcs, at - 1, (arcs[at - 1][0], 1, following))
        table.add("chained", chained(5, [(0, 1)], bad), Refused(5, at))


def _add_full_files(table: Table) -> None:
    """Faults in a file of 128 steps and 1,023 arcs, with chains through all places."""
    arcs = []
    for number in range(1, 1024):
        place = (number - 1) % 64
        arcs.append((place, number % 255 + 1, 0 if place == 63 or number == 1023 else number + 1))
    steps = [(s % 64, 1023 - s * 8) for s in range(128)]
    table.add("chained", chained(64, steps, arcs), OK)
    for at, arc, want in (
        (1, (64, 1, 2), Refused(5, 1)),
        (512, (63, 0, 0), Refused(5, 512)),
        (1023, (62, 1, 1024), Refused(5, 1023)),
    ):
        table.add("chained", chained(64, steps, swapped(arcs, at - 1, arc)), want)
    for at, step, want in (
        (0, (64, 1), Refused(4, 0)),
        (64, (63, 0), Refused(6, 64)),
        (127, (0, 1024), Refused(4, 127)),
    ):
        table.add("chained", chained(64, swapped(steps, at, step), arcs), want)


def add_sweeps(table: Table) -> None:
    """One fault at each step in turn, and at each arc in turn, so that details vary."""
    rows = [(0, [1])] * 32
    steps = [(0, 1)] * 32
    arcs = [(0, 1, 0)] * 32
    for at in range(32):
        table.add("grid", grid(1, swapped(rows, at, (1, [1]))), Refused(4, at))
        table.add("grid", grid(1, swapped(rows, at, (0, [0]))), Refused(6, at))
        table.add("chained", chained(1, swapped(steps, at, (0, 2)), arcs[:1]), Refused(4, at))
        table.add("chained", chained(1, swapped(steps, at, (0, 0)), arcs[:1]), Refused(6, at))
        table.add("chained", chained(1, [], swapped(arcs, at, (0, 0, 0))), Refused(5, at + 1))


# ----------------------------------------------------- cases made by chance


class Chance:
    """Numbers by chance, the same in every run and every release of Python 3."""

    def __init__(self, seed: int) -> None:
        self._random = Random(seed)

    def below(self, end: int) -> int:
        """A number from 0 to end - 1."""
        return int(self._random.random() * end)

    def within(self, least: int, most: int) -> int:
        """A number from least to most."""
        return least + self.below(most - least + 1)

    def pick(self, items: Sequence):
        """One of the items."""
        return items[self.below(len(items))]

    def one_in(self, count: int) -> bool:
        """True once in `count` times."""
        return self.below(count) == 0


def random_meaning(chance: Chance, most_places: int, most_steps: int) -> Meaning:
    """A net by chance; steps often repeat the end of an earlier step's row."""
    places = chance.within(1, most_places)
    rows: List[Row] = []
    for _ in range(chance.within(0, most_steps)):
        yields = [0] * places
        if rows and chance.one_in(3):
            cut = chance.below(places)
            yields[cut:] = chance.pick(rows)[1][cut:]
        for _ in range(chance.within(0, 2)):
            yields[chance.below(places)] = chance.pick((1, 1, 2, 3, 255, chance.within(1, 255)))
        if not any(yields):
            yields[chance.below(places)] = 1
        rows.append((chance.below(places), yields))
    return Meaning(places, rows)


def as_grid(meaning: Meaning) -> bytes:
    """The grid file of a net."""
    return grid(meaning.places, meaning.rows)


def as_chained(chance: Chance, meaning: Meaning) -> bytes:
    """A chained file of a net: chains lie mixed, often share arcs, and some arcs are loose.

    The arcs are made from the last to the first, so that a next arc is there already.
    Until all are made, `made` has them backwards, each with its next one's spot or None.
    """
    made: List[Tuple[int, int, Optional[int]]] = []
    known: Dict[tuple, int] = {}
    heads: List[Optional[int]] = [None] * len(meaning.rows)
    todo = [[(p, w) for p, w in enumerate(yields) if w] for _, yields in meaning.rows]
    share = not chance.one_in(3)
    while any(todo) or chance.one_in(4):
        open_steps = [step for step, rest in enumerate(todo) if rest]
        if not open_steps or chance.one_in(8):
            place = chance.below(meaning.places)
            above = [spot for spot, arc in enumerate(made) if arc[0] > place]
            follow = chance.pick(above) if above and chance.one_in(2) else None
            made.append((place, chance.within(1, 255), follow))
            continue
        step = chance.pick(open_steps)
        place, weight = todo[step].pop()
        arc = (place, weight, heads[step])
        if share and arc in known:
            heads[step] = known[arc]
        else:
            known[arc] = heads[step] = len(made)
            made.append(arc)

    def number(spot: Optional[int]) -> int:
        return 0 if spot is None else len(made) - spot

    steps = [(row[0], number(head)) for row, head in zip(meaning.rows, heads)]
    arcs = [(place, weight, number(spot)) for place, weight, spot in reversed(made)]
    return chained(meaning.places, steps, arcs)


def damaged(chance: Chance, data: bytes) -> bytes:
    """The file with 1 to 3 bytes changed, dropped or added."""
    out = bytearray(data)
    way = chance.below(20)
    times = chance.within(1, 3)
    for _ in range(times):
        if way < 15:
            _change(chance, out)
        elif way == 15 and out:
            del out[chance.below(len(out))]
        elif way == 16:
            out.insert(chance.within(0, len(out)), chance.below(256))
        elif way > 16:
            # One dropped and one added: the length stays, what lies between moves.
            del out[chance.below(len(out))]
            out.insert(chance.within(0, len(out)), chance.below(4))
    return bytes(out)


def _change(chance: Chance, out: bytearray) -> None:
    """Another value for one byte: near the old one, small, or any."""
    at = chance.below(len(out))
    if chance.one_in(12):
        at = chance.below(2)
    old = out[at]
    while out[at] == old:
        out[at] = chance.pick(
            (0, (old + 1) % 256, (old + 255) % 256, chance.below(8), chance.below(256))
        )


def wild_grid(chance: Chance) -> bytes:
    """A grid file of the right length with any of its fields near a border."""
    places = chance.within(1, 5)
    rows = []
    for _ in range(chance.within(1, 9)):
        input_place = chance.below(places + (1 if chance.one_in(6) else 0))
        full = not chance.one_in(6)
        rows.append((input_place, [chance.pick((0, 1, 255)) if full else 0 for _ in range(places)]))
    return grid(places, rows)


def wild_chained(chance: Chance) -> bytes:
    """A chained file of the right length with any of its fields near a border."""
    places = chance.within(2, 6)
    count = chance.within(1, 8)
    steps = []
    for _ in range(chance.within(0, 6)):
        if chance.one_in(16):
            steps.append((chance.below(places + 1), chance.within(0, count + 1)))
        else:
            steps.append((chance.below(places), chance.within(1, count)))
    at = [chance.below(places) for _ in range(count)]
    arcs = []
    for number, place in enumerate(at, start=1):
        if chance.one_in(16):
            arcs.append((chance.below(places + 1), chance.below(3), chance.within(0, count + 1)))
        else:
            allowed = [n for n in range(number + 1, count + 1) if at[n - 1] > place]
            arcs.append((place, chance.within(1, 255), chance.pick([0, *allowed])))
    return chained(places, steps, arcs)


def add_random(table: Table, chance: Chance) -> None:
    """Valid files by chance, the same files damaged, and files with fields near a border."""
    for turn in range(DAMAGES_OF_EACH_MAKE):
        most_places, most_steps = (20, 24) if turn % 50 == 0 else (5, 6)
        meaning = random_meaning(chance, most_places, most_steps)
        for make, data in (("grid", as_grid(meaning)), ("chained", as_chained(chance, meaning))):
            if turn % 4 == 0:
                table.add(make, data, meaning)
            bad = damaged(chance, data)
            while bad == data or (make, bad) in table.lines:
                bad = damaged(chance, data)
            table.add(make, bad)
    for _ in range(6):
        meaning = random_meaning(chance, 64, 40)
        for make, data in (("grid", as_grid(meaning)), ("chained", as_chained(chance, meaning))):
            table.add(make, data, meaning)
    for _ in range(WILD_OF_EACH_MAKE):
        table.add("grid", wild_grid(chance))
        table.add("chained", wild_chained(chance))


# ------------------------------------------------------------------ the run


def make_table() -> Table:
    """All cases, in the sequence in which they are written."""
    table = Table()
    add_examples(table)
    add_short_heads(table)
    add_sizes(table)
    add_prefixes(table)
    add_grid_faults(table)
    add_chained_step_faults(table)
    add_arc_faults(table)
    add_sweeps(table)
    add_random(table, Chance(SEED))
    return table


def main() -> None:
    """Writes both files and prints the counts."""
    table = make_table()
    cases, summary = table.cases(), table.summary()
    for number in range(1, 7):
        if table.count(number) < LEAST_OF_EACH_REFUSAL:
            raise SystemExit(f"refusal {number} occurs too seldom: {table.count(number)}")
    if len(cases) >= MOST_BYTES:
        raise SystemExit(f"the table is too long: {len(cases)} bytes")
    FOLDER.mkdir(parents=True, exist_ok=True)
    (FOLDER / "stdin").write_bytes(cases.encode("ascii"))
    (FOLDER / "stdout").write_bytes(summary.encode("ascii"))

    print(summary, end="")
    for number in range(1, 7):
        by_make = ", ".join(f"{make} {table.refusals[make, number]}" for make in LOADERS)
        print(f"refusal {number}: {by_make}; {len(table.details[number])} details")
    print(f"{FOLDER / 'stdin'}: {len(cases)} bytes")


if __name__ == "__main__":
    main()
