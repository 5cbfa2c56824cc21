"""Nets from bytes: a second implementation, written from docs/ alone.

docs/FORMATS.md gives the two makes of file and the sequence of checks,
docs/RULES.md the four answers of a net, docs/REFUSALS.md the refusals.
The checks below stand in the documents' sequence: the first that fails decides.
"""

from __future__ import annotations

from typing import Dict, List, NamedTuple, Optional, Union

MOST_PLACES = 64
MOST_STEPS = 128
MOST_ARCS = 1023

WRONG_LENGTH = 1
PLACES_OUT_OF_RANGE = 2
TOO_MANY_STEPS_OR_ARCS = 3
STEP_UNFIT = 4
ARC_UNFIT = 5
STEP_WITHOUT_YIELD = 6


class Refused(NamedTuple):
    """A refusal: its number, and the detail that names what is at fault."""

    number: int
    detail: int


class Net:
    """A net, whatever make of file it came from: it answers four questions."""

    def __init__(self, places: int, inputs: List[int], yields: List[Dict[int, int]]) -> None:
        """`inputs` has the input place of each step, `yields` its yields above 0 by place."""
        self.places = places
        self.steps = len(inputs)
        self._inputs = inputs
        self._yields = yields

    def input_of(self, step: int) -> Optional[int]:
        """From which place a step takes; None for a step that the net has not."""
        if not 0 <= step < self.steps:
            return None
        return self._inputs[step]

    def yield_at(self, step: int, place: int) -> int:
        """The yield of a step at a place; 0 for a step or a place that the net has not."""
        if not 0 <= step < self.steps:
            return 0
        return self._yields[step].get(place, 0)


class Step(NamedTuple):
    """A step of a chained file."""

    input: int
    first: int


class Arc(NamedTuple):
    """An arc of a chained file; `next` is 0 at the end of a chain."""

    place: int
    weight: int
    next: int


def load_grid(data: bytes) -> Union[Net, Refused]:
    """The net of a grid file, or the first fault found."""
    if len(data) < 2:
        return Refused(WRONG_LENGTH, 0)
    places, steps = data[0], data[1]
    if not 1 <= places <= MOST_PLACES:
        return Refused(PLACES_OUT_OF_RANGE, 0)
    if steps > MOST_STEPS:
        return Refused(TOO_MANY_STEPS_OR_ARCS, 0)
    row_length = 1 + places
    if len(data) != 2 + steps * row_length:
        return Refused(WRONG_LENGTH, 0)

    rows = [data[at : at + row_length] for at in range(2, len(data), row_length)]
    for step, row in enumerate(rows):
        if row[0] >= places:
            return Refused(STEP_UNFIT, step)
    for step, row in enumerate(rows):
        if not any(row[1:]):
            return Refused(STEP_WITHOUT_YIELD, step)

    inputs = [row[0] for row in rows]
    yields = [{place: count for place, count in enumerate(row[1:]) if count} for row in rows]
    return Net(places, inputs, yields)


def load_chained(data: bytes) -> Union[Net, Refused]:
    """The net of a chained file, or the first fault found."""
    if len(data) < 4:
        return Refused(WRONG_LENGTH, 0)
    places, steps_said, arcs_said = data[0], data[1], _two_bytes(data, 2)
    if not 1 <= places <= MOST_PLACES:
        return Refused(PLACES_OUT_OF_RANGE, 0)
    if steps_said > MOST_STEPS or arcs_said > MOST_ARCS:
        return Refused(TOO_MANY_STEPS_OR_ARCS, 0)
    arcs_at = 4 + 3 * steps_said
    if len(data) != arcs_at + 4 * arcs_said:
        return Refused(WRONG_LENGTH, 0)

    steps = [Step(data[at], _two_bytes(data, at + 1)) for at in range(4, arcs_at, 3)]
    arcs = {
        number: Arc(data[at], data[at + 1], _two_bytes(data, at + 2))
        for number, at in enumerate(range(arcs_at, len(data), 4), start=1)
    }
    for number, step in enumerate(steps):
        if step.input >= places or step.first > arcs_said:
            return Refused(STEP_UNFIT, number)
    for number in range(1, arcs_said + 1):
        if not _arc_is_fit(number, arcs, places):
            return Refused(ARC_UNFIT, number)
    for number, step in enumerate(steps):
        if step.first == 0:
            return Refused(STEP_WITHOUT_YIELD, number)

    inputs = [step.input for step in steps]
    yields = [_chain_yields(step.first, arcs) for step in steps]
    return Net(places, inputs, yields)


def _two_bytes(data: bytes, at: int) -> int:
    """The two-byte number at an offset, high byte first."""
    return data[at] * 256 + data[at + 1]


def _arc_is_fit(number: int, arcs: Dict[int, Arc], places: int) -> bool:
    """Whether an arc's place, weight and next number are allowed."""
    arc = arcs[number]
    if arc.place >= places or arc.weight == 0:
        return False
    if arc.next == 0:
        return True
    return number < arc.next <= len(arcs) and arcs[arc.next].place > arc.place


def _chain_yields(first: int, arcs: Dict[int, Arc]) -> Dict[int, int]:
    """The yields of the chain that begins at an arc, by place."""
    yields = {}
    number = first
    while number != 0:
        arc = arcs[number]
        yields[arc.place] = arc.weight
        number = arc.next
    return yields
