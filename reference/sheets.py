"""Sheets written down as bytes, in the format of docs/FORMATS.md; nothing is checked."""

from __future__ import annotations

from typing import NamedTuple, Sequence

from make_net_table import Arc, Meaning, Step, chained


class Sheet(NamedTuple):
    """A sheet as it is meant, before it is written down; `net` is a chained net file."""

    net: bytes
    start: Sequence[int]
    tally: Sequence[int]
    kind: int
    target: Sequence[int]

    def written(self) -> bytes:
        """The bytes of the sheet."""
        return b"".join([self.net, row(self.start, 4), row(self.tally, 2), bytes([self.kind]), row(self.target, 4)])


def row(numbers: Sequence[int], size: int) -> bytes:
    """Numbers of `size` bytes each, high byte first."""
    return b"".join(number.to_bytes(size, "big") for number in numbers)


def plain_chained(meaning: Meaning) -> bytes:
    """The chained net file in which each step has a chain of its own, one behind the other."""
    steps: list[Step] = []
    arcs: list[Arc] = []
    for input_place, yields in meaning.rows:
        steps.append((input_place, len(arcs) + 1))
        chain = [(place, weight) for place, weight in enumerate(yields) if weight]
        arcs += [(p, w, len(arcs) + 1 + at) for at, (p, w) in enumerate(chain, start=1)]
        arcs[-1] = (*arcs[-1][:2], 0)
    return chained(meaning.places, steps, arcs)


def moves(places: int, ways: Sequence[tuple[int, int]]) -> Meaning:
    """A net whose steps each move one block, from one place to another."""
    return Meaning(places, [(start, one_at(end, places)) for start, end in ways])


def one_at(place: int, places: int) -> list[int]:
    """One block at a place."""
    return [int(p == place) for p in range(places)]
