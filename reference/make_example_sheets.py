"""Writes the example sheets, examples/*.sheet, from the descriptions below: make_example_sheets.py

Each has the line that was worked out by hand; examples/README.md tells how. The script stops where the
reference judge says another, or, for the small ones, where trying every order does.
"""

from __future__ import annotations

from pathlib import Path
from typing import NamedTuple

from judge import judge, read
from judges import judge_by_trying
from make_net_table import Meaning
from nets import Refused
from sheets import Sheet, moves, one_at, plain_chained

FOLDER = Path(__file__).resolve().parent.parent / "examples"
EXACT, AT_LEAST = 0, 1
MOST_TO_TRY = 10  # trying every order goes one call deeper for each step

DETOUR = plain_chained(moves(3, [(0, 2), (0, 1), (1, 0)]))
HEAP = (FOLDER / "heap.chained").read_bytes()
LOCK = (FOLDER / "lock.chained").read_bytes()
DOUBLER = plain_chained(Meaning(1, [(0, [2])]))
TO_FORTY_PLACES = plain_chained(Meaning(40, [(0, [250] * 40)]))
RING = plain_chained(moves(64, [(place, (place + 1) % 64) for place in range(64)]))

ONE_IN_THE_RING = one_at(32, 64)
ONCE_ROUND = [*range(32, 64), *range(32)]


class Example(NamedTuple):
    """A sheet's bytes, and its line as worked out by hand."""

    sheet: bytes
    line: str


def asked(net: bytes, start: list, tally: list, kind: int, target: list, line: str) -> Example:
    """An example that is a whole sheet."""
    return Example(Sheet(net, start, tally, kind, target).written(), line)


def order(steps: list) -> str:
    """The line of an order."""
    return " ".join(["ok", *map(str, steps)])


def to_forty_places(times: int, line: str) -> Example:
    """From one block at place 0: each time takes one block there and puts 250 at each of 40 places."""
    left = [1 + 249 * times] + [250 * times] * 39
    return asked(TO_FORTY_PLACES, [1] + [0] * 39, [times], EXACT, left, line)


def examples() -> dict[str, Example]:
    """All example sheets by name."""
    detour = asked(DETOUR, [1, 0, 0], [1, 1, 1], EXACT, [0, 0, 1], "ok 1 2 0")
    return {
        "heap": asked(HEAP, [1, 0, 0, 0], [1, 1, 3, 1], EXACT, [0, 0, 1, 2], "ok 0 1 2 2 2 3"),
        "detour": detour,
        "short": asked(DETOUR, [1, 0, 0], [1, 1, 2], EXACT, [1, 0, 1], "no 11 1"),
        "cut-off": asked(DETOUR, [0, 0, 1], [0, 1, 1], EXACT, [0, 0, 1], "no 12 0"),
        "missed": asked(DETOUR, [2, 0, 0], [1, 1, 1], EXACT, [0, 0, 1], "no 13 0"),
        "at-least": asked(DETOUR, [2, 0, 0], [1, 1, 1], AT_LEAST, [0, 0, 1], "ok 0 1 2"),
        "empty-order": asked(DETOUR, [1, 0, 0], [0, 0, 0], EXACT, [1, 0, 0], "ok"),
        "lock": asked(LOCK, [1, 0, 0], [1] * 6, EXACT, [1, 0, 0], "ok 0 2 4 1 3 5"),
        "doubler": asked(DOUBLER, [1], [3], EXACT, [4], "ok 0 0 0"),
        "spare-used-up": to_forty_places(100, order([0] * 100)),
        "spare-short": to_forty_places(101, "no 10 0"),
        "ring": asked(RING, ONE_IN_THE_RING, [64] * 64, EXACT, ONE_IN_THE_RING, order(ONCE_ROUND * 64)),
        "ring-too-long": asked(RING, ONE_IN_THE_RING, [64] * 32 + [65] + [64] * 31, AT_LEAST, [0] * 64, "no 9 0"),
        "damaged": Example(detour.sheet[:18] + b"\0" + detour.sheet[19:], "no 5 2"),
        "cut-short": Example(detour.sheet[:-1], "no 1 0"),
    }


def check(name: str, example: Example) -> None:
    """Stops the program when a second way to the line leads elsewhere."""
    said = judge(example.sheet)
    if said != example.line:
        raise SystemExit(f"{name}: worked out {example.line}, the reference judge says {said}")
    sheet = read(example.sheet)
    if isinstance(sheet, Refused) or sum(sheet.tally) > MOST_TO_TRY:
        return
    tried = judge_by_trying(sheet.net, tuple(sheet.start), tuple(sheet.tally))
    can_be_done = not said.startswith(("no 11", "no 12"))
    if (tried is not None) != can_be_done or (said.startswith("ok") and order(tried) != said):
        raise SystemExit(f"{name}: worked out {example.line}, trying every order finds {tried}")


def main() -> None:
    for name, example in examples().items():
        check(name, example)
        (FOLDER / f"{name}.sheet").write_bytes(example.sheet)
        print(f"{name}.sheet: {len(example.sheet)} bytes, {example.line[:40]}")


if __name__ == "__main__":
    main()
