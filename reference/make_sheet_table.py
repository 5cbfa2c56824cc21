"""Writes the table of sheets that a program compares its own lines against: make_sheet_table.py

It writes crates/sheet_vectors/stdin (the sheets) and crates/sheet_vectors/stdout (what the comparing program
prints when it agrees). The same bytes come out every time.

A line of stdin is `HEX LINE`: the sheet's bytes as lower-case hexadecimal digits (`-` for none), and the
line of its verdict, which has spaces of its own. The program prints one line for each difference, and at
the end `N sheets, 0 differences`, with the number of sheets and that of differences.
"""

from __future__ import annotations

from collections import Counter
from pathlib import Path
from typing import Dict, Optional

import judges
from judge import judge, read, size_refusal, verdict
from make_net_table import Chance
from nets import Refused
from random_sheets import SORTS
from sheet_cases import all_cases, ok

FOLDER = Path(__file__).resolve().parent.parent / "crates" / "sheet_vectors"
SEED = 1_000_000
MOST_BYTES = 3_000_000
LEAST_OF_EACH = 25
MOST_BY_RULE = 60  # steps of an order that the slower judges are asked for
MOST_TO_TRY = 14

BY_CHANCE = dict(zip(SORTS, (420, 220, 110, 60, 60, 30, 6, 16, 4)))


class Table:
    """The sheets so far, each once, and how often each verdict was given."""

    def __init__(self) -> None:
        self.lines: Dict[bytes, str] = {}
        self.verdicts: Counter = Counter()
        self.opinions: Counter = Counter()

    def add(self, data: bytes, want: Optional[str] = None) -> None:
        """Adds a sheet; `want`, where given, is the line that was worked out by hand."""
        line = judge(data)
        if want is not None and line != want:
            raise SystemExit(f"{data.hex()}: wanted {want}, the reference says {line}")
        if data not in self.lines:
            self.lines[data] = line
            self.verdicts[verdict(line)] += 1
            self.opinions.update(other_opinions(data, line))

    def text(self) -> str:
        """The text of crates/sheet_vectors/stdin."""
        return "".join(f"{data.hex() or '-'} {line}\n" for data, line in self.lines.items())


def other_opinions(data: bytes, line: str) -> list[str]:
    """Which of the slower judges of judges.py looked at the tally; stops the program when one of them differs."""
    sheet = read(data)
    if isinstance(sheet, Refused) or size_refusal(sheet) or sum(sheet.tally) > MOST_BY_RULE:
        return []
    asked = sheet.net, tuple(sheet.start), tuple(sheet.tally)
    ruled = judges.judge_by_rule(*asked)
    agree(data, line, {"short": f"no 11 {ruled.place}", "cut off": f"no 12 {ruled.place}"}.get(ruled.word, ruled.order))
    if sum(sheet.tally) > MOST_TO_TRY:
        return ["by the rule"]
    tried = judges.judge_by_trying(*asked)
    agree(data, line, line if tried is None and verdict(line) in ("no 11", "no 12") else tried)
    return ["by the rule", "by trying every order"]


def agree(data: bytes, line: str, said: object) -> None:
    """Stops the program unless the line is the one said, or the order said, or misses the target after it."""
    if isinstance(said, tuple):
        good = line == ok(*said) or verdict(line) == "no 13"
    else:
        good = line == said
    if not good:
        raise SystemExit(f"{data.hex()}: the reference says {line}, a slower judge {said}")


def make_table() -> Table:
    """All sheets, in the sequence in which they are written."""
    table = Table()
    for data, line in all_cases():
        table.add(data, line)
    chance = Chance(SEED)
    for sort in (sort for sort, times in BY_CHANCE.items() for _ in range(times)):
        table.add(SORTS[sort](chance))
    return table


def main() -> None:
    """Writes both files and prints the counts."""
    table = make_table()
    text, summary = table.text(), f"{len(table.lines)} sheets, 0 differences\n"
    for said, times in table.verdicts.items():
        if times < LEAST_OF_EACH:
            raise SystemExit(f"{said} occurs too seldom: {times}")
    if len(text) >= MOST_BYTES:
        raise SystemExit(f"the table is too long: {len(text)} bytes")
    FOLDER.mkdir(parents=True, exist_ok=True)
    (FOLDER / "stdin").write_bytes(text.encode("ascii"))
    (FOLDER / "stdout").write_bytes(summary.encode("ascii"))
    print(summary, end="")
    for said, times in (*sorted(table.verdicts.items()), *table.opinions.items()):
        print(f"{said}: {times}")
    print(f"{FOLDER / 'stdin'}: {len(text)} bytes")


if __name__ == "__main__":
    main()
