"""Compares the built program `judge` with the reference on sheets by chance: fuzz.py N [SEED] [--program PATH]

The sheets are written to a temporary folder some hundred at a time, and the program is run once for each
such batch, with their names. The first difference stops the run and is shown with the sheet's bytes.
"""

from __future__ import annotations

import argparse
import subprocess
import sys
import tempfile
from collections import Counter
from pathlib import Path
from typing import List, NamedTuple, Optional

from built import built
from judge import judge, verdict
from make_net_table import Chance
from random_sheets import any_sheet

BATCH = 400
MOST_SECONDS = 300  # for one batch
VERDICTS = ["ok", *(f"no {number}" for number in (*range(1, 14), 19))]


class Answer(NamedTuple):
    """What the program wrote for a batch: its lines, what follows the last line's end, and its complaints."""

    lines: List[str]
    rest: str
    complaint: str


def ask(program: Path, folder: str, names: List[str]) -> Answer:
    """Runs the program on the named files."""
    try:
        ran = subprocess.run([program, *names], cwd=folder, capture_output=True, timeout=MOST_SECONDS)
    except subprocess.TimeoutExpired:
        return Answer([], "", f"it took more than {MOST_SECONDS} seconds")
    *lines, rest = ran.stdout.decode("ascii", "backslashreplace").split("\n")
    complaint = ran.stderr.decode("ascii", "backslashreplace")
    if ran.returncode < 0:
        complaint += f"signal {-ran.returncode} ended it"
    return Answer(lines, rest, complaint)


def difference(sheets: List[bytes], lines: List[str], answer: Answer) -> Optional[str]:
    """The first difference between the lines expected and the answer, in words; None where there is none."""
    besides = f"{answer.rest}{answer.complaint}"
    said = answer.lines + ["nothing"] * (len(lines) - len(answer.lines))
    for sheet, line, given in zip(sheets, lines, said):
        if line != given:
            told = f"expected {line}\nthe program says {given}\n{besides}".rstrip()
            return f"they differ at a sheet of {len(sheet)} bytes:\n{sheet.hex() or '-'}\n{told}"
    if len(said) > len(lines) or besides:
        return f"the lines are as expected, but there is more: {' '.join(said[len(lines) :])}{besides}"
    return None


def compare(program: Path, folder: str, sheets: List[bytes], lines: List[str]) -> Optional[str]:
    """Has the program judge the sheets; the first difference in words."""
    names = [f"{number}.sheet" for number in range(len(sheets))]
    for name, sheet in zip(names, sheets):
        Path(folder, name).write_bytes(sheet)
    return difference(sheets, [f"{name}: {line}" for name, line in zip(names, lines)], ask(program, folder, names))


def fuzz(program: Path, number: int, seed: int) -> int:
    """Compares so many sheets, and prints how the verdicts fell."""
    chance, verdicts, longest = Chance(seed), Counter(), 0
    with tempfile.TemporaryDirectory() as folder:
        for done in range(0, number, BATCH):
            sheets = [any_sheet(chance) for _ in range(min(BATCH, number - done))]
            lines = [judge(sheet) for sheet in sheets]
            found = compare(program, folder, sheets, lines)
            if found:
                print(f"seed {seed}, sheets {done} to {done + len(sheets) - 1}: {found}")
                return 1
            verdicts.update(map(verdict, lines))
            longest = max(longest, *(line.count(" ") for line in lines if line.startswith("ok")), 0)
    print(f"{number} sheets, seed {seed}: the program and the reference agree on all")
    for said in VERDICTS:
        print(f"  {verdicts[said]:7} {said}")
    print(f"  {longest:7} steps in the longest order")
    return 0


def main() -> int:
    words = argparse.ArgumentParser(description=__doc__.split("\n")[0])
    words.add_argument("number", type=int, metavar="N")
    words.add_argument("seed", type=int, nargs="?", default=1, metavar="SEED")
    words.add_argument("--program", type=Path, default=built("judge"), metavar="PATH")
    asked = words.parse_args()
    if not asked.program.is_file():
        print(f"there is no program {asked.program}; ./zaldrum judge builds it", file=sys.stderr)
        return 2
    return fuzz(asked.program.resolve(), asked.number, asked.seed)


if __name__ == "__main__":
    sys.exit(main())
