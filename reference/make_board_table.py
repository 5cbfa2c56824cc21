"""Makes the table of calls on random piles that the program board_vectors compares the proved boards with.

Writes crates/board_vectors/stdin, a line for each call with what the boards of boards.py answer, and
crates/board_vectors/stdout, how many lines there are. docs/TESTING.md says what a line holds.
"""

import pathlib
import random

from boards import LIMIT, PLACES, SLOTS, Allowance, CountBoard, Refused, Renaming, SlotBoard, digest, picture

PILES = 420
HERE = pathlib.Path(__file__).resolve().parent.parent / "crates" / "board_vectors"


class Table:
    """The lines so far, and the pile that they speak of."""

    def __init__(self, seed):
        self.random = random.Random(seed)
        self.lines = []
        self.board = None

    def answer(self, call, act):
        """One line: the call, its answer, and a digest of all counts and spare after it."""
        try:
            given = act()
            told = "ok" if given is None else str(given)
        except Refused as refusal:
            told = str(refusal)
        self.lines.append(f"{call} = {told} {digest(picture(self.board))}")

    def new(self, make):
        self.board = {"counts": CountBoard, "slots": SlotBoard}[make]()
        self.answer(f"new {make}", lambda: None)

    def load_counts(self, row, spare):
        words = " ".join(map(str, row))
        self.answer(f"counts {spare} {words}", lambda: self.board.load(row, spare))

    def load_slots(self, row):
        runs = []
        for held in row:
            if runs and runs[-1][1] == held:
                runs[-1][0] += 1
            else:
                runs.append([1, held])
        words = " ".join(f"{length} {held}" for length, held in runs)
        self.answer(f"slots {words}", lambda: self.board.load(row))

    def rename(self, row):
        self.board = Renaming(self.board)
        self.answer("rename " + " ".join(map(str, row)), lambda: self.board.load(row))

    def allow(self, left):
        self.board = Allowance(self.board, left)
        self.answer(f"allow {left}", lambda: None)

    def bottom(self):
        """Takes the pile apart: a digest of what its lowest board keeps."""
        while hasattr(self.board, "below"):
            self.board = self.board.below
        kept = self.board.slots if isinstance(self.board, SlotBoard) else self.board.numbers
        self.answer("bottom", lambda: digest(kept))

    # random rows and calls

    def counts_row(self):
        row = [0] * PLACES
        for _ in range(self.random.choice([0, 1, 3, 8, 64])):
            row[self.random.randrange(PLACES)] = self.random.choice([1, 1, 2, 3, 7, 1000, 30_000_000])
        return row

    def counts_spare(self, row):
        room = LIMIT - sum(row)
        return self.random.choice([0, 1, 5, 40, 1000, room - 1, room, room + 1, min(room + 1, 2**32 - 1)])

    def slots_row(self):
        row = [0] * SLOTS
        for _ in range(self.random.choice([0, 1, 3, 12, 30])):
            start = self.random.randrange(SLOTS)
            length = self.random.choice([1, 2, 5, 80, 700, SLOTS])
            held = self.random.randrange(PLACES + 1)
            row[start : start + length] = [held] * len(row[start : start + length])
        return row

    def load(self, make):
        if make == "counts":
            for _ in range(self.random.choice([1, 1, 2])):
                row = self.counts_row()
                row = self.random.choice([row, row, row, row, row[:63], row + [0]])
                self.load_counts(row, self.counts_spare(row))
        else:
            for _ in range(self.random.choice([0, 1, 1, 2])):
                row = self.slots_row()
                row = self.random.choice([row, row, row, row, row[:-1], row + [0], [65] + row[1:], row[:-1] + [255]])
                self.load_slots(row)

    def layer(self):
        if self.random.random() < 0.5:
            self.allow(self.random.choice([0, 1, 4, 60, 3000, LIMIT - 1, LIMIT, LIMIT + 1, 2**32 - 1]))
            return
        row = list(range(PLACES))
        self.random.shuffle(row)
        fault = self.random.randrange(8)
        if fault == 0:
            row[self.random.randrange(PLACES)] = self.random.choice([0, 63, 64, 255])
        elif fault == 1:
            row = self.random.choice([row[:63], row + [0], [0] * PLACES])
        self.rename(row)

    def place(self):
        filled = [place for place in range(PLACES) if self.board.count(place) > 0]
        if filled and self.random.random() < 0.6:
            return self.random.choice(filled)
        return self.random.choice([self.random.randrange(PLACES)] * 6 + [0, 63, 64, 255])

    def call(self):
        kind = self.random.choice(["take", "take", "take", "put", "put", "put", "count", "spare"])
        if kind == "spare":
            self.answer("spare", self.board.spare)
            return
        place = self.place()
        if kind == "count":
            self.answer(f"count {place}", lambda: self.board.count(place))
        elif kind == "take":
            self.answer(f"take {place}", lambda: self.board.take(place))
        else:
            spare = self.board.spare()
            n = self.random.choice([0, 1, 2, 3, 17, spare // 2, spare, spare + 1, 2**32 - 1])
            self.answer(f"put {place} {n}", lambda: self.board.put(place, n))

    def pile(self):
        make = self.random.choice(["counts", "counts", "slots"])
        self.new(make)
        self.load(make)
        for _ in range(self.random.randrange(5)):
            self.layer()
        for _ in range(self.random.randrange(6, 26)):
            self.call()
        self.bottom()


def main():
    table = Table(20_261_117)
    for _ in range(PILES):
        table.pile()
    HERE.mkdir(parents=True, exist_ok=True)
    (HERE / "stdin").write_text("".join(line + "\n" for line in table.lines))
    (HERE / "stdout").write_text(f"{len(table.lines)} lines agree\n")


if __name__ == "__main__":
    main()
