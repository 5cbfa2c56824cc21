"""Runs a board script from standard input on the boards of boards.py and prints what it should print.

Written from docs/FORMATS.md; crates/board/stdout is what this prints for crates/board/stdin.
"""

import re
import sys

from boards import PLACES, SLOTS, Allowance, CountBoard, Refused, Renaming, SlotBoard, picture
from shown import shown

WORDS = {
    16: "the place is above 63",
    17: "the place is empty",
    18: "the put is above spare",
    19: "the board's row is unfit",
    20: "the row is no renaming of the 64 places",
}
MOST_LAYERS = 4
WIDEST = 40


class NotUnderstood(Exception):
    """A line that is none of the script's."""


def number(word, most):
    if not re.fullmatch("[0-9]+", word) or int(word) > most:
        raise NotUnderstood
    return int(word)


def long(word):
    return number(word, 2**32 - 1)


def byte(word):
    return number(word, 255)


class Desk:
    """The pile that a script works on, and how many layers it has."""

    def __init__(self):
        self.board = CountBoard()
        self.layers = 0

    def start(self, board, *row):
        self.board = board
        self.layers = 0
        board.load(*row)

    def cover(self, layer):
        if self.layers == MOST_LAYERS:
            return "the pile has four layers already"
        self.layers += 1
        self.board = layer(self.board)
        return None

    def obey(self, words):
        """Does what a line asks for; gives its answer, or none where it was only accepted."""
        if words[:2] == ["load", "count"] and len(words) >= 4 and words[-2] == "spare":
            row = [long(word) for word in words[2:-2]]
            return self.start(CountBoard(), row + [0] * (PLACES - len(row)), long(words[-1]))
        if words[:2] == ["load", "slots"]:
            row = [byte(word) for word in words[2:]]
            return self.start(SlotBoard(), row + [0] * (SLOTS - len(row)))
        if words[0] == "rename":
            row = [byte(word) for word in words[1:]]
            full = self.cover(Renaming)
            return full or self.board.load(row + list(range(len(row), PLACES)))
        if words[0] == "allow" and len(words) == 2:
            left = long(words[1])
            return self.cover(lambda below: Allowance(below, left))
        if words == ["spare"]:
            return self.board.spare()
        if words[0] == "count" and len(words) == 2:
            return self.board.count(byte(words[1]))
        if words[0] == "take" and len(words) == 2:
            return self.board.take(byte(words[1]))
        if words[0] == "put" and len(words) == 3:
            return self.board.put(byte(words[1]), long(words[2]))
        raise NotUnderstood

    def answer(self, words):
        try:
            given = self.obey(words)
            return "ok" if given is None else str(given)
        except Refused as refusal:
            return f"{refusal}: {WORDS[refusal.number]}"
        except NotUnderstood:
            return "not understood"


def main():
    desk = Desk()
    for line in sys.stdin:
        code = line.split("#")[0].strip()
        if not code:
            continue
        before = picture(desk.board)
        print(f"> {shown(code)}")
        print(f"  {desk.answer(code.split())}")
        after = picture(desk.board)
        for place in range(PLACES):
            if before[place] != after[place]:
                bar = "#" * min(after[place], WIDEST) + ("+" if after[place] > WIDEST else "")
                print(f"  place {place}: {before[place]} -> {after[place]} {bar}".rstrip())
        if before[-1] != after[-1]:
            print(f"  spare: {before[-1]} -> {after[-1]}")


if __name__ == "__main__":
    main()
