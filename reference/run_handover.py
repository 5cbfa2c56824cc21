"""Runs a hand-over file from standard input on the sittings of sittings.py and prints what it should print.

It follows the section on hand-over files of docs/FORMATS.md. crates/handover/stdout, which was worked out by
hand, is what this prints for crates/handover/stdin.
"""

import re
import sys

import nets
from boards import PLACES, Allowance, CountBoard, Refused, Renaming, SlotBoard
from shown import shown
from sittings import AT_LEAST, CUT_OFF, EXACT, SHORT, Sitting, Target

WORDS = {
    1: "the bytes are too few for a head, or not as many as it says",
    2: "the number of places is not 1 to 64",
    3: "there are more than 128 steps or more than 1023 arcs",
    4: "a step's input or first arc is outside the net",
    6: "a step yields nothing",
    7: "a tally or target row has the wrong length, or the kind is unknown",
    8: "more than 65535 steps would be done",
    9: "the order memory is shorter than the order",
    10: "spare is less than the yields",
    11: "a place is short",
    12: "a place is cut off",
    13: "a place misses the target",
    14: "the net has no such step",
    15: "the step's input place is empty",
    18: "the put is above spare",
    19: "the board's row is unfit",
    20: "the row is no renaming of the 64 places",
    21: "the list is full, or the findings memory too short",
}
BYTE, HALF, WHOLE = 2**8 - 1, 2**16 - 1, 2**32 - 1
STEP = "step from P yields N at P, N at P, .."
PLENTY = 1_000_000


class Unfit(Exception):
    """What is wrong with a file, in words."""


def told(refusal):
    return f"refusal {refusal.number} at {refusal.detail}: {WORDS[refusal.number]}"


# words and numbers


def number(word, most):
    if not re.fullmatch("[0-9]+", word) or int(word) > most:
        raise Unfit(f"'{word}' is no number of 0 to {most}")
    return int(word)


def numbers(words, most):
    return [number(word, most) for word in words]


def only(words, most, form):
    if len(words) != 1:
        raise Unfit(f"the line should read '{form}'")
    return number(words[0], most)


def step_of(words):
    """The input of a step, and its yields as pairs of blocks and place."""
    if len(words) < 3 or words[0] != "from" or words[2] != "yields":
        raise Unfit(f"the line should read '{STEP}'")
    start, parts = number(words[1], BYTE), words[3:]
    yields = []
    while parts:
        if len(parts) < 3 or parts[1] != "at":
            raise Unfit(f"the line should read '{STEP}'")
        yields.append((number(parts[0], BYTE), number(parts[2], BYTE)))
        parts = parts[3:]
    return start, yields


def request_of(words):
    """A tally and a target."""
    for place, word in enumerate(words):
        if word == "exact":
            return numbers(words[:place], HALF), Target(tuple(numbers(words[place + 1 :], WHOLE)), EXACT)
        if words[place : place + 2] == ["at", "least"]:
            return numbers(words[:place], HALF), Target(tuple(numbers(words[place + 2 :], WHOLE)), AT_LEAST)
    raise Unfit("the line has neither 'exact' nor 'at least'")


# the day


class Day:
    """What the lines of a file say."""

    def __init__(self):
        self.places = self.start = self.rename = self.allow = self.spare = None
        self.rows = []
        self.memory, self.findings = 65_535, 192
        self.calls = []

    def once(self, name, value):
        if getattr(self, name) is not None:
            raise Unfit(f"'{name}' stands above already")
        setattr(self, name, value)

    def read(self, code):
        words = [word for word in re.split("[ \t,]", code) if word]
        if not words:
            return
        first, rest = words[0], words[1:]
        if first == "places":
            self.once("places", only(rest, BYTE, "places N"))
        elif first == "step":
            self.add_step(*step_of(rest))
        elif first == "start":
            self.set_start(numbers(rest, WHOLE))
        elif first == "rename":
            self.once("rename", numbers(rest, BYTE))
        elif first in ("allow", "spare"):
            self.once(first, only(rest, WHOLE, first + " N"))
        elif first in ("memory", "findings"):
            setattr(self, first, only(rest, HALF, first + " N"))
        elif first == "fire":
            step = only(rest, HALF, "fire T")
            self.calls.append((code, lambda sitting: fire(sitting, step)))
        elif first == "resume":
            tally, target = request_of(rest)
            memory = self.memory
            self.calls.append((code, lambda sitting: resume(sitting, tally, target, memory)))
        elif first == "survey":
            tally, target = request_of(rest)
            memory = self.findings
            self.calls.append((code, lambda sitting: survey(sitting, tally, target, memory)))
        else:
            raise Unfit(f"no line begins with '{first}'")

    def add_step(self, start, yields):
        if self.places is None:
            raise Unfit("'step' stands before 'places'")
        row = [0] * self.places
        for blocks, place in yields:
            if place >= self.places:
                raise Unfit(f"the net has no place {place} to yield at")
            if row[place] > 0:
                raise Unfit(f"the step yields at place {place} twice")
            row[place] = blocks
        self.rows.append([start] + row)

    def set_start(self, row):
        if self.places is None:
            raise Unfit("'start' stands before 'places'")
        if len(row) != self.places:
            raise Unfit(f"the start has {len(row)} numbers for {self.places} places")
        self.once("start", row)

    def net(self):
        if self.places is None:
            raise Unfit("there is no line 'places'")
        head = [self.places, min(len(self.rows), BYTE)]
        net = nets.load_grid(bytes(head + [byte for row in self.rows for byte in row]))
        if isinstance(net, nets.Refused):
            raise Unfit(f"the net: {told(net)}")
        return net

    def first_board(self):
        if self.start is None:
            raise Unfit("there is no line 'start'")
        board = SlotBoard()
        try:
            lay_out(board, self.start)
        except Refused as refusal:
            raise Unfit(f"the start on the first board: {told(refusal)}")
        return board

    def second_board(self):
        blocks = sum(self.start)
        spare = PLENTY if self.spare is None else self.spare
        left = PLENTY if self.allow is None else self.allow
        row = self.rename
        if row is None:
            row = [PLACES - 1 - place for place in range(PLACES)]
        try:
            below = CountBoard()
            below.load([0] * PLACES, spare + blocks)
            board = Renaming(Allowance(below, left + blocks))
            board.load(row + list(range(len(row), PLACES)))
            lay_out(board, self.start)
        except Refused as refusal:
            raise Unfit(f"the start on the second board: {told(refusal)}")
        return board


def lay_out(board, start):
    for place, blocks in enumerate(start):
        board.put(place, blocks)


# calls, each with what is said to it, a line for each thing


def fire(sitting, step):
    sitting.fire(step)
    return ["accepted"]


def resume(sitting, tally, target, entries):
    memory = [0] * entries
    length = sitting.resume(tally, target, memory)
    if length == 0:
        return ["accepted with no step to do"]
    return ["accepted in the order " + " ".join(map(str, memory[:length]))]


def survey(sitting, tally, target, entries):
    memory = [None] * entries
    length = sitting.survey(tally, target, memory)
    return [in_words(finding) for finding in memory[:length]] or ["nothing stands in the way"]


def in_words(finding):
    if finding.cause == SHORT:
        return f"place {finding.place} is short: its final number is {finding.number}"
    if finding.cause == CUT_OFF:
        return f"place {finding.place} is cut off"
    return f"place {finding.place} misses the target by {finding.number}"


def answer(sitting, call):
    """What is said to a call, and whether it was accepted."""
    try:
        return call(sitting), True
    except Refused as refusal:
        return [told(refusal)], False


def show(line, said):
    print(line)
    for words in said:
        print("  " + words)


def carry_out(day):
    """Makes the calls and the hand-over and prints them; true where the markings agree."""
    net = day.net()
    first, second = Sitting(net, day.first_board()), Sitting(net, day.second_board())
    for line, call in day.calls:
        show("> " + shown(line), answer(first, call)[0])
    done = first.done[: net.steps]
    print(" ".join(["counters"] + [str(n) for n in done]))
    target = Target(tuple(first.marking()), EXACT)
    said, accepted = answer(second, lambda sitting: resume(sitting, done, target, day.memory))
    show("hand-over", said)
    print("place  first      second")
    for place in range(net.places):
        print(f"{place:>5}  {first.board.count(place):>5}  {second.board.count(place):>10}")
    print(f"spare  {first.board.spare():>5}  {second.board.spare():>10}")
    agree = first.marking() == second.marking()
    print("the hand-over is refused" if not accepted else "the markings agree" if agree else "the markings differ")
    return accepted and agree


def read(text):
    day = Day()
    for line, code in enumerate(text.split("\n"), 1):
        try:
            day.read(code.split("#")[0].strip())
        except Unfit as unfit:
            raise Unfit(f"line {line}: {unfit}")
    return day


def run(text):
    """Carries a file out, and gives the exit status."""
    try:
        return 0 if carry_out(read(text)) else 1
    except Unfit as unfit:
        print(f"zaldrum handover: standard input: {unfit}", file=sys.stderr)
        return 1


if __name__ == "__main__":
    sys.exit(run(sys.stdin.read()))
