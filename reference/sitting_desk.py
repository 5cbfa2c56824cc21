"""Answers the lines of the table of sittings, one after the other. docs/TESTING.md says what a line holds."""

import sittings
from boards import PLACES, Allowance, CountBoard, Refused, Renaming, SlotBoard, digest, picture
from nets import Net, load_chained, load_grid
from sittings import CUT_OFF, MISSED, SHORT, Finding, Target

LOADS = {"grid": load_grid, "chained": load_chained}


def numbers(words):
    return [int(word) for word in words.split()]


def order_memory(length):
    """Order memory before a call: no entry is the number of a step."""
    return [200 + k % 56 for k in range(length)]


def findings_memory(length):
    """Findings memory before a call: no finding has a place of a net."""
    causes = [lambda k: (SHORT, -1000 - k), lambda k: (CUT_OFF, 0), lambda k: (MISSED, 1000 + k)]
    return [Finding(200 + k % 56, *causes[k % 3](k)) for k in range(length)]


def flat(findings):
    """Findings as numbers below 2^32: place, cause, and the low and high half of the number."""
    halves = ((f.place, f.cause, f.number % 2**32, f.number // 2**32 % 2**32) for f in findings)
    return [number for four in halves for number in four]


class Desk:
    """The net, the pile and the sitting that the lines speak of."""

    def __init__(self, rules=sittings):
        self.rules = rules
        self.net = None
        self.board = None
        self.sitting = None
        self.memory = []

    def answer(self, call):
        """What stands in the table behind the call."""
        word, _, rest = call.partition(" ")
        return getattr(self, "on_" + word)(rest)

    # what a sitting is made of

    def on_net(self, rest):
        make, digits = rest.split()
        net = LOADS[make](bytes.fromhex(digits))
        if not isinstance(net, Net):
            return f"no {net.number} {net.detail}"
        self.net = net
        return "ok"

    def on_counts(self, rest):
        spare, *row = numbers(rest)
        self.board = CountBoard()
        self.board.load(row + [0] * (PLACES - len(row)), spare)
        return "ok"

    def on_slots(self, rest):
        runs = numbers(rest)
        self.board = SlotBoard()
        self.board.load([held for length, held in zip(runs[::2], runs[1::2]) for _ in range(length)])
        return "ok"

    def on_rename(self, rest):
        self.board = Renaming(self.board)
        self.board.load(numbers(rest))
        return "ok"

    def on_allow(self, rest):
        self.board = Allowance(self.board, int(rest))
        return "ok"

    def on_sit(self, _):
        self.sitting = self.rules.Sitting(self.net, self.board)
        return f"ok {self.state([])}"

    # the calls

    def on_fire(self, rest):
        return self.told(lambda: self.sitting.fire(int(rest)), [])

    def on_resume(self, rest):
        length, tally, kind, target = map(numbers, rest.split("/"))
        memory = order_memory(*length)
        return self.told(lambda: self.sitting.resume(tally, Target(target, *kind), memory), memory)

    def on_survey(self, rest):
        length, tally, kind, target = map(numbers, rest.split("/"))
        memory = findings_memory(*length)
        return self.told(lambda: self.sitting.survey(tally, Target(target, *kind), memory), memory, flat)

    def told(self, call, memory, shown=list):
        """The answer of a call, and a digest of everything after it."""
        self.memory = memory
        try:
            given = call()
            answer = "ok" if given is None else str(given)
        except Refused as refusal:
            answer = str(refusal)
        return f"{answer} {self.state(shown(memory))}"

    def state(self, memory):
        return digest(picture(self.sitting.board) + self.sitting.done + memory)

    def on_bottom(self, _):
        """Takes the pile apart: a digest of what its lowest board keeps."""
        board, self.sitting = self.sitting.board, None
        while hasattr(board, "below"):
            board = board.below
        return str(digest(board.slots if isinstance(board, SlotBoard) else board.numbers))
