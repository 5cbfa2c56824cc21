"""Sittings, written from their rules in words alone, to compare the proved ones with.

The checks of each call stand in the sequence of docs/RULES.md, and nothing is changed before the last of
them has passed. Nothing here is fast or clever.
"""

from typing import NamedTuple

from boards import Refused

DONE_COUNTS = 128
MOST_DONE = 65_535
FINDINGS_NEEDED = 192

EXACT = 0
AT_LEAST = 1

# why a place is listed: the number of the refusal for the same reason
SHORT = 11
CUT_OFF = 12
MISSED = 13


class Finding(NamedTuple):
    """What a survey lists: a place, what is wrong there, and a signed number."""

    place: int
    cause: int
    number: int


class Target(NamedTuple):
    """A number for each place, and a kind: 0 exact, 1 at least."""

    numbers: tuple
    kind: int


class Sitting:
    """A net and the board that it is used on, with a counter for each step that was fired."""

    def __init__(self, net, board):
        self.net = net
        self.board = board
        self.done = [0] * DONE_COUNTS
        self.yields = [self.yields_above_0(step) for step in range(net.steps)]

    def yields_above_0(self, step):
        """The yields of a step by rising place, where it has any."""
        numbers = ((place, self.net.yield_at(step, place)) for place in range(self.net.places))
        return {place: n for place, n in numbers if n > 0}

    # the three calls

    def fire(self, step):
        """Fires one step, or refuses."""
        if step >= self.net.steps:
            raise Refused(14)
        if sum(self.done) + 1 > MOST_DONE:
            raise Refused(8)
        place = self.net.input_of(step)
        if self.board.count(place) == 0:
            raise Refused(15, place)
        if self.board.spare() + 1 < sum(self.yields[step].values()):
            raise Refused(10)
        self.move(step)
        self.done[step] += 1

    def resume(self, tally, target, memory):
        """Does a tally by its first order, and notes the steps in the memory; gives how many they are."""
        self.check_rows(tally, target)
        if len(memory) < sum(tally):
            raise Refused(9)
        if self.board.spare() < sum(n * sum(self.yields[step].values()) for step, n in enumerate(tally)):
            raise Refused(10)
        finals = self.final_numbers(tally)
        self.refuse_least(11, short_places(finals))
        self.refuse_least(12, self.cut_off_places(self.marking(), tally))
        self.refuse_least(13, missed_places(finals, target))
        order = self.first_order(tally)
        for number, step in enumerate(order):
            self.move(step)
            memory[number] = step
        for step, n in enumerate(tally):
            self.done[step] += n
        return len(order)

    def survey(self, tally, target, memory):
        """Lists what is wrong with the tally and the target into the memory; answers how much it is."""
        self.check_rows(tally, target)
        if len(memory) < FINDINGS_NEEDED:
            raise Refused(21)
        finals = self.final_numbers(tally)
        short = [Finding(p, SHORT, finals[p]) for p in sorted(short_places(finals))]
        cut_off = [Finding(p, CUT_OFF, 0) for p in sorted(self.cut_off_places(self.marking(), tally))]
        missed = [Finding(p, MISSED, finals[p] - target.numbers[p]) for p in sorted(missed_places(finals, target))]
        findings = short + cut_off + missed
        memory[: len(findings)] = findings
        return len(findings)

    # checks that resume and survey share

    def check_rows(self, tally, target):
        if len(tally) != self.net.steps or len(target.numbers) != self.net.places:
            raise Refused(7)
        if target.kind not in (EXACT, AT_LEAST):
            raise Refused(7)
        if sum(self.done) + sum(tally) > MOST_DONE:
            raise Refused(8)

    def refuse_least(self, number, places):
        if places:
            raise Refused(number, min(places))

    # firing

    def move(self, step):
        """Fires a step by calls of the board, so that a slot board has its blocks where they belong."""
        self.board.take(self.net.input_of(step))
        for place, n in self.yields[step].items():
            self.board.put(place, n)

    def marking(self):
        """The blocks at the net's places."""
        return [self.board.count(place) for place in range(self.net.places)]

    # tallies

    def final_numbers(self, tally):
        """What the marking equation gives for each place; below 0 where more is taken than there is."""
        finals = self.marking()
        for step, n in enumerate(tally):
            finals[self.net.input_of(step)] -= n
            for place, blocks in self.yields[step].items():
                finals[place] += n * blocks
        return finals

    def cut_off_places(self, marking, tally):
        """The places of the tally's subnet that are not reached from the places that hold a block."""
        subnet = [(self.net.input_of(step), set(self.yields[step])) for step, n in enumerate(tally) if n > 0]
        return cut_off_in(subnet, {place for place, n in enumerate(marking) if n > 0})

    # the first order

    def first_order(self, tally):
        """The least safe step each time."""
        marking, left, order = self.marking(), list(tally), []
        while any(left):
            step, marking, left = self.least_safe_step(marking, left)
            order.append(step)
        return order

    def least_safe_step(self, marking, left):
        """The least step that is left, finds a block and cuts no place off, with what is then there and left."""
        for step in range(self.net.steps):
            if left[step] > 0 and marking[self.net.input_of(step)] > 0:
                after, rest = self.after_step(marking, left, step)
                if not self.cut_off_places(after, rest):
                    return step, after, rest
        raise AssertionError("no step is safe")

    def after_step(self, marking, left, step):
        """The marking and the tally after a step."""
        after, rest = list(marking), list(left)
        rest[step] -= 1
        after[self.net.input_of(step)] -= 1
        for place, n in self.yields[step].items():
            after[place] += n
        return after, rest


def short_places(finals):
    return [place for place, number in enumerate(finals) if number < 0]


def missed_places(finals, target):
    """Where the tally leaves other than an exact target has, or too little to cover one of the other kind."""
    if target.kind == EXACT:
        return [place for place, number in enumerate(finals) if number != target.numbers[place]]
    return [place for place, number in enumerate(finals) if number < target.numbers[place]]


def cut_off_in(subnet, held):
    """The places of a subnet, given as input and yield places of each step, that held places do not reach."""
    places = {place for start, ends in subnet for place in {start} | ends}
    reached = set(held)
    grown = True
    while grown:
        found = {place for start, ends in subnet if start in reached for place in ends}
        grown = not found <= reached
        reached |= found
    return places - reached
