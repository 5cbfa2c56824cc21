"""Makes the table of calls on sittings that the program sitting_vectors compares the proved ones with.

Writes crates/sitting_vectors/stdin, a line for each call with what sittings.py answers, and
crates/sitting_vectors/stdout, what a program that agrees prints. docs/TESTING.md says what a line holds.
Prints what the table has. The same bytes come out every time.
"""

import pathlib
import random
from collections import Counter

import sitting_limits
from draw_sittings import MAKE_UPS, Plan, draw_call, draw_counts, draw_pile, draw_plan, draw_spare
from draw_sittings import judged, net_line, walk
from judges import Net as JudgedNet
from judges import judge_by_trying
from sitting_desk import Desk
from sittings import MOST_DONE

SEED = 20_261_118
RANDOM = 1_800
TRAILS = 780
TIGHT = 420
WORN = 24
LONG = 12
HERE = pathlib.Path(__file__).resolve().parent.parent / "crates" / "sitting_vectors"


class Table:
    """The lines so far, the desk that answers them, and what was counted."""

    def __init__(self, seed):
        self.dice = random.Random(seed)
        self.desk = Desk()
        self.lines = []
        self.calls = Counter()
        self.refusals = Counter()
        self.longest = 0
        self.most_found = 0
        self.tried = 0

    def say(self, call, want=None, written=()):
        """One line: the call and its answer. Where the answer or what it writes was worked out by hand, it has
        to be that. Before another net, the pile of the last sitting is taken apart."""
        if call.startswith("net ") and self.desk.sitting is not None:
            self.say("bottom")
        answer = self.desk.answer(call)
        if want is not None and answer.split()[: len(want.split())] != want.split():
            raise SystemExit(f"{call[:200]}: wanted {want}, the reference says {answer}")
        if list(written) != self.desk.memory[: len(written)]:
            raise SystemExit(f"{call[:200]}: wanted {written}, the reference writes {self.desk.memory[: len(written)]}")
        self.lines.append(f"{call} = {answer}")
        self.note(call.split()[0], answer.split())

    def note(self, word, answer):
        self.calls[word, answer[0] != "no"] += 1
        if answer[0] == "no":
            self.refusals[word, int(answer[1])] += 1
        elif word == "resume":
            self.longest = max(self.longest, int(answer[0]))
        elif word == "survey":
            self.most_found = max(self.most_found, int(answer[0]))

    # random sittings

    def begin(self, plan, make_up, counts, spare):
        self.say(net_line(self.dice, plan), "ok")
        for line in draw_pile(self.dice, make_up, counts, spare):
            self.say(line, "ok")
        self.say("sit", "ok")

    def go_on(self, make_up, calls):
        """Random calls."""
        for _ in range(calls):
            call = draw_call(self.dice, self.desk.sitting, "slots" in make_up)
            self.compare_with_trying(call)
            self.say(call)

    def compare_with_trying(self, call):
        """The first order of a small tally is found once more, by trying every order with the firing rule alone."""
        sitting, parts = self.desk.sitting, call.split("/")
        tally = [int(word) for word in parts[1].split()] if len(parts) > 1 else []
        if len(tally) != sitting.net.steps or not 1 <= sum(tally) <= 7:
            return
        steps = range(sitting.net.steps)
        rows = tuple(tuple(sitting.net.yield_at(t, p) for p in range(sitting.net.places)) for t in steps)
        net = JudgedNet(sitting.net.places, tuple(map(sitting.net.input_of, steps)), rows)
        tried = judge_by_trying(net, tuple(sitting.marking()), tuple(tally))
        fit = min(sitting.final_numbers(tally)) >= 0 and not sitting.cut_off_places(sitting.marking(), tally)
        if tried != (tuple(sitting.first_order(tally)) if fit else None):
            raise SystemExit(f"{call}: trying every order finds {tried}")
        self.tried += 1

    def random_sitting(self, number):
        """Any net, on a pile of each make-up in turn."""
        dice, make_up = self.dice, MAKE_UPS[number % len(MAKE_UPS)]
        plan = draw_plan(dice)
        self.begin(plan, make_up, draw_counts(dice, plan.places), draw_spare(dice))
        self.go_on(make_up, dice.randint(3, 8))

    def trail_sitting(self, number):
        """One or two blocks and steps that move one, so that the block must not come to a dead end too early."""
        dice, make_up = self.dice, MAKE_UPS[number % len(MAKE_UPS)]
        plan = draw_plan(dice, (dice.randint(2, 6), dice.randint(4, 10)), ("moves", "moves", "ring"))
        counts = [0] * 64
        for _ in range(dice.choice((1, 1, 2))):
            counts[dice.randrange(plan.places)] += 1
        self.begin(plan, make_up, counts, 1_000)
        for _ in range(dice.randint(1, 3)):
            tally = walk(dice, self.desk.sitting, self.desk.sitting.marking(), dice.randint(3, 25), 1_000)
            self.say(judged("resume", sum(tally) + 1, tally, 0, self.desk.sitting.final_numbers(tally)))
        self.go_on(make_up, 2)

    def tight_sitting(self, number):
        """The spare is that of one tally, one less or one more; the tally is asked for first."""
        dice, make_up = self.dice, MAKE_UPS[number % len(MAKE_UPS)]
        plan = draw_plan(dice, (dice.randint(1, 5), dice.randint(1, 6)))
        counts = draw_counts(dice, plan.places)
        tally, need = self.planned(plan, counts)
        self.begin(plan, make_up, counts, max(0, need + dice.choice((0, 0, -1, 1))))
        finals = self.desk.sitting.final_numbers(tally)
        self.say(judged("resume", sum(tally), tally, 0, finals))
        self.go_on(make_up, dice.randint(2, 4))

    def planned(self, plan, counts):
        """A tally that can be done from these counts, and how much spare it needs."""
        sitting = planned_sitting(plan, counts)
        tally = walk(self.dice, sitting, counts[: plan.places], self.dice.randint(1, 9), 2_000)
        return tally, sum(n * sum(sitting.yields[step].values()) for step, n in enumerate(tally))

    def worn_sitting(self, number):
        """Nearly 65,535 steps are done first, around one place."""
        dice, make_up = self.dice, MAKE_UPS[(0, 2, 3, 4)[number % 4]]
        plan = draw_plan(dice, (dice.randint(1, 4), dice.randint(1, 4)))
        loop = (0, [1] + [0] * (plan.places - 1))
        plan = Plan(plan.places, [*plan.rows, loop])
        counts = draw_counts(dice, plan.places)
        counts[0] += 1
        self.begin(plan, make_up, counts, dice.choice((65_535, 65_540, 80_000)))
        total = MOST_DONE - dice.choice((0, 0, 1, 2, 3, 5, 9))
        tally = [0] * len(plan.rows[:-1]) + [total]
        self.say(judged("resume", total + dice.randrange(3), tally, 1, [0] * plan.places), str(total))
        self.go_on(make_up, dice.randint(6, 10))

    def long_sitting(self, number):
        """One tally of some thousand steps with few blocks, so that many steps have to wait."""
        dice, make_up = self.dice, MAKE_UPS[(0, 2, 3, 4)[number % 4]]
        plan = draw_plan(dice, (dice.randint(2, 5), dice.randint(5, 9)), ("ring", "ring", "own"))
        counts = [0] * 64
        counts[0] = dice.choice((1, 1, 2))
        self.begin(plan, make_up, counts, 1_000_000)
        tally = walk(dice, self.desk.sitting, self.desk.sitting.marking(), dice.randint(800, 3_000), 1_000_000)
        self.say(judged("resume", sum(tally) + 2, tally, 0, self.desk.sitting.final_numbers(tally)))
        self.go_on(make_up, 3)

    # what is written

    def summary(self):
        """What a program that agrees prints."""
        refused_nets = self.calls["net", False]
        lines = [f"{self.calls['sit', True]} sittings, {refused_nets} net files refused"]
        for word in ("fire", "resume", "survey"):
            lines.append(f"{word}: {self.calls[word, True]} accepted, {self.calls[word, False]} refused")
        for number in (*range(7, 16), 21):
            times = sum(self.refusals[word, number] for word in ("fire", "resume", "survey"))
            lines.append(f"refusal {number}: {times}")
        lines.append(f"longest order: {self.longest}")
        lines.append(f"most findings: {self.most_found}")
        lines.append("0 differences")
        return "".join(line + "\n" for line in lines)


def planned_sitting(plan, counts):
    """A sitting of a net that is not written down, on a count board."""
    desk = Desk()
    desk.answer(net_line(random.Random(0), plan))
    desk.answer(" ".join(map(str, ["counts", 0, *counts])))
    desk.answer("sit")
    return desk.sitting


def main():
    table = Table(SEED)
    sitting_limits.add_all(table.say)
    sorts = (
        (RANDOM, table.random_sitting),
        (TRAILS, table.trail_sitting),
        (TIGHT, table.tight_sitting),
        (WORN, table.worn_sitting),
        (LONG, table.long_sitting),
    )
    for number, sort in ((number, sort) for numbers, sort in sorts for number in range(numbers)):
        sort(number)
    table.say("bottom")
    HERE.mkdir(parents=True, exist_ok=True)
    (HERE / "stdin").write_text("".join(line + "\n" for line in table.lines))
    (HERE / "stdout").write_text(table.summary())
    print(f"{len(table.lines)} lines, {table.tried} tallies judged by trying every order too")
    print(table.summary(), end="")
    for word, number in sorted(table.refusals):
        print(f"  {word} refused with {number}: {table.refusals[word, number]}")


if __name__ == "__main__":
    main()
