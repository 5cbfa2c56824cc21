"""Tries the table of sittings on wrong variants of sittings.py: each has to be told apart by some line.

Each variant is one edit of the text of sittings.py, with what it does wrong. Prints for each the first line
that it answers otherwise, and at the end how many were told apart; status 1 where one was not.
"""

import pathlib
import sys
import types

from sitting_desk import Desk

HERE = pathlib.Path(__file__).resolve().parent
TABLE = HERE.parent / "crates" / "sitting_vectors" / "stdin"

# the checks of the calls, as they stand in sittings.py
NO_STEP = """        if step >= self.net.steps:
            raise Refused(14)
"""
LAST_FIRE = """        if sum(self.done) + 1 > MOST_DONE:
            raise Refused(8)
"""
INPUT = "        place = self.net.input_of(step)\n"
EMPTY = """        if self.board.count(place) == 0:
            raise Refused(15, place)
"""
ROOM = """        if self.board.spare() + 1 < sum(self.yields[step].values()):
            raise Refused(10)
"""
ROWS = """        if len(tally) != self.net.steps or len(target.numbers) != self.net.places:
            raise Refused(7)
"""
KIND = """        if target.kind not in (EXACT, AT_LEAST):
            raise Refused(7)
"""
TOTAL = """        if sum(self.done) + sum(tally) > MOST_DONE:
            raise Refused(8)
"""
CHECK = "        self.check_rows(tally, target)\n"
MEMORY = """        if len(memory) < sum(tally):
            raise Refused(9)
"""
SPARE = """        if self.board.spare() < sum(n * sum(self.yields[step].values()) for step, n in enumerate(tally)):
            raise Refused(10)
"""
FINALS = "        finals = self.final_numbers(tally)\n"
SHORT = "        self.refuse_least(11, short_places(finals))\n"
CUT_OFF = "        self.refuse_least(12, self.cut_off_places(self.marking(), tally))\n"
MISSED = "        self.refuse_least(13, missed_places(finals, target))\n"
FINDINGS = """        if len(memory) < FINDINGS_NEEDED:
            raise Refused(21)
"""
WRITE = """            self.move(step)
            memory[number] = step
"""
RAISE = """        for step, n in enumerate(tally):
            self.done[step] += n
"""
TAKE = "        self.board.take(self.net.input_of(step))\n"
PUTS = """        for place, n in self.yields[step].items():
            self.board.put(place, n)
"""
LENGTH = "        return len(order)\n"
STEPS = """        for step in range(self.net.steps):
            if left"""
SAFE = "if not self.cut_off_places(after, rest)"
MISSED_PLACES = "def missed_places(finals, target):\n"
SEARCH = "        return cut_off_in(subnet, {"
WHOLE_NET = "        everything = [(self.net.input_of(t), set(self.yields[t])) for t in range(self.net.steps)]\n"
IN_SUBNET = "        places = {place for start, ends in subnet for place in {start} | ends}\n"
MISSED_BY = "finals[p] - target.numbers[p])"
WRITE_FOUND = "memory[: len(findings)] = findings"

# what is done wrong, and the edit
WRONG = (
    ("fire: 14 after 8", NO_STEP + LAST_FIRE, LAST_FIRE + NO_STEP),
    ("fire: 15 before 8", LAST_FIRE + INPUT + EMPTY, INPUT + EMPTY + LAST_FIRE),
    ("fire: 10 before 15", EMPTY + ROOM, ROOM + EMPTY),
    ("fire: refused one step too early", "sum(self.done) + 1 > MOST_DONE", "sum(self.done) + 1 >= MOST_DONE"),
    ("fire: one step too many", "sum(self.done) + 1 > MOST_DONE", "sum(self.done) > MOST_DONE"),
    ("fire: the limit is of one step, not of all", "sum(self.done) + 1 >", "self.done[step] + 1 >"),
    ("fire: a step past the last is accepted", "            raise Refused(14)\n", "            return\n"),
    ("fire: 14 names the step", "raise Refused(14)", "raise Refused(14, step)"),
    ("fire: 15 names the step", "raise Refused(15, place)", "raise Refused(15, step)"),
    ("fire: 15 names no place", "raise Refused(15, place)", "raise Refused(15)"),
    ("fire: the block taken makes no room", "self.board.spare() + 1 <", "self.board.spare() <"),
    ("fire: room for one block too many", "self.board.spare() + 1 <", "self.board.spare() + 2 <"),
    ("fire: the step is not counted", "        self.done[step] += 1\n", ""),
    ("fire: a refused step is counted", LAST_FIRE, LAST_FIRE + "        self.done[step] += 1\n"),
    ("firing: puts before the take", TAKE + PUTS, PUTS + TAKE),
    ("firing: puts by falling place", PUTS, PUTS.replace("self.yields[step].items()", "reversed(self.yields[step].items())")),
    ("firing: one block at each place", "self.board.put(place, n)", "self.board.put(place, 1)"),
    ("rows: a longer tally passes", "len(tally) != self.net.steps", "len(tally) < self.net.steps"),
    ("rows: a longer target passes", "len(target.numbers) != self.net.places", "len(target.numbers) < self.net.places"),
    ("rows: every kind passes", KIND, ""),
    ("rows: kind 1 is refused", "not in (EXACT, AT_LEAST)", "!= EXACT"),
    ("rows: 8 before 7", ROWS + KIND + TOTAL, TOTAL + ROWS + KIND),
    ("rows: refused one step too early", "sum(self.done) + sum(tally) >", "sum(self.done) + sum(tally) >="),
    ("rows: one step too many", "sum(self.done) + sum(tally) >", "sum(self.done) + sum(tally) - 1 >"),
    ("rows: steps done before do not count", "sum(self.done) + sum(tally) >", "sum(tally) >"),
    ("rows: the total in two bytes", "sum(self.done) + sum(tally) >", "sum(self.done) + sum(tally) % 65_536 >"),
    ("resume: 9 before 8", CHECK + MEMORY, MEMORY + CHECK),
    ("resume: 10 before 9", MEMORY + SPARE, SPARE + MEMORY),
    ("resume: 11 before 10", SPARE + FINALS + SHORT, FINALS + SHORT + SPARE),
    ("resume: 12 before 11", SHORT + CUT_OFF, CUT_OFF + SHORT),
    ("resume: 13 before 12", CUT_OFF + MISSED, MISSED + CUT_OFF),
    ("resume: 13 before 11", SHORT + CUT_OFF + MISSED, MISSED + SHORT + CUT_OFF),
    ("resume: memory one longer is asked for", "len(memory) < sum(tally)", "len(memory) <= sum(tally)"),
    ("resume: spare one more is asked for", "self.board.spare() < sum(n", "self.board.spare() <= sum(n"),
    ("resume: spare one less is enough", "self.board.spare() < sum(n", "self.board.spare() + 1 < sum(n"),
    ("resume: the blocks taken make room", "self.board.spare() < sum(n", "self.board.spare() + sum(tally) < sum(n"),
    ("resume: spare for each step once", "sum(n * sum(", "sum((n > 0) * sum("),
    ("resume: no target", MISSED, ""),
    ("resume: no short place", SHORT, ""),
    ("resume: no cut-off place", CUT_OFF, ""),
    ("resume: the greatest place is named", "min(places)", "max(places)"),
    ("resume: no place is named", "raise Refused(number, min(places))", "raise Refused(number)"),
    ("resume: moves no block", WRITE, WRITE.replace("            self.move(step)\n", "")),
    ("resume: writes the order backwards", "memory[number] = step", "memory[len(order) - 1 - number] = step"),
    ("resume: writes at the end of the memory", "memory[number] = step", "memory[number - len(order)] = step"),
    ("resume: memory behind the order is cleared", LENGTH, "        memory[len(order) :] = [0] * (len(memory) - len(order))\n" + LENGTH),
    ("resume: one entry behind the order is written", LENGTH, "        memory[: len(order) + 1] = (order + [0])[: len(memory)]\n" + LENGTH),
    ("resume: a refused one writes into the memory", SPARE, SPARE + "        memory[:1] = [0] * len(memory[:1])\n"),
    ("resume: the done row stays", RAISE, ""),
    ("resume: the done row is set anew", "self.done[step] += n", "self.done[step] = n"),
    ("resume: a refused one raises the done row", FINALS + SHORT, RAISE + FINALS + SHORT),
    ("resume: each step counts once", "self.done[step] += n", "self.done[step] += n > 0"),
    ("resume: answers the memory's length", "return len(order)", "return len(memory)"),
    ("resume: only once", MEMORY, MEMORY + "        if any(self.done):\n            raise Refused(8)\n"),
    ("order: the greatest safe step", STEPS, STEPS.replace("range(self.net.steps)", "reversed(range(self.net.steps))")),
    ("order: no look ahead", SAFE, "if True"),
    ("order: looks ahead along the tally before the step", SAFE, "if not self.cut_off_places(after, left)"),
    ("order: a step that empties its place waits", SAFE, "if after[self.net.input_of(step)] > 0 or sum(rest) == 0"),
    ("final numbers: nothing is taken", "            finals[self.net.input_of(step)] -= n\n", ""),
    ("final numbers: yields of 1", "finals[place] += n * blocks", "finals[place] += n"),
    ("final numbers: at least 0", "return finals\n", "return [max(number, 0) for number in finals]\n"),
    ("missed: a number below 0 is as 0", MISSED_PLACES, MISSED_PLACES + "    finals = [max(number, 0) for number in finals]\n"),
    ("missed: exact as at least", "if number != target.numbers[place]", "if number < target.numbers[place]"),
    ("missed: at least as exact", "if number < target.numbers[place]", "if number != target.numbers[place]"),
    ("missed: at least as more than", "if number < target.numbers[place]", "if number <= target.numbers[place]"),
    ("missed: at least as at most", "if number < target.numbers[place]", "if number > target.numbers[place]"),
    ("short: places at 0 too", "if number < 0]", "if number <= 0]"),
    ("cut off: searched along the whole net", SEARCH, WHOLE_NET + "        return cut_off_in(everything, {"),
    ("cut off: reached along the whole net", SEARCH, WHOLE_NET + IN_SUBNET + "        return places & cut_off_in(everything, {"),
    ("cut off: input places only", "for place in {start} | ends}", "for place in {start}}"),
    ("cut off: yield places only", "for place in {start} | ends}", "for place in ends}"),
    ("cut off: one round of reaching", "    while grown:\n", "    for _ in range(1):\n"),
    ("survey: 21 before 7", CHECK + FINDINGS, TOTAL + FINDINGS + ROWS + KIND),
    ("survey: 21 before 8", CHECK + FINDINGS, ROWS + KIND + FINDINGS + TOTAL),
    ("survey: 191 findings are enough", "FINDINGS_NEEDED = 192", "FINDINGS_NEEDED = 191"),
    ("survey: 193 findings are asked for", "FINDINGS_NEEDED = 192", "FINDINGS_NEEDED = 193"),
    ("survey: memory for its own findings is enough", FINDINGS, ""),
    ("survey: asks for spare", CHECK + FINDINGS, CHECK + FINDINGS + SPARE),
    ("survey: cut-off places last", "short + cut_off + missed", "short + missed + cut_off"),
    ("survey: by place", "short + cut_off + missed", "sorted(short + cut_off + missed)"),
    ("survey: by falling place", "short + cut_off + missed", "short[::-1] + cut_off[::-1] + missed[::-1]"),
    ("survey: the first cause alone", "short + cut_off + missed", "short or cut_off or missed"),
    ("survey: the least place of each cause", "short + cut_off + missed", "short[:1] + cut_off[:1] + missed[:1]"),
    ("survey: short places are not missed", "cut_off + missed", "cut_off + [m for m in missed if finals[m.place] >= 0]"),
    ("survey: how much is short, without a sign", "Finding(p, SHORT, finals[p])", "Finding(p, SHORT, -finals[p])"),
    ("survey: the final number of a cut-off place", "Finding(p, CUT_OFF, 0)", "Finding(p, CUT_OFF, finals[p])"),
    ("survey: the target less the final number", "finals[p] - target.numbers[p]", "target.numbers[p] - finals[p]"),
    ("survey: the final number of a missed place", MISSED_BY, "finals[p])"),
    ("survey: numbers of 32 bits", MISSED_BY, "(finals[p] - target.numbers[p] + 2**31) % 2**32 - 2**31)"),
    ("survey: memory behind the findings is lost", WRITE_FOUND, "memory[:] = [*findings, *memory[:1] * 200][: len(memory)]"),
    ("survey: raises the done row", "        return len(findings)\n", RAISE + "        return len(findings)\n"),
    ("survey: answers the places, not the findings", "return len(findings)", "return len({f.place for f in findings})"),
)


def variant(text, old, new):
    """The rules with one edit."""
    if text.count(old) != 1:
        raise SystemExit(f"stands {text.count(old)} times in sittings.py: {old}")
    rules = types.ModuleType("wrong_rules")
    exec(compile(text.replace(old, new), "wrong_rules", "exec"), rules.__dict__)
    return rules


def first_difference(rules, lines):
    """The number of the first line that these rules answer otherwise, from 1, or none."""
    desk = Desk(rules)
    for number, line in enumerate(lines, start=1):
        call, _, expected = line.partition(" = ")
        try:
            if desk.answer(call) != expected:
                return number
        except (AssertionError, IndexError):  # no step was safe, or a write behind the memory
            return number
    return None


def main():
    text = (HERE / "sittings.py").read_text()
    lines = TABLE.read_text().splitlines()
    told = 0
    for name, old, new in WRONG:
        number = first_difference(variant(text, old, new), lines)
        told += number is not None
        print(f"{name}: " + ("NOT told apart" if number is None else f"line {number}"), flush=True)
    print(f"{told} of {len(WRONG)} wrong variants are told apart")
    return 0 if told == len(WRONG) else 1


if __name__ == "__main__":
    sys.exit(main())
