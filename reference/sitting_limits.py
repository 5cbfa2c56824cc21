"""Sittings made by hand for the table: worked cases and the limits from both sides.

`say` adds a line. The answers, orders and findings that it is given were worked out by hand, and the script
stops when sittings.py answers or writes something else.
"""

from boards import LIMIT
from draw_sittings import Plan, chained_file, judged
from make_net_table import grid
from sittings import CUT_OFF, MISSED, MOST_DONE, SHORT

# from place 0 away to 2 by step 0, or over place 1 and back by steps 1 and 2
DETOUR = Plan(3, [(0, [0, 0, 1]), (0, [0, 1, 0]), (1, [1, 0, 0])])
# one place, whose step puts back two blocks for one, or just the one
DOUBLER = Plan(1, [(0, [2])])
LOOP = Plan(1, [(0, [1])])
# a ring of three places, with two steps alike from each place to the next
LOCK = Plan(3, [(0, [0, 1, 0])] * 2 + [(1, [0, 0, 1])] * 2 + [(2, [1, 0, 0])] * 2)

EXACT, AT_LEAST = 0, 1


def begin(say, plan, spare, *counts):
    """A new sitting on a count board."""
    say(f"net grid {grid(*plan).hex()}", "ok")
    say(" ".join(map(str, ["counts", spare, *counts])), "ok")
    say("sit", "ok")


def resume(say, want, length, tally, kind, target, order=()):
    say(judged("resume", length, tally, kind, target), want, order)


def survey(say, want, length, tally, kind, target, findings=()):
    say(judged("survey", length, tally, kind, target), want, findings)


def small_cases(say):
    """Each rule once, on nets of one and three places."""
    begin(say, DETOUR, 100, 1, 0, 0)
    survey(say, "0", 192, [1, 1, 1], EXACT, [0, 0, 1])
    survey(say, "2", 192, [0, 1, 2], AT_LEAST, [0, 0, 0], [(1, SHORT, -1), (1, MISSED, -1)])
    resume(say, "no 11 1", 10, [0, 1, 2], AT_LEAST, [0, 0, 0])
    resume(say, "no 13 2", 10, [1, 1, 1], EXACT, [0, 0, 2])
    resume(say, "3", 10, [1, 1, 1], EXACT, [0, 0, 1], [1, 2, 0])
    resume(say, "no 12 0", 10, [0, 1, 1], EXACT, [0, 0, 1])
    begin(say, DETOUR, 100)
    resume(say, "0", 10, [0, 0, 0], EXACT, [0, 0, 0])
    groups = [(0, SHORT, -1), (0, CUT_OFF, 0), (1, CUT_OFF, 0), (2, CUT_OFF, 0), (0, MISSED, -1), (2, MISSED, -2)]
    survey(say, "6", 192, [1, 1, 1], EXACT, [0, 0, 3], groups)
    begin(say, DETOUR, 100, 2, 0, 0)
    survey(say, "1", 192, [1, 1, 1], EXACT, [0, 0, 1], [(0, MISSED, 1)])
    resume(say, "3", 10, [1, 1, 1], EXACT, [1, 0, 1], [0, 1, 2])
    begin(say, LOCK, 100, 2, 0, 0)
    resume(say, "4", 10, [1, 1, 1, 1, 0, 0], AT_LEAST, [0, 0, 2], [0, 1, 2, 3])
    begin(say, DETOUR, 100, 0, 1, 0)
    say("fire 0", "no 15 0")
    say("fire 2", "ok")
    begin(say, DOUBLER, 100, 0)
    resume(say, "no 12 0", 10, [1], AT_LEAST, [0])


def rows(say):
    """Rows that are one too short or too long, and other kinds; where all is fit, the resume is accepted."""
    begin(say, DETOUR, 100, 1, 0, 0)
    for word, length in (("resume", 3), ("survey", 192)):
        for tally in ([1, 1], [1, 1, 1, 0], []):
            say(judged(word, length, tally, EXACT, [0, 0, 1]), "no 7 0")
        for target in ([0, 0], [0, 0, 1, 0], []):
            say(judged(word, length, [1, 1, 1], EXACT, target), "no 7 0")
        for kind in (2, 255):
            say(judged(word, length, [1, 1, 1], kind, [0, 0, 1]), "no 7 0")
    resume(say, "3", 3, [1, 1, 1], EXACT, [0, 0, 1])
    begin(say, Plan(2, []), 5, 0, 4)
    say("fire 0", "no 14 0")
    resume(say, "no 7 0", 3, [0], EXACT, [0, 4])
    resume(say, "no 13 1", 0, [], EXACT, [0, 5])
    resume(say, "0", 0, [], EXACT, [0, 4])
    survey(say, "2", 192, [], EXACT, [1, 1])


def memories(say):
    """Order memory and findings memory, one too short and just long enough."""
    begin(say, DETOUR, 0, 1, 0, 0)
    resume(say, "no 9 0", 2, [1, 1, 1], EXACT, [0, 0, 1])
    resume(say, "no 10 0", 3, [1, 1, 1], EXACT, [0, 0, 1])
    begin(say, DETOUR, 3, 1, 0, 0)
    resume(say, "no 9 0", 2, [1, 1, 1], EXACT, [0, 0, 1])
    resume(say, "3", 3, [1, 1, 1], EXACT, [0, 0, 1])
    survey(say, "no 21 0", 191, [0, 1, 2], AT_LEAST, [0, 0, 0])
    survey(say, "no 21 0", 0, [0, 1, 2], AT_LEAST, [0, 0, 0])
    survey(say, "4", 192, [0, 1, 2], AT_LEAST, [0, 0, 0])
    survey(say, "4", 193, [0, 1, 2], AT_LEAST, [0, 0, 0])


def spares(say):
    """Spare one too small and just enough, of a resume and of a fire, with small and with the most yields."""
    begin(say, DOUBLER, 5, 1)
    resume(say, "no 10 0", 10, [3], EXACT, [4])
    begin(say, DOUBLER, 6, 1)
    resume(say, "3", 10, [3], EXACT, [4])
    begin(say, DOUBLER, 0, 1)
    say("fire 0", "no 10 0")
    begin(say, DOUBLER, 1, 1)
    say("fire 0", "ok")
    say("fire 0", "no 10 0")
    begin(say, LOOP, 0, 1)
    say("fire 0", "ok")
    resume(say, "no 10 0", 1, [1], EXACT, [1])
    most = Plan(64, [(63, [255] * 64)])
    begin(say, most, 64 * 255 - 2, *[1] * 64)
    say("fire 0", "no 10 0")
    begin(say, most, 64 * 255 - 1, *[1] * 64)
    resume(say, "no 10 0", 1, [1], AT_LEAST, [0] * 64)
    say("fire 0", "ok")
    begin(say, most, 64 * 255, *[1] * 64)
    resume(say, "1", 1, [1], EXACT, [256] * 63 + [255])


def most_yields(say):
    """65,535 steps of the most yields: 1,069,531,200 blocks, which a board can have to spare."""
    most, need = Plan(64, [(63, [255] * 64)]), MOST_DONE * 64 * 255
    ends = [MOST_DONE * 255] * 63 + [MOST_DONE * 254 + 1]
    begin(say, most, need - 1, *[0] * 63, 1)
    resume(say, "no 10 0", MOST_DONE, [MOST_DONE], EXACT, ends)
    begin(say, most, need, *[0] * 63, 1)
    survey(say, "0", 192, [MOST_DONE], EXACT, ends)
    resume(say, "65535", MOST_DONE, [MOST_DONE], EXACT, ends)


def done_totals(say):
    """Done totals of 65,535 and 65,536, by resume, fire and survey."""
    begin(say, LOOP, 70_000, 1)
    resume(say, "no 9 0", MOST_DONE - 1, [MOST_DONE], EXACT, [1])
    survey(say, "0", 192, [MOST_DONE], EXACT, [1])
    resume(say, "65535", MOST_DONE, [MOST_DONE], EXACT, [1])
    say("fire 0", "no 8 0")
    say("fire 1", "no 14 0")
    resume(say, "no 8 0", 1, [1], EXACT, [1])
    resume(say, "no 8 0", 0, [1], EXACT, [1])
    survey(say, "no 8 0", 192, [1], EXACT, [1])
    survey(say, "no 8 0", 191, [1], EXACT, [1])
    survey(say, "no 21 0", 191, [0], EXACT, [1])
    survey(say, "1", 192, [0], EXACT, [0])
    resume(say, "0", 0, [0], EXACT, [1])
    begin(say, Plan(1, [(0, [1]), (0, [1])]), 70_000, 1)
    for tally, want in (([MOST_DONE, 1], "no 8 0"), ([1, MOST_DONE], "no 8 0"), ([MOST_DONE] * 2, "no 8 0")):
        resume(say, want, MOST_DONE + 1, tally, EXACT, [1])
        survey(say, want, 192, tally, EXACT, [1])
    survey(say, "0", 192, [MOST_DONE - 1, 1], EXACT, [1])
    resume(say, "65535", MOST_DONE, [MOST_DONE - 1, 1], EXACT, [1], [0] * (MOST_DONE - 1) + [1])
    say("fire 1", "no 8 0")


def last_steps(say):
    """The detour after 65,532 steps around its ring: three more can be done, four cannot."""
    begin(say, DETOUR, 70_000, 1, 0, 0)
    resume(say, "65532", MOST_DONE, [0, 32_766, 32_766], EXACT, [1, 0, 0], [1, 2] * 32_766)
    survey(say, "0", 192, [1, 1, 1], EXACT, [0, 0, 1])
    survey(say, "no 8 0", 192, [0, 2, 2], EXACT, [1, 0, 0])
    resume(say, "no 8 0", 10, [0, 2, 2], EXACT, [1, 0, 0])
    resume(say, "3", 10, [1, 1, 1], EXACT, [0, 0, 1])
    begin(say, DETOUR, 70_000, 1, 0, 0)
    resume(say, "65532", MOST_DONE, [0, 32_766, 32_766], EXACT, [1, 0, 0])
    say("fire 1", "ok")
    resume(say, "no 8 0", 10, [1, 1, 1], EXACT, [0, 0, 1])
    say("fire 2", "ok")
    say("fire 0", "ok")
    say("fire 0", "no 8 0")
    say("fire 3", "no 14 0")


def many_steps(say):
    """128 steps, each around its place: a total of 65,535 is surveyed, one of 65,536 is refused."""
    plan = Plan(64, [(step % 64, [int(place == step % 64) for place in range(64)]) for step in range(128)])
    say(f"net chained {chained_file(plan).hex()}", "ok")
    say(" ".join(map(str, ["counts", 70_000, *[2] * 64])), "ok")
    say("sit", "ok")
    survey(say, "0", 192, [512] * 127 + [511], EXACT, [2] * 64)
    survey(say, "no 8 0", 192, [512] * 128, EXACT, [2] * 64)
    resume(say, "no 8 0", 65_536, [512] * 128, EXACT, [2] * 64)
    resume(say, "no 8 0", 5, [MOST_DONE] * 128, EXACT, [2] * 64)
    say("fire 127", "ok")
    say("fire 128", "no 14 0")
    survey(say, "no 8 0", 192, [512] * 127 + [511], EXACT, [2] * 64)
    resume(say, "128", 128, [1] * 128, AT_LEAST, [2] * 64)
    resume(say, "no 13 63", 128, [1] * 128, AT_LEAST, [2] * 63 + [3])


def sizes(say):
    """64 and 65 places, 128 and 129 steps: the larger net files are refused."""
    for places, steps, want in ((64, 128, "ok"), (65, 128, "no 2 0"), (64, 129, "no 3 0"), (65, 129, "no 2 0")):
        row = [0] * (places - 1) + [1]
        plan = Plan(places, [(0, row)] * steps)
        files = {"grid": grid(*plan), "chained": chained_file(plan)}
        for make, file in files.items():
            if make == "grid" and want != "ok":
                file = file[:2]  # the head decides
            say(f"net {make} {file.hex()}", want)
            if want == "ok":
                on_the_largest(say)


def on_the_largest(say):
    """Calls on a net of 64 places and 128 steps, each from place 0 to place 63."""
    say("counts 300 127", "ok")
    say("sit", "ok")
    say("fire 128", "no 14 0")
    say("fire 127", "ok")
    resume(say, "no 7 0", 128, [1] * 127, AT_LEAST, [0] * 64)
    resume(say, "no 7 0", 128, [1] * 128, AT_LEAST, [0] * 63)
    resume(say, "no 11 0", 128, [1] * 128, AT_LEAST, [0] * 64)
    resume(say, "no 13 63", 128, [0] + [1] * 126 + [0], EXACT, [0] * 63 + [128])
    resume(say, "126", 128, [0] + [1] * 126 + [0], EXACT, [0] * 63 + [127])
    resume(say, "no 11 0", 128, [1] * 128, AT_LEAST, [0] * 64)


def most_findings(say):
    """A block comes of each step, so not every place is short: 63 short, 64 cut off and 64 missed are the most."""
    plan = Plan(64, [(place, [1] + [0] * 63) for place in range(1, 64)])
    begin(say, plan, 0)
    short = [(place, SHORT, -1) for place in range(1, 64)]
    cut_off = [(place, CUT_OFF, 0) for place in range(64)]
    missed = [(0, MISSED, 63)] + [(place, MISSED, -1) for place in range(1, 64)]
    survey(say, "191", 192, [1] * 63, EXACT, [0] * 64, short + cut_off + missed)
    survey(say, "190", 192, [1] * 63, AT_LEAST, [0] * 64)
    survey(say, "191", 192, [1] * 63, AT_LEAST, [64] * 64)
    survey(say, "no 21 0", 191, [1] * 63, EXACT, [0] * 64)


def large_numbers(say):
    """Numbers of findings past 31 and 32 bits, up and down."""
    plan = Plan(2, [(0, [255, 0]), (1, [0, 1]), (1, [1, 0])])
    begin(say, plan, 0, LIMIT)
    up_and_down = [(0, MISSED, 2_164_129_537), (1, MISSED, -4_294_967_295)]
    survey(say, "2", 192, [MOST_DONE, 0, 0], EXACT, [0, 2**32 - 1], up_and_down)
    survey(say, "2", 192, [MOST_DONE, 0, 0], AT_LEAST, [2**32 - 1, 1])
    lowest = [(1, SHORT, -65_535), (1, CUT_OFF, 0), (0, MISSED, 65_535), (1, MISSED, -4_295_032_830)]
    survey(say, "4", 192, [0, 0, MOST_DONE], EXACT, [LIMIT, 2**32 - 1], lowest)
    survey(say, "3", 192, [0, 0, MOST_DONE], EXACT, [LIMIT + MOST_DONE, 0])
    resume(say, "no 10 0", 1, [0, 1, 0], EXACT, [LIMIT, 0])
    begin(say, plan, 1, LIMIT - 1)
    resume(say, "no 12 1", 1, [0, 1, 0], EXACT, [LIMIT - 1, 0])
    resume(say, "no 11 1", 1, [0, 0, 1], EXACT, [LIMIT - 1, 0])


def add_all(say):
    for cases in (small_cases, rows, memories, spares, most_yields, done_totals, last_steps, many_steps, sizes):
        cases(say)
    most_findings(say)
    large_numbers(say)
