"""Compares the built program `handover` with the reference on files by chance: fuzz_handover.py N [SEED]

A quarter of the files are damaged: a word changed, left out or put in, a line twice, lines in another
sequence. What is compared is all that is written, to standard error too, and the exit status. The first
difference stops the run.
"""

import contextlib
import io
import random
import subprocess
import sys
from collections import Counter
from typing import NamedTuple

import run_handover
from built import built

BUILT = built("handover")
WORDS = ("0", "1", "x", "", "-1", "+2", "999", "70000", "5000000000", "at", "exact", "fire", "#", ",")


class Ran(NamedTuple):
    """What a run wrote, and its exit status."""

    out: str
    complaint: str
    status: int


# files


def row(dice, length, numbers):
    return " ".join(str(dice.choice(numbers)) for _ in range(length))


def draw_step(dice, places):
    yields = dice.sample(range(places), dice.randint(1, min(places, 3)))
    parts = (f"{dice.choice((1, 1, 1, 2, 3, dice.randint(0, 255)))} at {place}" for place in yields)
    return f"step from {dice.randrange(places)} yields {', '.join(parts)}"


def draw_second_board(dice):
    lines = []
    if dice.random() < 0.5:
        lines.append(f"spare {dice.choice((0, 1, 5, 20, 100, 1000, 2147483000))}")
    if dice.random() < 0.3:
        lines.append(f"allow {dice.choice((0, 1, 5, 20, 100, 1000, 4294967295))}")
    if dice.random() < 0.4:
        names = list(range(dice.randint(1, 64)))
        dice.shuffle(names)
        lines.append("rename " + " ".join(map(str, names)))
    return lines


def draw_call(dice, places, steps):
    sort = dice.choices(("fire", "resume", "survey", "memory", "findings"), (50, 30, 15, 3, 2))[0]
    if sort == "fire":
        return f"fire {dice.randrange(steps + 1)}"
    if sort == "memory":
        return f"memory {dice.choice((0, 1, 3, 10, 65535))}"
    if sort == "findings":
        return f"findings {dice.choice((191, 192, 200))}"
    tally = row(dice, steps + (dice.random() < 0.03), (0, 0, 0, 1, 1, 2, dice.randint(0, 50)))
    kind = dice.choice(("exact", "at least", "at least"))
    return f"{sort} {tally} {kind} {row(dice, places, dice.choice(((0,), (0, 0, 1, 2, 50))))}"


def draw_day(dice):
    places, steps = dice.randint(1, 6), dice.randint(0, 7)
    lines = [f"places {places}"]
    lines += [draw_step(dice, places) for _ in range(steps)]
    lines.append("start " + row(dice, places, (0, 0, 1, 1, 2, 3, dice.choice((7, 30, 2000)))))
    lines += draw_second_board(dice)
    lines += [draw_call(dice, places, steps) for _ in range(dice.randint(0, 12))]
    return lines


def other_word(dice, line):
    """The line with one word changed, left out or put in."""
    words = line.split(" ")
    place = dice.randrange(len(words))
    words[place : place + dice.randint(0, 1)] = dice.choice(([], [dice.choice(WORDS)]))
    return " ".join(words)


def damage(dice, lines):
    """The lines in another sequence, or with one of them twice, with tabs, or with another word."""
    at = dice.randrange(len(lines))
    sort = dice.choices(("shuffled", "twice", "tabs", "word"), (1, 1, 1, 5))[0]
    if sort == "shuffled":
        return dice.sample(lines, len(lines))
    if sort == "twice":
        return lines[: at + 1] + lines[at:]
    line = lines[at].replace(" ", "\t") if sort == "tabs" else other_word(dice, lines[at])
    return lines[:at] + [line] + lines[at + 1 :]


def draw_file(dice):
    lines = draw_day(dice)
    if dice.random() < 0.25:
        lines = damage(dice, lines)
    return "\n".join(lines) + "\n"


# runs


def expected(text):
    out, complaint = io.StringIO(), io.StringIO()
    with contextlib.redirect_stdout(out), contextlib.redirect_stderr(complaint):
        status = run_handover.run(text)
    return Ran(out.getvalue(), complaint.getvalue(), status)


def given(text):
    ran = subprocess.run([BUILT], input=text, capture_output=True, text=True)
    return Ran(ran.stdout, ran.stderr, ran.returncode)


def without_numbers(text):
    return " ".join(word for word in text.split() if not word.lstrip("-").isdigit())


def sort_of(ran):
    """How a run ended, in a few words."""
    if ran.complaint:
        return "at fault: " + without_numbers(ran.complaint.split(":")[2])
    return ran.out.rstrip("\n").split("\n")[-1]


def sorts_of_answers(ran):
    """What was said to each call, without its numbers but those of refusals."""
    for line in ran.out.split("\n"):
        if line.startswith("  refusal"):
            yield " ".join(line.split()[:2])
        elif line.startswith(("  accepted", "  place", "  nothing")):
            yield without_numbers(line)


def fuzz(number, seed):
    dice, sorts = random.Random(seed), Counter()
    for done in range(number):
        text = draw_file(dice)
        there, here = expected(text), given(text)
        if there != here:
            print(f"seed {seed}, file {done}:\n{text}\nexpected {there}\n\nthe program {here}")
            return 1
        sorts[sort_of(there)] += 1
        sorts.update(sorts_of_answers(there))
    print(f"{number} files, seed {seed}: the program and the reference agree on all")
    for sort, count in sorted(sorts.items()):
        print(f"  {count:7} {sort}")
    return 0


def main():
    if len(sys.argv) not in (2, 3):
        print(__doc__.split("\n")[0], file=sys.stderr)
        return 2
    if not BUILT.is_file():
        print(f"there is no program {BUILT}; ./zaldrum handover builds it", file=sys.stderr)
        return 2
    return fuzz(int(sys.argv[1]), int(sys.argv[2]) if len(sys.argv) == 3 else 1)


if __name__ == "__main__":
    sys.exit(main())
