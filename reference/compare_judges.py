"""Compares the two judges of a tally on random small nets: compare_judges.py N SEED

Prints how many nets were tried, how the verdicts fell, and how often each of some shortcuts, which look right
and are not, gave another verdict: a sample in which they all did well shows nothing.
"""

import random
import sys
from collections import Counter

from judges import Net, final_numbers, fire, judge_by_rule, judge_by_trying, one_less, reached_places, subnet_places


def random_net(dice: random.Random) -> Net:
    """One to five places, one to six steps. In one net of three each step moves its block to another place,
    so that blocks come back only by rings; else a step yields at none to three places, mostly 1."""
    places = dice.choice((1, 2, 3, 3, 4, 4, 5))
    steps = dice.randint(1, 6)
    inputs = tuple(dice.randrange(places) for _ in range(steps))
    moves = places > 1 and dice.randrange(3) == 0
    yields = []
    for step in range(steps):
        row = [0] * places
        if moves:
            row[(inputs[step] + dice.randint(1, places - 1)) % places] = 1
        else:
            for _ in range(dice.choice((0, 1, 1, 1, 2, 3))):
                row[dice.randrange(places)] = dice.choice((1, 1, 1, 2, 3))
        yields.append(tuple(row))
    return Net(places, inputs, tuple(yields))


def walked_tally(dice: random.Random, net: Net, marking: tuple[int, ...], back: bool) -> tuple[int, ...]:
    """The counts of an order that was fired from the marking, at random; with `back`, of its longest front
    that ends with no place below where it began, so that no place is short from any marking."""
    counts, kept, ends = [0] * net.steps, [0] * net.steps, marking
    for _ in range(dice.randint(1, 9)):
        ready = [t for t in range(net.steps) if ends[net.inputs[t]] > 0]
        if not ready:
            break
        step = dice.choice(ready)
        counts[step] += 1
        ends = fire(net, ends, step)
        if not back or all(n >= m for n, m in zip(ends, marking)):
            kept = list(counts)
    return tuple(kept)


def random_sheet(dice: random.Random):
    """A net, a marking and a tally: at random, or fired from this marking, or fired from another. A tally
    that asks for nothing is nearly always thrown again."""
    net = random_net(dice)
    marking = tuple(dice.choice((0, 0, 1, 2)) for _ in range(net.places))
    other = tuple(dice.randint(0, 1) for _ in range(net.places))
    kind = dice.randrange(4)
    if kind == 0:
        tally = tuple(dice.choice((0, 1, 1, 2, 3)) for _ in range(net.steps))
    elif kind == 1:
        tally = walked_tally(dice, net, marking, back=False)
    else:
        tally = walked_tally(dice, net, other, back=kind == 3)
    if not any(tally) and dice.randrange(50):
        return random_sheet(dice)
    return net, marking, tally


def fires_any_step(net, marking, tally) -> bool:
    """Whether firing the least step that can be fired, without looking ahead, does the whole tally."""
    while any(tally):
        ready = [t for t in range(net.steps) if tally[t] > 0 and marking[net.inputs[t]] > 0]
        if not ready:
            return False
        marking, tally = fire(net, marking, ready[0]), one_less(tally, ready[0])
    return True


def easy_errors(net, marking, tally, can_be_done: bool) -> list[str]:
    """Which of the shortcuts give another verdict than the right one."""
    errors = []
    if fires_any_step(net, marking, tally) != can_be_done:
        errors.append("firing any step that can be fired sticks")
    none_short = min(final_numbers(net, marking, tally)) >= 0
    if none_short != can_be_done:
        errors.append("final numbers alone accept")
    subnet = subnet_places(net, tally)
    whole = tuple(1 for _ in tally)
    if (none_short and subnet <= reached_places(net, marking, whole)) != can_be_done:
        errors.append("searching the whole net accepts")
    free = {net.inputs[t] for t in range(net.steps) if tally[t] > 0 and net.yields[t][net.inputs[t]] > 0}
    helped = tuple(n + (p in free) for p, n in enumerate(marking))
    if (none_short and subnet <= reached_places(net, helped, tally)) != can_be_done:
        errors.append("needing no block where the input gains accepts")
    return errors


def main(number: int, seed: int) -> int:
    dice = random.Random(seed)
    verdicts, traits, errors = Counter(), Counter(), Counter()
    longest = 0
    for _ in range(number):
        net, marking, tally = random_sheet(dice)
        ruled, tried = judge_by_rule(net, marking, tally), judge_by_trying(net, marking, tally)
        if ruled.order != tried:
            print("the judges differ:", net, marking, tally, ruled, tried)
            return 1
        if tried is not None:
            ends = marking
            for step in tried:
                ends = fire(net, ends, step)
            if list(ends) != final_numbers(net, marking, tally):
                print("the order ends elsewhere:", net, marking, tally, tried)
                return 1
            longest = max(longest, len(tried))
            verdicts["orders compared that are not empty"] += tried != ()
        verdicts[ruled.word] += 1
        traits["with a yield above 1"] += any(n > 1 for row in net.yields for n in row)
        traits["with a step that yields at its own input"] += any(net.yields[t][net.inputs[t]] for t in range(net.steps))
        traits["with a step that yields nothing"] += any(not any(row) for row in net.yields)
        errors.update(easy_errors(net, marking, tally, tried is not None))
    print(f"{number} nets with a marking and a tally each, seed {seed}: the judges agree on all")
    for name in ("done", "short", "cut off", "orders compared that are not empty"):
        print(f"  {verdicts[name]:7} {name}")
    print(f"  {longest:7} steps in the longest order")
    for name, n in (*traits.items(), *errors.most_common()):
        print(f"  {n:7} {name}")
    return 0


if __name__ == "__main__":
    if len(sys.argv) != 3:
        sys.exit(__doc__)
    sys.exit(main(int(sys.argv[1]), int(sys.argv[2])))
