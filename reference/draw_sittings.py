"""Draws nets, piles of boards and calls for the table of sittings, as lines of that table."""

from typing import NamedTuple

from boards import LIMIT, PLACES, SLOTS
from make_net_table import chained, grid
from sittings import MOST_DONE

# the make-ups of a pile, from the bottom up
MAKE_UPS = (
    ("counts",),
    ("slots",),
    ("counts", "rename"),
    ("counts", "allow"),
    ("counts", "allow", "rename"),
    ("slots", "rename", "allow"),
)


class Plan(NamedTuple):
    """A net as it is meant: its places, and input and row of yields of each step."""

    places: int
    rows: list


# nets


def draw_sizes(dice):
    """How many places and steps: mostly few."""
    sort = dice.choices(("small", "middle", "wide", "large"), (70, 22, 6, 1))[0]
    if sort == "small":
        return dice.randint(1, 5), dice.randint(1, 7)
    if sort == "middle":
        return dice.randint(3, 12), dice.randint(4, 16)
    if sort == "wide":
        return dice.randint(10, 40), dice.randint(10, 40)
    return dice.randint(41, 64), dice.randint(60, 128)


def draw_yields(dice, style, places, start):
    """The yields of one step that takes at `start`."""
    row = [0] * places
    if style == "moves" and places > 1:
        row[(start + dice.randint(1, places - 1)) % places] = 1
        return row
    if style == "own" and dice.random() < 0.6:
        row[start] = dice.choice((1, 1, 2))
    weights = (1, 2, 17, 255) if style == "heavy" else (1, 1, 1, 2, 3)
    for _ in range(dice.choice((1, 1, 1, 2, 3))):
        row[dice.randrange(places)] = dice.choice(weights)
    return row


STYLES = ("moves", "moves", "moves", "ring", "mixed", "mixed", "own", "heavy")


def draw_plan(dice, sizes=None, styles=STYLES):
    """A net whose steps are drawn alike; in a ring each step leads to the next place, with some more steps."""
    places, steps = sizes or draw_sizes(dice)
    style = dice.choice(styles)
    rows = []
    for step in range(0 if dice.random() < 0.01 else steps):
        start = step % places if style == "ring" else dice.randrange(places)
        row = draw_yields(dice, style, places, start)
        if style == "ring" and step < places:
            row = [int(place == (start + 1) % places) for place in range(places)]
        rows.append((start, row))
    dice.shuffle(rows)
    return Plan(places, rows)


def chained_file(plan):
    """The chained file of a net; steps with the same yields share their chain."""
    steps, arcs, firsts = [], [], {}
    for start, row in plan.rows:
        chain = tuple((place, n) for place, n in enumerate(row) if n > 0)
        if chain not in firsts:
            firsts[chain] = len(arcs) + 1
            arcs += [(place, n, len(arcs) + 1 + k) for k, (place, n) in enumerate(chain, start=1)]
            arcs[-1] = (*arcs[-1][:2], 0)
        steps.append((start, firsts[chain]))
    return chained(plan.places, steps, arcs)


def net_line(dice, plan):
    make = dice.choice(("grid", "chained"))
    file = grid(*plan) if make == "grid" else chained_file(plan)
    return f"net {make} {file.hex()}"


# boards


def draw_counts(dice, places):
    """Blocks at the net's places, and sometimes at others."""
    counts = [0] * PLACES
    sort = dice.choice(("one", "few", "few", "some", "many"))
    if sort == "one":
        counts[dice.randrange(places)] = 1
    elif sort == "many":
        counts[:places] = [dice.choice((0, 1, 3, 9, 40)) for _ in range(places)]
    else:
        often = (0, 0, 0, 1, 2) if sort == "few" else (0, 1, 2, 5)
        counts[:places] = [dice.choice(often) for _ in range(places)]
    if dice.random() < 0.3:
        counts[dice.randrange(PLACES)] += dice.choice((1, 2, 30))
    return counts


def draw_spare(dice):
    return dice.choice((dice.randrange(4), dice.randint(4, 12), 60, 300, 300, 1000, 1000, 1000, 70_000))


def runs_of(row):
    """A row as runs: a length and what is repeated."""
    runs = []
    for held in row:
        if runs and runs[-1][1] == held:
            runs[-1][0] += 1
        else:
            runs.append([1, held])
    return [number for run in runs for number in run]


def slots_line(dice, counts, spare):
    """Slots with these counts; where the spare is to be smaller, place 63 has the rest of the slots."""
    blocks = [place + 1 for place, n in enumerate(counts) for _ in range(n)]
    empty = SLOTS - len(blocks)
    blocks += [PLACES] * max(0, empty - spare)
    row = blocks + [0] * (SLOTS - len(blocks))
    if dice.random() < 0.5:
        turn = dice.randrange(SLOTS)
        row = row[turn:] + row[:turn]
    for _ in range(dice.choice((0, 8, 20))):
        one, other = dice.randrange(SLOTS), dice.randrange(SLOTS)
        row[one], row[other] = row[other], row[one]
    return "slots " + " ".join(map(str, runs_of(row)))


def counts_line(counts, spare):
    last = max((place for place, n in enumerate(counts) if n > 0), default=-1)
    return " ".join(map(str, ["counts", spare, *counts[: last + 1]]))


def draw_pile(dice, make_up, counts, spare):
    """The lines of a pile that shows these counts and, where its make-up can, this spare."""
    row = list(range(PLACES))
    dice.shuffle(row)
    below = list(counts)
    if "rename" in make_up:
        for place, other in enumerate(row):
            below[other] = counts[place]
    left = spare
    if "allow" in make_up and dice.random() < 0.3:
        left = dice.choice((spare + 1, LIMIT, 2**32 - 1))
    rest = spare + dice.choice((0, 1, 500)) if left == spare and "allow" in make_up else spare
    lines = {
        "counts": counts_line(below, min(rest, LIMIT - sum(below))),
        "slots": slots_line(dice, below, rest) if "slots" in make_up else "",
        "rename": "rename " + " ".join(map(str, row)),
        "allow": f"allow {left}",
    }
    return [lines[part] for part in make_up]


# tallies


def walk(dice, sitting, marking, length, most):
    """The counts of an order fired at random from a marking, with at most so many yields in all."""
    tally, marking = [0] * sitting.net.steps, list(marking)
    for _ in range(length):
        ready = [t for t in range(sitting.net.steps) if marking[sitting.net.input_of(t)] > 0]
        step = dice.choice(ready) if ready else None
        if step is None or sum(sitting.yields[step].values()) > most:
            break
        most -= sum(sitting.yields[step].values())
        tally[step] += 1
        marking[sitting.net.input_of(step)] -= 1
        for place, n in sitting.yields[step].items():
            marking[place] += n
    return tally


def ring_walk(dice, sitting, length, most):
    """The counts of the longest front of an order, fired from a drawn marking, that takes no more blocks away
    from any place than it puts there: no place is short, from whatever marking, but it may be cut off."""
    marking = [dice.randint(0, 1) for _ in range(sitting.net.places)]
    kept, tally, finals = [0] * sitting.net.steps, [0] * sitting.net.steps, list(marking)
    for _ in range(length):
        one = walk(dice, sitting, finals, 1, most)
        if not any(one):
            break
        step = one.index(1)
        tally[step] += 1
        finals = sitting.after_step(finals, one, step)[0]
        if all(after >= before for after, before in zip(finals, marking)):
            kept = list(tally)
    return kept


def walk_length(dice, slow):
    """How long an order is drawn; boards that are slow get short ones."""
    short, middle, long = dice.randint(1, 4), dice.randint(5, 12), dice.randint(13, 60)
    return dice.choice((short, middle)) if slow else dice.choice((short, middle, middle, long))


def draw_tally(dice, sitting, slow):
    """A tally that was fired from the marking, from another one, or is drawn without a thought."""
    steps, marking = sitting.net.steps, sitting.marking()
    sorts = {"here": 52, "ring": 16, "one more": 5, "elsewhere": 8, "small": 6, "sparse": 6, "none": 1, "huge": 3}
    sort = dice.choices(list(sorts), list(sorts.values()))[0]
    most = sitting.board.spare() if dice.random() < 0.85 else LIMIT
    if sort == "elsewhere":
        marking = [dice.randint(0, 1) for _ in marking]
    if sort in ("here", "one more", "elsewhere"):
        tally = walk(dice, sitting, marking, walk_length(dice, slow), most)
    elif sort == "ring":
        tally = ring_walk(dice, sitting, walk_length(dice, slow), most)
    elif sort == "huge":
        tally = [dice.choice((0, 0, 1, MOST_DONE, 30_000)) for _ in range(steps)]
    else:
        often = {"small": (0, 1, 1, 2, 3), "sparse": (0, 0, 0, 0, 1), "none": (0,)}[sort]
        tally = [dice.choice(often) for _ in range(steps)]
    if sort == "one more" and steps > 0:
        tally[dice.randrange(steps)] += 1
    if not any(tally) and steps > 0 and sort != "none" and dice.random() < 0.9:
        return draw_tally(dice, sitting, slow)
    return tally


# targets and memories


def draw_target(dice, finals):
    """A target near the final numbers, and its kind."""
    numbers, kind = [max(n, 0) for n in finals], dice.randrange(2)
    sort = dice.choices(("hit", "off by one", "lower", "zeros", "any", "most"), (50, 14, 18, 8, 6, 2))[0]
    place = dice.randrange(len(numbers))
    if sort == "off by one":
        numbers[place] = max(0, numbers[place] + dice.choice((1, -1)))
    elif sort == "lower":
        kind, numbers = 1, [max(0, n - dice.choice((0, 0, 1, 5))) for n in numbers]
    elif sort == "zeros":
        numbers = [0] * len(numbers)
    elif sort == "any":
        numbers = [dice.randrange(4) for _ in numbers]
    elif sort == "most":
        numbers[place] = 2**32 - 1
    return numbers, kind


def spoil_rows(dice, tally, numbers, kind):
    """Rows of which one at least is unfit."""
    sort = dice.randrange(4)
    if sort in (0, 3):
        tally = dice.choice((tally[:-1], tally + [0], tally + [1], [0] * 128, [])) if tally else [0]
    if sort in (1, 3):
        numbers = dice.choice((numbers[:-1], numbers + [0], numbers + [7]))
    if sort == 2:
        kind = dice.choice((2, 3, 128, 255))
    return tally, numbers, kind


def draw_length(dice, total):
    """How long the order memory is."""
    if total > MOST_DONE:
        return dice.choice((0, 5, 300))
    exact, more, less = [total] * 6, [total + 1, total + 3] * 4, [max(0, total - 1), total // 2]
    return dice.choice(exact + more + less)


def judged(word, length, tally, kind, numbers):
    """The line of a resume or a survey."""
    rows = " ".join(map(str, tally)), str(kind), " ".join(map(str, numbers))
    return f"{word} {length} / " + " / ".join(rows)


def draw_judged(dice, sitting, slow):
    """A resume or a survey."""
    tally = draw_tally(dice, sitting, slow)
    numbers, kind = draw_target(dice, sitting.final_numbers(tally))
    length = draw_length(dice, sum(tally))
    if dice.random() < 0.07:
        tally, numbers, kind = spoil_rows(dice, tally, numbers, kind)
    if dice.random() < 0.65:
        return judged("resume", length, tally, kind, numbers)
    return judged("survey", dice.choice((*[192] * 14, 193, 200, 191, 0)), tally, kind, numbers)


def draw_fire(dice, sitting):
    """A fire, mostly of a step that can be fired."""
    steps, marking = sitting.net.steps, sitting.marking()
    ready = [t for t in range(steps) if marking[sitting.net.input_of(t)] > 0]
    if ready and dice.random() < 0.6:
        return f"fire {dice.choice(ready)}"
    if steps > 0 and dice.random() < 0.7:
        return f"fire {dice.randrange(steps)}"
    return f"fire {dice.choice((steps, steps, steps + 1, 127, 128, 255, 256, 65_535))}"


def draw_call(dice, sitting, slow):
    return draw_fire(dice, sitting) if dice.random() < 0.3 else draw_judged(dice, sitting, slow)
