"""Two judges of a tally, written from the rules in words: one by the rule, one by trying every order.

They are written for short nets and small tallies: a net is what a step takes and yields, a marking is a tuple
of blocks, a tally a tuple that has for each step how often it is to be fired.
"""

from typing import NamedTuple, Optional


class Net(NamedTuple):
    """`inputs[t]` is the input place of step t, `yields[t][p]` the blocks it adds at place p."""

    places: int
    inputs: tuple[int, ...]
    yields: tuple[tuple[int, ...], ...]

    @property
    def steps(self) -> int:
        return len(self.inputs)


class Verdict(NamedTuple):
    """What is said of a tally: 'short' or 'cut off' with the least such place, or 'done' with the order."""

    word: str
    place: Optional[int]
    order: Optional[tuple[int, ...]]


def fire(net: Net, marking: tuple[int, ...], step: int) -> tuple[int, ...]:
    """The marking after a step that can be fired."""
    assert marking[net.inputs[step]] > 0
    return tuple(
        blocks - (place == net.inputs[step]) + net.yields[step][place]
        for place, blocks in enumerate(marking)
    )


def one_less(tally: tuple[int, ...], step: int) -> tuple[int, ...]:
    """The tally with the step done once."""
    return tuple(n - (t == step) for t, n in enumerate(tally))


# By the rule: see that no place stands in the way, then choose the least safe step each time.


def final_numbers(net: Net, marking: tuple[int, ...], tally: tuple[int, ...]) -> list[int]:
    """What the marking equation gives for each place; below 0 where more is taken than there is."""
    finals = list(marking)
    for step, n in enumerate(tally):
        finals[net.inputs[step]] -= n
        for place in range(net.places):
            finals[place] += n * net.yields[step][place]
    return finals


def subnet_places(net: Net, tally: tuple[int, ...]) -> set[int]:
    """The places that a step of the tally takes from or yields at."""
    places = set()
    for step, n in enumerate(tally):
        if n > 0:
            places.add(net.inputs[step])
            places.update(p for p in range(net.places) if net.yields[step][p] > 0)
    return places


def reached_places(net: Net, marking: tuple[int, ...], tally: tuple[int, ...]) -> set[int]:
    """The places that hold a block, and those where steps of the tally from reached places yield."""
    reached = {p for p in range(net.places) if marking[p] > 0}
    grown = True
    while grown:
        grown = False
        for step, n in enumerate(tally):
            if n > 0 and net.inputs[step] in reached:
                found = {p for p in range(net.places) if net.yields[step][p] > 0} - reached
                if found:
                    reached |= found
                    grown = True
    return reached


def cut_off_places(net: Net, marking: tuple[int, ...], tally: tuple[int, ...]) -> set[int]:
    return subnet_places(net, tally) - reached_places(net, marking, tally)


def least_safe_step(net: Net, marking: tuple[int, ...], tally: tuple[int, ...]) -> int:
    """The least step that is left, can be fired, and leaves no place cut off."""
    for step, n in enumerate(tally):
        if n > 0 and marking[net.inputs[step]] > 0:
            if not cut_off_places(net, fire(net, marking, step), one_less(tally, step)):
                return step
    raise AssertionError("no step is safe")


def judge_by_rule(net: Net, marking: tuple[int, ...], tally: tuple[int, ...]) -> Verdict:
    short = [p for p, number in enumerate(final_numbers(net, marking, tally)) if number < 0]
    if short:
        return Verdict("short", short[0], None)
    cut_off = cut_off_places(net, marking, tally)
    if cut_off:
        return Verdict("cut off", min(cut_off), None)
    order = []
    while any(tally):
        step = least_safe_step(net, marking, tally)
        order.append(step)
        marking, tally = fire(net, marking, step), one_less(tally, step)
    return Verdict("done", None, tuple(order))


# By trying: all orders, the lexicographically least first, with nothing but the firing rule.


def judge_by_trying(net: Net, marking: tuple[int, ...], tally: tuple[int, ...]) -> Optional[tuple[int, ...]]:
    """The first order that does the tally, or None; a state from which none was found is not tried again."""
    dead = set()

    def search(marking, tally):
        if not any(tally):
            return ()
        if (marking, tally) in dead:
            return None
        for step in range(net.steps):
            if tally[step] > 0 and marking[net.inputs[step]] > 0:
                rest = search(fire(net, marking, step), one_less(tally, step))
                if rest is not None:
                    return (step, *rest)
        dead.add((marking, tally))
        return None

    return search(tuple(marking), tuple(tally))
