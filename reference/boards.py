"""Boards and layers, written from their rules in words alone, to compare the proved ones with.

What lies on a board and what still fits (its spare) is at most 2,147,483,647 blocks. Nothing here is fast or
clever: each rule stands once, as it is told.
"""

PLACES = 64
LIMIT = 2_147_483_647
SLOTS = 4_096


class Refused(Exception):
    """A call that says no: its number and its detail."""

    def __init__(self, number, detail=0):
        super().__init__(f"no {number} {detail}")
        self.number = number
        self.detail = detail


class CountBoard:
    """The blocks of each place, and how many more fit; at first no block lies there and none fits."""

    def __init__(self):
        self.numbers = [0] * PLACES
        self.rest = 0

    def load(self, row, spare):
        if len(row) != PLACES or sum(row) + spare > LIMIT:
            raise Refused(19)
        self.numbers = list(row)
        self.rest = spare

    def count(self, place):
        return self.numbers[place] if place < PLACES else 0

    def spare(self):
        return self.rest

    def take(self, place):
        if place >= PLACES:
            raise Refused(16)
        if self.numbers[place] == 0:
            raise Refused(17, place)
        self.numbers[place] -= 1
        self.rest += 1

    def put(self, place, n):
        if place >= PLACES:
            raise Refused(16)
        if n > self.rest:
            raise Refused(18, place)
        self.numbers[place] += n
        self.rest -= n


class SlotBoard:
    """A row of 4,096 slots with at most one block each, kept as the number of its place and 1; 0 is no block."""

    def __init__(self):
        self.slots = [0] * SLOTS

    def load(self, row):
        if len(row) != SLOTS or max(row) > PLACES:
            raise Refused(19)
        self.slots = list(row)

    def count(self, place):
        return self.slots.count(place + 1) if place < PLACES else 0

    def spare(self):
        return self.slots.count(0)

    def take(self, place):
        if place >= PLACES:
            raise Refused(16)
        if place + 1 not in self.slots:
            raise Refused(17, place)
        self.slots[self.slots.index(place + 1)] = 0

    def put(self, place, n):
        if place >= PLACES:
            raise Refused(16)
        empty = [k for k, held in enumerate(self.slots) if held == 0]
        if n > len(empty):
            raise Refused(18, place)
        for k in sorted(empty, reverse=True)[:n]:
            self.slots[k] = place + 1


class Renaming:
    """A board over a board, with other numbers for its places: `row[p]` is what place p is called below."""

    def __init__(self, below):
        self.below = below
        self.row = list(range(PLACES))

    def load(self, row):
        if sorted(row) != list(range(PLACES)):
            raise Refused(20)
        self.row = list(row)

    def count(self, place):
        return self.below.count(self.row[place]) if place < PLACES else 0

    def spare(self):
        return self.below.spare()

    def take(self, place):
        if place >= PLACES:
            raise Refused(16)
        if self.count(place) == 0:
            raise Refused(17, place)
        self.below.take(self.row[place])

    def put(self, place, n):
        if place >= PLACES:
            raise Refused(16)
        if n > self.spare():
            raise Refused(18, place)
        self.below.put(self.row[place], n)


class Allowance:
    """A board over a board that grants less room: for `left` blocks, even where more would fit below."""

    def __init__(self, below, left):
        self.below = below
        self.left = min(left, LIMIT)

    def count(self, place):
        return self.below.count(place)

    def spare(self):
        return min(self.left, self.below.spare())

    def take(self, place):
        self.below.take(place)
        if self.left < LIMIT:
            self.left += 1

    def put(self, place, n):
        if place >= PLACES:
            raise Refused(16)
        if n > self.spare():
            raise Refused(18, place)
        self.below.put(place, n)
        self.left -= n


def digest(numbers):
    """One number for a list of numbers below 2^32: FNV-1a of 32 bits over their four bytes, low byte first."""
    value = 2_166_136_261
    for number in numbers:
        for byte in number.to_bytes(4, "little"):
            value = (value ^ byte) * 16_777_619 % 2**32
    return value


def picture(board):
    """The 64 counts and spare of a board."""
    return [board.count(place) for place in range(PLACES)] + [board.spare()]
