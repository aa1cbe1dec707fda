"""What the tests say of causes: whether an answer of the classifier is right, by masks in closed form, and of what kind a cause is."""

from functools import lru_cache, reduce
from operator import or_

from model import CELLS, FIXED, NO_PARTITION, Plan, cell_of, desk_masks, desk_of, operations, write_mask


@lru_cache(maxsize=64)
def masks_of(words):
    """For the plan of a tuple of words: of each transaction the cells that it may touch at each desk, the same of all together, and the
    cells that some operation may write."""
    plan = Plan(words)
    masks = [desk_masks(t, plan.desks) for t in plan.transactions]
    return masks, [reduce(or_, at_desk) for at_desk in zip(*masks)], reduce(or_, map(write_mask, plan.transactions))


def written_cells(t, params):
    """The cells that an operation may write, in the order of its steps."""
    return [cell_of(s, params) for s in t.steps if s.kind == 4]


def is_right(plan, transaction, params, answer):
    """Whether an answer that is no refusal is right: of a global operation the named touch is real and each lower one is absent, and of
    any other no touch by another desk of what it may write is there at all; it is free if it writes nothing and nothing writes what it
    reads."""
    t, (masks, touched, written) = plan.transactions[transaction], masks_of(tuple(plan.words))
    desk = desk_of(t, params, plan.desks)
    others = [d for d in range(plan.desks) if d != desk]
    cells = {cell for cell in written_cells(t, params) if any(touched[d] >> cell & 1 for d in others)}
    if answer[0] != "global":
        free = all(s.kind != 4 and not (s.kind == 3 and written >> cell_of(s, params) & 1) for s in t.steps)
        return not cells and answer == (("free",) if free else ("local", desk))
    own, cell, other, number = answer[1:]
    real = own == desk and cell in cells and other in others and masks[number][other] >> cell & 1
    lower = [c for c in cells if c < cell] + [d for d in others if d < other and touched[d] >> cell & 1]
    return real and not lower and not any(masks[k][other] >> cell & 1 for k in range(number))


class Case:
    """A global operation with its cause. `named` are all touches by other desks of what it may write, each a cell, a desk and a
    transaction, as the model tried them; `steps` are the steps by which the transaction that is named touches the cell, and `writes` those
    by which the operation writes it."""

    def __init__(self, plan, transaction, params, answer):
        self.plan, self.transaction, self.params = plan, transaction, params
        self.own, self.cell, self.desk, self.number = answer[1:]
        self.t, self.other = plan.transactions[transaction], plan.transactions[self.number]
        self.written = written_cells(self.t, params)
        self.named = self.touches(self.written)
        self.steps = [s for s in self.other.steps if s.kind in (3, 4) and self.is_by(s)]
        self.writes = [s for s in self.t.steps if s.kind == 4 and cell_of(s, params) == self.cell]

    def touches(self, cells):
        """All touches of some cells by other desks, each a cell, a desk and a transaction."""
        return {(cell, desk, number) for cell in cells for desk, number in self.plan.touches[cell] if desk != self.own}

    def is_by(self, step):
        """Whether an operation of the named transaction and desk touches the cell by this step."""
        desks = self.plan.desks
        pairs = ((cell_of(step, params), desk_of(self.other, params, desks)) for params in operations(self.other, step, desks))
        return (self.cell, self.desk) in pairs

    def is_first(self, written):
        """Whether the cell is the first of these that another desk may touch."""
        cells = {touch[0] for touch in self.named}
        return next(cell for cell in written if cell in cells) == self.cell

    def first_number(self):
        """The lowest transaction that may touch the cell, of any desk."""
        return min(number for _, number in self.plan.touches[self.cell])

    def first_other(self):
        """The lowest transaction that may touch the cell, of any other desk."""
        return min(number for _, _, number in self.touches([self.cell]))

    def first_of_desk(self):
        """The lowest transaction that has an operation of the named desk, whatever it may touch."""
        return next(k for k, t in enumerate(self.plan.transactions) if self.desk == 0 or t.partition != NO_PARTITION)

    def lowest_touched(self):
        """The lowest cell that it may touch, write or not, and that another desk may touch."""
        return min(self.touches(cell_of(s, self.params) for s in self.t.steps if s.kind in (3, 4)))[0]


def by_fixed(t, steps):
    return any(s.source == FIXED for s in steps)


def by_partition(t, steps):
    return any(s.source == t.partition for s in steps)


def by_other(t, steps):
    return any(s.source not in (FIXED, t.partition) for s in steps)


# What kind a cause is; each is counted. Many a kind is one by which a reckoning that is not the paper's names another cause: the highest
# cell, desk or transaction instead of the lowest, if it is among several.
KINDS = {
    "causes at a lower desk": lambda c: c.desk < c.own,
    "causes at a higher desk": lambda c: c.desk > c.own,
    "causes at a desk above 1": lambda c: c.desk > 1,
    "causes in a lower transaction": lambda c: c.number < c.transaction,
    "causes in the same transaction": lambda c: c.number == c.transaction,
    "causes in a higher transaction": lambda c: c.number > c.transaction,
    "causes among several cells": lambda c: len({cell for cell, _, _ in c.named}) > 1,
    "causes among several desks": lambda c: len({desk for cell, desk, _ in c.named if cell == c.cell}) > 1,
    "causes among several transactions": lambda c: sum(touch[:2] == (c.cell, c.desk) for touch in c.named) > 1,
    "causes whose cell is not of the first write": lambda c: c.written[0] != c.cell,
    "causes whose cell is not the first in step order": lambda c: not c.is_first(c.written),
    "causes whose cell is not the last in step order": lambda c: not c.is_first(c.written[::-1]),
    "causes whose cell is written twice": lambda c: c.written.count(c.cell) > 1,
    "causes above a written cell of the own desk alone": lambda c: min(c.written) < c.cell,
    "causes above a cell that is only read": lambda c: c.lowest_touched() < c.cell,
    "causes whose desk is not the lowest of all": lambda c: min(desk for _, desk, _ in c.named) < c.desk,
    "causes whose transaction is not the first at the cell": lambda c: c.first_number() < c.number,
    "causes whose transaction is not the first of another desk": lambda c: c.first_other() < c.number,
    "causes whose transaction is not the first of that desk": lambda c: c.first_of_desk() < c.number,
    "causes by a read alone": lambda c: {s.kind for s in c.steps} == {3},
    "causes by a write": lambda c: 4 in {s.kind for s in c.steps},
    "causes by a fixed row": lambda c: by_fixed(c.other, c.steps),
    "causes by the row of the partitioning parameter": lambda c: by_partition(c.other, c.steps),
    "causes by the row of another parameter": lambda c: by_other(c.other, c.steps),
    "causes with no partitioning": lambda c: c.other.partition == NO_PARTITION,
    "causes of a write in a fixed row": lambda c: by_fixed(c.t, c.writes),
    "causes of a write in the row of the partitioning parameter": lambda c: by_partition(c.t, c.writes),
    "causes of a write in the row of another parameter": lambda c: by_other(c.t, c.writes),
    "causes of operations with no partitioning": lambda c: c.t.partition == NO_PARTITION,
}


def kinds(case):
    """The names of what is counted of a cause."""
    return [name for name, holds in KINDS.items() if holds(case)]


def ranges(case):
    """What is seen of a cause, each a name and a number."""
    yield "tables in causes", case.cell // 128
    yield "columns in causes", case.cell % 4
    yield "rows in causes", case.cell % 128 // 4
    yield "desks in causes", case.desk
    yield "transactions in causes", case.number
    if case.cell in (0, CELLS - 1):
        yield "first and last cells in causes", case.cell
