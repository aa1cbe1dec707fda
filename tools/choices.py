"""What the tests say of choices: which fillings are the best, what a choice field by field comes to, and what the cases of questions.txt
claim. Such a case is a line `say Choose: NAME` with a claim of that name below; the claim is held against the next `choose`."""

from functools import lru_cache

from model import Plan, candidates, costs, desk_masks, field, filled, globals_by_masks, globals_by_trying, shared_cells


class Choice:
    """An accepted choice: the plan before it, its cost and the fields that it filled in, and what every filling costs, by masks."""

    def __init__(self, plan, cost, words):
        self.plan, self.cost = plan, cost
        self.fields = tuple(field(words[t.place], 19, 16) for t in plan.opened)
        self.costs = {fields: cost for cost, fields in costs(plan, globals_by_masks)}

    def best(self):
        """The fillings of least cost, the smallest fields first."""
        least = min(self.costs.values())
        return sorted(fields for fields, cost in self.costs.items() if cost == least)

    def field_by_field(self, first):
        """The cost of a choice that goes once through the open fields in plan order and fills each at the least cost, the others being as
        they are; at first each is its first candidate, or its last."""
        fields = [first(candidates(t)) for t in self.plan.opened]
        for k, t in enumerate(self.plan.opened):
            fields[k] = min(candidates(t), key=lambda f: self.costs[(*fields[:k], f, *fields[k + 1 :])])
        return self.costs[tuple(fields)]

    def without_the_rest(self):
        """The cost of a choice that goes through the open fields in the same way, but with the transactions that are not filled yet left
        out of the plan: they are not counted, and touch nothing."""
        fields = ()
        for k in range(len(self.plan.opened)):
            fields += min(costs(plan_without(self.plan, fields, self.plan.opened[k + 1 :]), globals_by_masks))[1]
        return self.costs[fields]

    def plan_order_decides(self):
        """Whether the smallest of the best fillings is another where they are compared from the last field on."""
        return self.best()[0] != min(self.best(), key=lambda fields: fields[::-1])

    def costs_more_field_by_field(self):
        return all(self.field_by_field(first) > self.cost for first in (min, max))

    def costs_more_without_the_rest(self):
        return self.without_the_rest() > self.cost


def plan_without(plan, fields, left_out):
    """A plan with these fields in the first of its open transactions, and without the transactions that are left out."""
    words = filled(plan, fields)
    kept = [t for t in plan.transactions if t not in left_out]
    behind = [word for t in kept for word in words[t.place : t.place + 1 + len(t.steps)]]
    return Plan([1 << 28 | plan.desks << 24 | len(kept) << 16 | 1 + len(behind), *behind])


def best_are(*fillings):
    """The claim that these fillings, and no other, have the least cost."""
    return lambda choice: choice.best() == list(fillings)


def all_cost(cost, count):
    """The claim that there are so many fillings, and that each has this cost."""
    return lambda choice: list(choice.costs.values()) == [cost] * count


def weigh(choice, weight):
    """Whether each transaction has this weight."""
    return all(t.weight == weight for t in choice.plan.transactions)


def some_global(choice):
    """Whether some filling makes some transaction wait."""
    return any(numbers for _, numbers in globals_by_masks(choice.plan))


def longest(claim):
    """A claim of the longest plan, with six open transactions of four parameters."""
    return lambda choice: len(choice.plan.words) == 417 and len(choice.costs) == 5**6 and claim(choice)


CLAIMS = {
    "every one of 32 is global and weighs 255": lambda choice: weigh(choice, 255) and all_cost(8160, 1)(choice),
    "no filling of six costs less than 8160": lambda choice: weigh(choice, 255) and all_cost(8160, 2**6)(choice),
    "no transaction is global": lambda choice: weigh(choice, 255) and all_cost(0, 1)(choice),
    "field by field is not the best": lambda choice: choice.costs_more_field_by_field() and best_are((1, 1))(choice),
    "field by field is not the best, of three": lambda choice: choice.costs_more_field_by_field() and best_are((3, 2, 1))(choice),
    "field by field is not the best, with the rest left out": lambda choice: (
        choice.costs_more_field_by_field() and choice.costs_more_without_the_rest() and choice.cost == 0 and best_are((15, 1))(choice)
    ),
    "by p1 alone is the best once the other is closed": best_are((1,)),
    "nothing helps where the other is closed by p0": best_are((0,), (1,), (15,)),
    "two fillings cost the same": best_are((0,), (1,)),
    "by p1, for a weight that is one larger": best_are((1,)),
    "by p0, for a weight that is one larger": best_are((0,)),
    "the best are (0, 1) and (1, 0)": best_are((0, 1), (1, 0)),
    "the best are (0, 1) and (1, 0), with others between them": best_are((0, 1), (1, 0)),
    "the best are (0, 2) and (1, 0)": best_are((0, 2), (1, 0)),
    "the best are (0, 15) and (1, 0)": best_are((0, 15), (1, 0)),
    "the best is none": best_are((15,)),
    "by p0 and by none, where T1 is at every desk": best_are((0,), (15,)),
    "the best is none, for a read": best_are((15,)),
    "by p0 and by none, in another cell for a read": best_are((0,), (15,)),
    "the best is none, in another cell": best_are((15,)),
    "none is the largest field": all_cost(0, 5),
    "a transaction with no parameter": all_cost(0, 1),
    "transactions with no parameter beside one by p0": all_cost(256, 1),
    "the best is the last parameter": best_are((3,)),
    "the best is the last but one": best_are((2,)),
    "all weights are 0": lambda choice: weigh(choice, 0) and some_global(choice) and all_cost(0, 9)(choice),
    "one desk": lambda choice: not some_global(choice) and all_cost(0, 9)(choice),
    "one desk, where all write one cell": lambda choice: weigh(choice, 255) and all_cost(0, 10)(choice),
    "the weights of closed transactions decide for p0": lambda choice: choice.plan.opened[0].weight == 0 and best_are((0,))(choice),
    "the weights of closed transactions decide for p1": lambda choice: choice.plan.opened[0].weight == 0 and best_are((1,))(choice),
    "by p1, since 255 is less than 256": lambda choice: [choice.costs[(k,)] for k in (0, 1)] == [256, 255] and best_are((1,))(choice),
    "one global operation makes its transaction count": all_cost(101, 2),
    "none, where the row is desk 0's own": best_are((15,)),
    "none, for row 24 of eight desks": best_are((15,)),
    "by p0 and by none, for row 31 of eight desks": all_cost(101, 2),
    "none, for row 30 of three desks": best_are((15,)),
    "by p0 and by none, for row 31 of three desks": all_cost(101, 2),
    "by p0 and by none, in the last cell of the book": all_cost(101, 2),
    "steps behind a need count": best_are((1, 1)),
    "tells and numbers of a parameter do not count": best_are((2,)),
    "a cell written twice, once in each row": all_cost(256, 3),
    "five fields, and the fields behind a tie": best_are(*[(a, 1, b, 15, 2) for a in (0, 15) for b in (0, 15)]),
    "six fields, of none and of each parameter": best_are((1, 2, 3, 0, 15, 15)),
    "one filling of 15,625, in the longest plan": longest(best_are((3, 0, 2, 1, 3, 2))),
    "the last filling of 15,625, in the longest plan": longest(best_are((15,) * 6)),
    "15,625 fillings that cost the same, in the longest plan": longest(all_cost(8160, 5**6)),
}


@lru_cache(maxsize=1024)
def same_by_masks(words):
    """Whether trying operations and masks agree in the plan of a tuple of words, which is accepted: on the transactions that have a global
    operation, and on the cells that two or more desks may touch."""
    plan = Plan(words)
    shared = shared_cells([desk_masks(t, plan.desks) for t in plan.transactions])
    return list(globals_by_trying(plan)) == list(globals_by_masks(plan)) and sum(1 << cell for cell in plan.shared) == shared
