"""Draws plans that are accepted, among them plans for causes, makes some of their transactions urgent, opens fields of plans, and draws
damages of plans that are then refused."""

from model import FIXED, MOST_TOLD, NO_PARTITION, OPEN, ROWS, TELL, WORD, field, names_missing, walk

MOST_FIXED, MOST_STEPS, TELL_WORD, URGENT = (1 << 25) - 1, 12, TELL << 28, 1 << 7


def hexadecimal(words):
    return " ".join("%X" % w for w in words)


def cell_word(kind, place, source, row=0):
    return kind << 28 | place[0] << 25 | place[1] << 23 | source << 20 | row


def number_word(kind, source, number=0):
    return kind << 28 | source << 25 | number


class PlanDrawing:
    """A plan that is accepted. A place is a table and a column, and each has its use in a plan: `own` places are touched only in the row
    that the partitioning parameter names, `first` ones only by transactions without partitioning, `shared` ones by all, and `constant` ones
    are only read; a few steps keep to no use. The `tied` ones, where two are left, are only for a tie. The rows are mostly of a few that
    are drawn for the plan. The first `kept` transactions are not to be opened afterwards, the next `paired` ones are if so many are opened,
    and there are enough behind them."""

    def __init__(self, rng, shape, opened):
        self.rng, self.shape, self.opened, self.kept, self.paired = rng, shape, opened, 0, 0
        places = [(table, column) for table in range(8) for column in range(4)]
        rng.shuffle(places)
        size = rng.choice((1, 1, 2, 8))
        self.places = {use: places[k * size : (k + 1) * size] for k, use in enumerate(("own", "first", "shared", "constant"))}
        self.tied = places[4 * size :][:2]
        self.rows = rng.sample(range(ROWS), rng.choice((3, 4, 8)))
        self.desks = {"one desk": 1, "full frame": 8, "full round": 8}.get(shape, rng.choice((rng.randrange(2, 5), rng.randrange(1, 9))))
        if shape in ("own cells", "burst"):
            self.desks = max(2, self.desks)
        self.words, self.count, self.weights = [0], 0, rng.choice(("none", "few", "any", "any", "any", "any"))

    def draw(self):
        """The words of the plan."""
        count = max(self.rng.randrange(2, 8), self.opened + self.rng.randrange(3))
        count = 32 if self.shape in ("many transactions", "most words") else count
        if self.shape == "own cells":
            self.add_own_cells()
        elif self.shape in ("full frame", "full round"):
            self.add_twelve_writes()
        self.kept = self.count
        form = self.rng.randrange(4) if self.opened > 1 and count < 32 else 0
        if form == 1 and self.tied:
            self.add_tie()
        elif form:
            self.add_pair()
        for _ in range(count):
            self.add_transaction()
        self.words[0] = 1 << 28 | self.desks << 24 | self.count << 16 | len(self.words)
        return self.words

    def add(self, params, partition, steps, weight=None):
        weight = self.weight() if weight is None else weight
        self.words += [2 << 28 | params << 24 | len(steps) << 20 | partition << 16 | weight << 8] + steps
        self.count += 1

    def weight(self):
        """A weight: over the full range, or in some plans one of a few, so that costs are often equal, or 0."""
        weights = {"none": (0,), "few": (0, 1, 1, 2, 255), "any": range(256)}
        return self.rng.choice(weights[self.weights])

    def row(self):
        return self.rng.choice(self.rows) if self.rng.randrange(4) else self.rng.randrange(ROWS)

    def add_own_cells(self):
        """A global that writes a cell of its own desk and one of all, a local that writes the first, and a local that reads it."""
        own, shared = self.places["own"][0], self.places["shared"][0]
        read, write = cell_word(3, own, 0), cell_word(4, own, 0)
        self.add(2, 0, [number_word(5, 1), write, cell_word(4, shared, FIXED, self.row())])
        self.add(2, 0, [read, number_word(6, 1), write])
        self.add(1, 0, [read])

    def add_twelve_writes(self):
        """A global of the longest update; the last write is of a cell that all desks write."""
        steps = [cell_word(4, self.rng.choice(self.places["shared"]), 1) for _ in range(11)]
        self.add(2, 0, steps + [cell_word(4, self.places["shared"][0], FIXED, self.row())])

    def add_pair(self):
        """Two transactions to be opened that write an own place in the row of a later parameter, behind one that is kept. While one of the
        two goes by another parameter or by none, it makes no difference by which the other goes."""
        place = self.places["own"][0]
        self.add(1, 0, [cell_word(self.rng.choice((3, 4)), place, 0)])
        self.kept, self.paired = self.count, 2
        for _ in range(2):
            params = self.rng.randrange(2, 5)
            row = self.rng.randrange(1, params)
            self.add(params, row, [self.number_step(self.rng.choice((5, 6)), params), cell_word(4, place, row)])

    def add_tie(self):
        """Two transactions to be opened that read both tied places, behind two that are kept, weigh the same and write one place each. By
        one parameter a reader makes the one writer global, by another the other, by any further one and by none both. So one writer is
        global if the readers agree, which takes the smaller of two parameters in one reader and the larger in the other."""
        rng, weight, swapped = self.rng, self.rng.choice((1, 255, self.rng.randrange(1, 256))), self.rng.randrange(2)
        for place in self.tied:
            self.add(1, 0, [cell_word(4, place, 0)], weight)
        self.kept, self.paired = self.count, 2
        for number in range(2):
            params = rng.randrange(2, 5)
            rows = sorted(rng.sample(range(params), 2), reverse=number == swapped)
            self.add(params, rows[0], [cell_word(3, place, row) for place, row in zip(self.tied, rows)])

    def add_transaction(self):
        """A transaction of one of the uses, or of all, or one that only reads. All but the readers end with a write."""
        rng = self.rng
        params, partition = rng.randrange(5), NO_PARTITION
        if params and self.shape != "no partition" and rng.randrange(6):
            partition = rng.randrange(params)
        theme = rng.choice(("own", "own", "shared", "shared", "shared", "any", "any", "reader", "constant"))
        length = MOST_STEPS if self.shape == "most words" else rng.choice((1, 2, 3, 4, 5, 6, rng.randrange(1, 13)))
        steps = [self.step(theme, params, partition, k + 1 == length) for k in range(length)]
        steps = self.begun(steps, params) if rng.randrange(4) else steps
        self.add(params, partition, self.with_tells(steps) if rng.randrange(3) == 0 else steps)

    def begun(self, steps, params):
        """Some steps with a set in place of a take that would find the working number as it is at first, 0."""
        k = next((k for k, word in enumerate(steps) if field(word, 31, 28) in (3, 5, 6, 8)), None)
        takes = k is not None and field(steps[k], 31, 28) == 8
        return steps[:k] + [self.number_step(5, params)] + steps[k + 1 :] if takes else steps

    def with_tells(self, steps):
        """Some steps with 1 to 4 tells among them; where that would be more than twelve, tells stand in place of steps before the last."""
        rng, count = self.rng, self.rng.randrange(1, MOST_TOLD + 1)
        for k in rng.sample(range(len(steps) - 1), max(0, len(steps) + count - MOST_STEPS)):
            steps[k] = TELL_WORD
        for _ in range(count - steps.count(TELL_WORD)):
            steps.insert(rng.randrange(len(steps) + 1), TELL_WORD)
        return steps

    def step(self, theme, params, partition, last):
        kind = self.rng.choice((3, 3, 4, 4, 5, 6, 7, 8))
        if theme in ("reader", "constant"):
            kind = 3 if kind == 4 else kind
        elif last:
            kind = 4
        return self.cell_step(kind, theme, params, partition) if kind <= 4 else self.number_step(kind, params)

    def cell_step(self, kind, theme, params, partition):
        """A read or write step, its row of a parameter or fixed."""
        rng = self.rng
        use, in_use = rng.choice(("own", "shared", "constant")) if theme in ("any", "reader") else theme, rng.randrange(24)
        if kind == 4 and use == "constant":
            use = "shared"
        elif kind == 3 and rng.randrange(4) == 0:
            use = "constant"
        if use == "own" and partition == NO_PARTITION:
            use = "first"
        place = rng.choice(self.places[use if in_use else rng.choice(list(self.places))])
        if use == "own" and in_use:
            return cell_word(kind, place, partition)
        if params and rng.randrange(5) > 1:
            return cell_word(kind, place, rng.randrange(params))
        return cell_word(kind, place, FIXED, self.row())

    def number_step(self, kind, params):
        """A set, add, need or take step, of a parameter or of a fixed number, small or over the full range."""
        rng = self.rng
        if params and rng.randrange(2):
            return number_word(kind, rng.randrange(params))
        number = rng.choice((rng.randrange(4), rng.randrange(16), rng.randrange(16), rng.randrange(MOST_FIXED + 1)))
        return number_word(kind, FIXED, MOST_FIXED - rng.randrange(3) if rng.randrange(16) == 0 else number)


class CauseDrawing(PlanDrawing):
    """A plan for causes: each cell is touched by few, so that they vary. A transaction is `own`, if its row goes by the partitioning
    parameter; `first`, if it has no partitioning and is desk 0's; or `wide`, if every desk may touch what it does. Of the wide ones a share
    is drawn for the plan. With many transactions there are many places. The first place of the book and the last are taken more often."""

    def __init__(self, rng):
        super().__init__(rng, "causes", 0)
        self.desks, self.wide, self.many = rng.randrange(2, 9), rng.choice((0, 10, 10, 30, 60)), rng.randrange(4) == 0
        places = rng.sample([(table, column) for table in range(8) for column in range(4)], 12 if self.many else rng.randrange(1, 4))
        places[0] = rng.choice(((0, 0), (7, 3), places[0], places[0], places[0]))
        self.few, self.rows = places, [rng.choice((0, ROWS - 1, rng.randrange(ROWS))), *rng.sample(range(ROWS), rng.randrange(1, 4))]

    def draw(self):
        for _ in range(32 if self.many else self.rng.choice((2, 3, 4, 5, 6, self.rng.randrange(7, 20)))):
            self.add_transaction()
        self.words[0] = 1 << 28 | self.desks << 24 | self.count << 16 | len(self.words)
        return self.words

    def add_transaction(self):
        rng = self.rng
        sort = "wide" if rng.randrange(100) < self.wide else rng.choice(("own", "first"))
        params = rng.randrange(0 if sort == "first" else 1, 5)
        partition = NO_PARTITION if sort == "first" else rng.randrange(params)
        length = MOST_STEPS if rng.randrange(12) == 0 else rng.randrange(1, 3 if self.many else 6)
        steps = [self.cause_step(sort, params, partition) for _ in range(length)]
        self.add(params, partition, self.with_tells(steps) if rng.randrange(6) == 0 else steps)

    def cause_step(self, sort, params, partition):
        """A read or a write, or seldom a step that touches nothing."""
        rng = self.rng
        if rng.randrange(8) == 0:
            return self.number_step(rng.choice((5, 6, 7, 8)), params)
        kind, place = rng.choice((3, 4, 4)), rng.choice(self.few)
        if sort == "own":
            return cell_word(kind, place, partition)
        sources = [k for k in range(params) if k != partition]
        if sources and rng.randrange(3) == 0:
            return cell_word(kind, place, rng.choice(sources))
        return cell_word(kind, place, FIXED, rng.choice(self.rows))


def damage(rng, words, question):
    """A change of a plan that is then refused with this question, 1 to 4 or 17, and what undoes the change, as the script has them."""
    head, back, count = words[0], " word 0 %X" % words[0], rng.randrange(1, min(len(words), 9))
    end, more = hexadecimal(words[-count:]), hexadecimal([rng.choice((words[-1], rng.randrange(WORD))) for _ in range(count)])
    if question == 1:
        heads = head ^ rng.randrange(1, 1 << 16), head ^ rng.randrange(1, 16) << 28, rng.randrange(WORD) | 2 << 28
        forms = [("word 0 %X" % h, back) for h in heads] + [("words", "words " + hexadecimal(words))]
        forms += [("cut %d" % count, end), (more, "cut %d" % count)]
        forms.append(("*%d word 0 %X" % (418 - len(words), head - len(words) + 418), "cut %d" % (418 - len(words)) + back))
        return rng.choice(forms)
    if question == 2:
        desks = head & 0xF0FFFFFF | rng.choice((0, 9, rng.randrange(9, 16))) << 24
        transactions = head & 0xFF00FFFF | rng.choice((0, 33, rng.randrange(33, 256))) << 16
        return "word 0 %X" % rng.choice((desks, transactions)), back
    if question == 17:
        places = transaction_places(words)
        return changes(words, opened(words, rng.sample(places, rng.randrange(1, min(len(places), 9) + 1))))
    form = rng.randrange(3) if question == 3 else 2
    if form == 0:
        forms = [("cut %d word 0 %X" % (count, head - count), end + back)]
        if len(words) + count <= 417:
            forms.append(("%s word 0 %X" % (more, head + count), "cut %d" % count + back))
        return rng.choice(forms)
    return tell_damage(rng, words) if form == 1 else word_damage(rng, words, question)


def changes(words, others):
    """What changes words into others, as many, and what undoes it, as the script has them."""
    places = [k for k, word in enumerate(words) if word != others[k]]
    return tuple(" ".join("word %d %X" % (k, of[k]) for k in places) for of in (others, words))


def transaction_places(words):
    """Where the word of each transaction stands, of a plan that is accepted."""
    return [places.start - 1 for places in step_places(words)]


def made_urgent(rng, words):
    """The words of a plan with some of its transactions urgent, of which a share is drawn for the plan."""
    share = rng.choice((20, 35, 50, 50, 65))
    places = [place for place in transaction_places(words) if rng.randrange(100) < share]
    return [word | URGENT if k in places else word for k, word in enumerate(words)]


def opened(words, places):
    """The words of a plan with the fields of the transactions at these places open."""
    return [word & ~(15 << 16) | OPEN << 16 if k in places else word for k, word in enumerate(words)]


def transaction_damage(rng, words):
    """One of the lowest seven bits of a transaction's word set, or its partitioning field 4 to 13: question 3."""
    others, place = list(words), rng.choice(transaction_places(words))
    if rng.randrange(2):
        others[place] |= 1 << rng.randrange(7)
    else:
        others[place] = words[place] & ~(15 << 16) | rng.randrange(4, OPEN) << 16
    return changes(words, others)


def step_places(words):
    """Where the steps of each transaction stand, of a plan that is accepted."""
    places, at = [], 1
    while at < len(words):
        places.append(range(at + 1, at + 1 + field(words[at], 23, 20)))
        at = places[-1].stop
    return places


def tell_damage(rng, words):
    """Steps changed so that a transaction has five tells, or a step so that it is a tell with another bit set."""
    of_five = [places for places in step_places(words) if len(places) > MOST_TOLD]
    if of_five and rng.randrange(2):
        places = rng.choice(of_five)
        others = [k for k in places if words[k] != TELL_WORD]
        changed = {k: TELL_WORD for k in rng.sample(others, MOST_TOLD + 1 - len(places) + len(others))}
    else:
        tells = [k for k in range(1, len(words)) if words[k] == TELL_WORD]
        changed = {rng.choice(tells or rng.choice(step_places(words))): TELL_WORD | 1 << rng.randrange(28)}
    return changes(words, [changed.get(k, word) for k, word in enumerate(words)])


def word_damage(rng, words, question):
    """One word behind the head changed so that the plan is refused with question 3 or 4, or else with 2, if none is found."""
    for _ in range(4000):
        at = rng.randrange(1, len(words))
        word = words[at] ^ rng.randrange(1, 16) << 4 * rng.randrange(8) if rng.randrange(8) else rng.randrange(WORD)
        transactions = walk(words[:at] + [word] + words[at + 1 :])
        if question == (3 if transactions is None else 4 if any(map(names_missing, transactions)) else 0):
            return "word %d %X" % (at, word), "word %d %X" % (at, words[at])
    return damage(rng, words, 2)
