"""A plain model of the Belt between duty desks, written from the paper alone.

Words are integers below 2^32. `Plan(words)` reads a plan once; every call of the paper is then a function over it. Buffers are lists
that are changed in place, a row of waiting requests is a list of six-tuples, and every call answers a tuple that names its case:
('free',), ('local', desk), ('global', desk, cell, other desk, transaction), ('replied', done, number, four told words), ('waits',),
('elsewhere', desk), ('passed', words, replies), ('opened', state), ('written',), ('visit', number), ('accepted',), ('chosen', cost),
('refused', question).
"""

from collections import namedtuple
from functools import lru_cache, reduce
from itertools import product
from operator import or_

WORD = 1 << 32
CELLS, ROWS, OUTGOING, REPLIES = 1024, 32, 6404, 224
OPEN, NO_PARTITION, FIXED = 14, 15, 7
TELL, MOST_TOLD, REPLY_WORDS = 13, 4, 7
# The kinds of set, add, need and take.
ACTS = (5, 6, 7, 8)
MOST_OPEN, MOST_TRIED = 6, 3

Step = namedtuple("Step", "kind table column source fixed")
# The place is the index of the transaction's word in the plan.
Transaction = namedtuple("Transaction", "place params partition weight urgent steps")
Request = namedtuple("Request", "client transaction p0 p1 p2 p3")
Desk = namedtuple("Desk", "desk waiting awaited")
Run = namedtuple("Run", "done number told update acts")


def field(word, high, low):
    """Bits high to low of a word."""
    return (word >> low) & ((1 << (high - low + 1)) - 1)


def refused(question):
    return ("refused", question)


# ---- Plan words


def transaction_well_formed(word):
    """Question 3 for a transaction word."""
    return (
        field(word, 31, 28) == 2
        and field(word, 27, 24) <= 4
        and 1 <= field(word, 23, 20) <= 12
        and (field(word, 19, 16) <= 3 or field(word, 19, 16) in (OPEN, NO_PARTITION))
        and field(word, 6, 0) == 0
    )


def step_well_formed(word):
    """Question 3 for a step word."""
    kind = field(word, 31, 28)
    if kind in (3, 4):
        source = field(word, 22, 20)
        if field(word, 19, 5) != 0:
            return False
        return source == FIXED or (source <= 3 and field(word, 4, 0) == 0)
    if kind in (5, 6, 7, 8):
        source = field(word, 27, 25)
        return source == FIXED or (source <= 3 and field(word, 24, 0) == 0)
    return kind == TELL and field(word, 27, 0) == 0


def decode_step(word):
    """A step of a well formed word. A tell has no source."""
    kind = field(word, 31, 28)
    if kind == TELL:
        return Step(kind, 0, 0, None, 0)
    if kind in (3, 4):
        return Step(kind, field(word, 27, 25), field(word, 24, 23), field(word, 22, 20), field(word, 4, 0))
    return Step(kind, 0, 0, field(word, 27, 25), field(word, 24, 0))


def walk(words):
    """Question 3 over the whole plan: the decoded transactions, or None at a form fault."""
    transactions = []
    at = 1
    for _ in range(field(words[0], 23, 16)):
        if at >= len(words) or not transaction_well_formed(words[at]):
            return None
        head = words[at]
        steps = words[at + 1 : at + 1 + field(head, 23, 20)]
        if len(steps) != field(head, 23, 20) or not all(step_well_formed(w) for w in steps):
            return None
        steps = tuple(decode_step(w) for w in steps)
        if sum(s.kind == TELL for s in steps) > MOST_TOLD:
            return None
        urgent = field(head, 7, 7) == 1
        transactions.append(Transaction(at, field(head, 27, 24), field(head, 19, 16), field(head, 15, 8), urgent, steps))
        at += 1 + len(steps)
    return transactions if at == len(words) else None


def names_missing(t):
    """Question 4 for one transaction: it names a parameter that it does not have. An open field names none."""
    if t.partition not in (OPEN, NO_PARTITION) and t.partition >= t.params:
        return True
    return any(s.source not in (None, FIXED) and s.source >= t.params for s in t.steps)


def operations(t, step, desks):
    """Parameters by which a step is tried: all rows of the step, and all residues of the partitioning parameter; the other parameters
    change neither the cell nor the desk."""
    rows = [0] if step.source == FIXED else range(ROWS)
    residues = [0] if t.partition in (NO_PARTITION, step.source) else range(desks)
    for row, residue in product(rows, residues):
        params = [0, 0, 0, 0]
        if t.partition != NO_PARTITION:
            params[t.partition] = residue
        if step.source != FIXED:
            params[step.source] = row
        yield params


def desk_of(t, params, desks):
    """The desk of an operation."""
    return 0 if t.partition == NO_PARTITION else params[t.partition] % desks


@lru_cache(maxsize=1024)
def tried(t, desks):
    """What the operations of a transaction may touch and may write, each as pairs of a cell and a desk, by trying them."""
    touched, written = set(), set()
    for step in t.steps:
        if step.kind in (3, 4):
            pairs = {(cell_of(step, params), desk_of(t, params, desks)) for params in operations(t, step, desks)}
            touched |= pairs
            written |= pairs if step.kind == 4 else set()
    return touched, written


class Plan:
    """A plan's verdict (0 if accepted). `form` is that of questions 1 to 4 alone, as the chooser asks them; where it is 0 the desks, the
    transactions and those with an open field are known, and for an accepted plan who may touch and write each cell, by which transactions,
    and which cells two or more desks may touch."""

    def __init__(self, words):
        self.words = list(words)
        self.desks, self.transactions = 0, []
        self.form = self.read()
        self.opened = [t for t in self.transactions if t.partition == OPEN]
        self.verdict = self.form or (17 if self.opened else 0)
        self.touchers = [set() for _ in range(CELLS)]
        self.writers = [set() for _ in range(CELLS)]
        self.touches = [set() for _ in range(CELLS)]
        if self.verdict == 0:
            self.try_operations()
        self.shared = [cell for cell in range(CELLS) if len(self.touchers[cell]) >= 2]

    def read(self):
        words = self.words
        if not 1 <= len(words) <= 417 or field(words[0], 31, 28) != 1 or field(words[0], 15, 0) != len(words):
            return 1
        if not 1 <= field(words[0], 27, 24) <= 8 or not 1 <= field(words[0], 23, 16) <= 32:
            return 2
        transactions = walk(words)
        if transactions is None:
            return 3
        if any(names_missing(t) for t in transactions):
            return 4
        self.desks, self.transactions = field(words[0], 27, 24), transactions
        return 0

    def try_operations(self):
        """Marks each cell with the desks whose operations may touch it, and may write it, and with each operation that may touch it, as its
        desk and its transaction."""
        for number, t in enumerate(self.transactions):
            touched, written = tried(t, self.desks)
            for cell, desk in touched:
                self.touchers[cell].add(desk)
                self.touches[cell].add((desk, number))
            for cell, desk in written:
                self.writers[cell].add(desk)

    def desk_of(self, t, params):
        return desk_of(t, params, self.desks)

    def question_8(self, t, params):
        """Unused parameters are zero, and those used as rows at most 31."""
        if any(params[k] != 0 for k in range(t.params, 4)):
            return False
        return all(params[s.source] <= 31 for s in t.steps if s.kind in (3, 4) and s.source != FIXED)

    def class_of(self, transaction, params):
        """Questions 7 and 8 and the class."""
        if transaction >= len(self.transactions):
            return refused(7)
        t = self.transactions[transaction]
        if not self.question_8(t, params):
            return refused(8)
        desk = self.desk_of(t, params)
        reads = {cell_of(s, params) for s in t.steps if s.kind == 3}
        writes = {cell_of(s, params) for s in t.steps if s.kind == 4}
        if not writes and not any(self.writers[c] for c in reads):
            return ("free",)
        if all(self.touchers[c] <= {desk} for c in writes):
            return ("local", desk)
        return ("global", desk)

    def cause_of(self, transaction, params):
        """What makes an operation global: the lowest cell it may write that another desk may touch, then the lowest such desk, then the
        lowest transaction of that desk with such an operation."""
        t = self.transactions[transaction]
        desk = self.desk_of(t, params)
        writes = {cell_of(s, params) for s in t.steps if s.kind == 4}
        return min((cell, other, number) for cell in writes for other, number in self.touches[cell] if other != desk)

    def urgent_first(self, requests):
        """Waiting requests, each with its transaction in second place: the urgent ones before the others, each sort in the order given."""
        return sorted(requests, key=lambda r: not self.transactions[r[1]].urgent)

    def has_global(self, number):
        """Whether a transaction has some global operation, by trying those of each write step."""
        t = self.transactions[number]
        each = (params for step in t.steps if step.kind == 4 for params in operations(t, step, self.desks))
        return any(self.class_of(number, params)[0] == "global" for params in each)


# ---- Choosing the partitioning


def candidates(t):
    """What an open field can be filled with: one of the transaction's parameters, or none."""
    return [*range(t.params), NO_PARTITION]


def fillings(plan):
    """All that the open fields of a plan can be filled with, as tuples in plan order."""
    return product(*[candidates(t) for t in plan.opened])


def filled(plan, fields):
    """The words of a plan with these fields in its open transactions."""
    words = list(plan.words)
    for t, chosen in zip(plan.opened, fields):
        words[t.place] = words[t.place] & ~(15 << 16) | chosen << 16
    return words


def globals_by_trying(plan):
    """For every filling its fields, and the numbers of the transactions that have some global operation then."""
    for fields in fillings(plan):
        full = Plan(filled(plan, fields))
        yield fields, [number for number in range(len(full.transactions)) if full.has_global(number)]


def step_cells(step):
    """The cells that a read or write step may name, each with its row."""
    return [(step.table * 128 + row * 4 + step.column, row) for row in ([step.fixed] if step.source == FIXED else range(ROWS))]


def desk_masks(t, desks):
    """For each desk the cells that operations of a transaction may touch there, as the bits of a number: without partitioning all at
    desk 0; where the partitioning parameter is the row, each row at the desk of its number; else all at every desk."""
    masks = [0] * desks
    for step in t.steps:
        for cell, row in step_cells(step) if step.kind in (3, 4) else []:
            own = 0 if t.partition == NO_PARTITION else row % desks
            for desk in [own] if t.partition in (NO_PARTITION, step.source) else range(desks):
                masks[desk] |= 1 << cell
    return masks


def write_mask(t):
    """The cells that operations of a transaction may write, as the bits of a number."""
    return reduce(or_, (1 << cell for s in t.steps if s.kind == 4 for cell, _ in step_cells(s)), 0)


def shared_cells(tables):
    """The cells that two or more desks may touch, by masks of some transactions."""
    once = twice = 0
    for masks in zip(*tables):
        cells = reduce(or_, masks)
        twice |= once & cells
        once |= cells
    return twice


def globals_by_masks(plan):
    """The same in less time: a transaction has a global operation exactly if it may write a cell that two or more desks may touch."""
    writes = [write_mask(t) for t in plan.transactions]
    closed = [desk_masks(t, plan.desks) for t in plan.transactions if t.partition != OPEN]
    closed = [reduce(or_, masks) for masks in zip([0] * plan.desks, *closed)]
    opened = [{f: desk_masks(t._replace(partition=f), plan.desks) for f in candidates(t)} for t in plan.opened]
    for fields in fillings(plan):
        shared = shared_cells([closed] + [tables[f] for tables, f in zip(opened, fields)])
        yield fields, [number for number, cells in enumerate(writes) if cells & shared]


def costs(plan, globals_by):
    """The cost of every filling, with its fields: the weights of all transactions that have some global operation then."""
    weights = [t.weight for t in plan.transactions]
    return [(sum(weights[number] for number in numbers), fields) for fields, numbers in globals_by(plan)]


# ---- Running a transaction


def cell_of(step, params):
    """The cell of a read or write step."""
    row = step.fixed if step.source == FIXED else params[step.source]
    return step.table * 128 + row * 4 + step.column


def act(kind, number, operand):
    """The working number after a set, add, need or take step, or None if the step declines the run: a need that is not met, and an add or a
    take whose result is no word."""
    after = {5: operand, 6: number + operand, 7: number, 8: number - operand}[kind]
    return after if 0 <= after < WORD and (kind != 7 or number >= operand) else None


def run(t, params, book):
    """One run: whether done, the working number at the end or before the step that declines, the numbers told so far, the update, and the
    set, add, need and take steps that were come to, each its kind, the number before it and the operand. The book is only read."""
    number, told, update, acts = 0, [], [], []
    for s in t.steps:
        if s.kind == 3:
            cell = cell_of(s, params)
            number = next((v for c, v in reversed(update) if c == cell), book[cell])
        elif s.kind == 4:
            update.append((cell_of(s, params), number))
        elif s.kind == TELL:
            told.append(number)
        else:
            acts.append((s.kind, number, s.fixed if s.source == FIXED else params[s.source]))
            after = act(*acts[-1])
            if after is None:
                return Run(False, number, told, [], acts)
            number = after
    return Run(True, number, told, update, acts)


def reply_of(result):
    """The reply of a run: whether done, the number, and the four told words, zero where untold."""
    return (result.done, result.number, *result.told, *[0] * (MOST_TOLD - len(result.told)))


def apply_update(update, book):
    for cell, value in update:
        book[cell] = value


# ---- Frames


def sums(words):
    first = second = 0
    for w in words:
        first = (first + w) % WORD
        second = (second + first) % WORD
    return first, second


def seal(words):
    """The words with both sums after them."""
    return words + list(sums(words))


def write_frame(desk, visit, updates):
    """The frame of a visit; updates are (desk, [(cell, value)])."""
    words = [0, visit]
    for d, update in updates:
        words.append((10 << 28) | (d << 24) | (len(update) << 20))
        for cell, value in update:
            words += [(11 << 28) | cell, value]
    words[0] = (9 << 28) | (desk << 24) | (len(words) + 2)
    return seal(words)


STARTING_FRAME = write_frame(0, 0, [])


def updates_of(words):
    """The updates between word 2 and the sums as (desk, update), or None where they are not well formed."""
    updates, at = [], 0
    while at < len(words):
        head = words[at]
        count = field(head, 23, 20)
        if field(head, 31, 28) != 10 or count > 12 or field(head, 19, 0) != 0:
            return None
        pairs = words[at + 1 : at + 1 + 2 * count]
        if len(pairs) != 2 * count:
            return None
        if any(field(w, 31, 28) != 11 or field(w, 27, 10) != 0 for w in pairs[0::2]):
            return None
        updates.append((field(head, 27, 24), [(field(c, 9, 0), v) for c, v in zip(pairs[0::2], pairs[1::2])]))
        at += 1 + 2 * count
    return updates


def frame_verdict(desks, frame):
    """Questions 10 to 12, 0 if all are answered with yes."""
    if not 4 <= len(frame) <= OUTGOING:
        return 10
    if field(frame[0], 31, 28) != 9 or field(frame[0], 23, 16) != 0 or field(frame[0], 15, 0) != len(frame):
        return 10
    if tuple(frame[-2:]) != sums(frame[:-2]):
        return 11
    updates = updates_of(frame[2:-2])
    if updates is None or field(frame[0], 27, 24) != frame[1] % desks:
        return 12
    per_desk = [d for d, _ in updates]
    if any(d >= desks or per_desk.count(d) > 32 for d in set(per_desk)):
        return 12
    return 0


# ---- The calls


def read_plan(plan):
    return refused(plan.verdict) if plan.verdict else ("accepted",)


def choose(words):
    """The chooser: fills the open fields of the lent words so that the cost is the least, and among equals the fields the smallest in
    plan order. Every filling is tried; operations are tried where few fields are open, for the time that it takes."""
    plan = Plan(words)
    question = plan.form or (16 if len(plan.opened) > MOST_OPEN else 0)
    if question:
        return refused(question)
    cost, fields = min(costs(plan, globals_by_trying if len(plan.opened) <= MOST_TRIED else globals_by_masks))
    words[:] = filled(plan, fields)
    return ("chosen", cost)


def classify(plan, transaction, params):
    """The class; beside that of a global operation its cause."""
    found = refused(plan.verdict) if plan.verdict else plan.class_of(transaction, params)
    return (*found, *plan.cause_of(transaction, params)) if found[0] == "global" else found


def new_desk(plan, desk):
    if plan.verdict:
        return refused(plan.verdict)
    return ("opened", Desk(desk, 0, desk)) if desk < plan.desks else refused(6)


def starting_frame(out):
    if len(out) < 4:
        return refused(5)
    out[:4] = STARTING_FRAME
    return ("written",)


def frame_visit(plan, frame):
    """The frame reader's second call. The first gives `frame[2:-2]`, or nothing where this one refuses."""
    question = plan.verdict or frame_verdict(plan.desks, frame)
    return refused(question) if question else ("visit", frame[1])


def question_6(plan, state, row):
    """Whether the state is fit."""
    if state.desk >= plan.desks or state.waiting > 32 or state.awaited % plan.desks != state.desk:
        return False
    waiting = row[: state.waiting]
    return all(plan.class_of(r[1], r[2:6]) == ("global", state.desk) for r in waiting) and waiting == plan.urgent_first(waiting)


def request(plan, state, book, row, client, transaction, params):
    """A request: the answer and the state after it."""
    if plan.verdict:
        return refused(plan.verdict), state
    if len(book) != CELLS or len(row) != ROWS:
        return refused(5), state
    if not question_6(plan, state, row):
        return refused(6), state
    found = plan.class_of(transaction, params)
    if found[0] == "refused":
        return found, state
    if found[0] != "free" and found[1] != state.desk:
        return ("elsewhere", found[1]), state
    if found[0] != "global":
        result = run(plan.transactions[transaction], params, book)
        apply_update(result.update, book)
        return ("replied", *reply_of(result)), state
    if state.waiting >= 32:
        return refused(9), state
    waiting = [*row[: state.waiting], Request(client, transaction, *params)]
    row[: len(waiting)] = plan.urgent_first(waiting)
    return ("waits",), state._replace(waiting=len(waiting))


def visit_question(plan, state, book, bulletin, row, frame, out, replies):
    """The questions of a visit, 0 if all are answered with yes."""
    if plan.verdict:
        return plan.verdict
    if len(book) != CELLS or len(bulletin) != CELLS or len(row) != ROWS or len(out) < OUTGOING or len(replies) < REPLIES:
        return 5
    if not question_6(plan, state, row):
        return 6
    if frame_verdict(plan.desks, frame):
        return frame_verdict(plan.desks, frame)
    if field(frame[0], 27, 24) != state.desk:
        return 13
    if frame[1] != state.awaited:
        return 14
    return 0 if frame[1] < WORD - 1 else 15


def visit(plan, state, book, bulletin, row, frame, out, replies):
    """A visit: the answer and the state after it. The bulletin is set before anything else."""
    question = visit_question(plan, state, book, bulletin, row, frame, out, replies)
    if question:
        return refused(question), state
    for cell in plan.shared:
        bulletin[cell] = book[cell]
    updates = [u for u in updates_of(frame[2:-2]) if u[0] != state.desk]
    for _, update in updates:
        apply_update(update, book)
    said = []
    for r in row[: state.waiting]:
        result = run(plan.transactions[r[1]], r[2:6], book)
        apply_update(result.update, book)
        updates.append((state.desk, result.update))
        done, *numbers = reply_of(result)
        said += [(12 << 28) | int(done), r[0], *numbers]
    words = write_frame((frame[1] + 1) % plan.desks, frame[1] + 1, updates)
    out[: len(words)] = words
    replies[: len(said)] = said
    return ("passed", len(words), state.waiting), Desk(state.desk, 0, frame[1] + plan.desks)


# ---- The serial run


class Serial:
    """The serial run of a history, told of each accepted call. An operation is (name, transaction, params); names are the caller's. What
    waits at a desk is noted by arrival. Of the accepted visits it is noted how many globals the first k of them finished, and of each desk
    its latest visit."""

    def __init__(self, plan):
        self.plan = plan
        self.arrived = [[] for _ in range(plan.desks)]
        self.g = [0] * plan.desks
        self.globals = 0
        self.finished = []
        self.latest = 0
        self.globals_by, self.latest_visits = [0], [None] * plan.desks

    def accepted_request(self, desk, name, transaction, params):
        found = self.plan.class_of(transaction, params)
        if found[0] == "free" or found == ("local", desk):
            key = (self.g[desk], 1, desk, len(self.finished))
            self.finished.append((key, name, transaction, params))
        elif found == ("global", desk):
            self.arrived[desk].append((name, transaction, params))

    def line(self, desk):
        """What waits at a desk, in the order in which its next visit finishes it: what is urgent, then what is not."""
        return [r for urgent in (True, False) for r in self.arrived[desk] if self.plan.transactions[r[1]].urgent == urgent]

    def accepted_visit(self, desk, number):
        """Gives the names of what the visit of this number finishes, in the order of its replies."""
        line, self.arrived[desk] = self.line(desk), []
        for name, transaction, params in line:
            self.globals += 1
            self.finished.append(((self.globals, 0, 0, 0), name, transaction, params))
        self.g[desk] = self.globals
        self.latest = desk
        self.globals_by.append(self.globals)
        self.latest_visits[desk] = number
        return [name for name, _, _ in line]

    def end(self, book):
        """The replies due by name, the cells' serial values, from the starting book, and the books behind no global, the first, the second
        and so on: the serial order up to and with it, local and free runs before it included."""
        book, due, cuts = list(book), {}, [list(book)]
        for key, name, transaction, params in sorted(self.finished):
            result = run(self.plan.transactions[transaction], params, book)
            apply_update(result.update, book)
            due[name] = reply_of(result)
            if key[1] == 0:
                cuts.append(list(book))
        return due, book, cuts

    def shown(self, desk):
        """The visits and the globals that a desk's bulletin shows: those of all visits up to and with the one a round before its latest."""
        latest = self.latest_visits[desk]
        visits = 0 if latest is None else max(0, latest + 1 - self.plan.desks)
        return visits, self.globals_by[visits]

    def desk_with(self, cell):
        """The desk in whose book a cell has its serial value."""
        if len(self.plan.touchers[cell]) == 1:
            return next(iter(self.plan.touchers[cell]))
        return self.latest
