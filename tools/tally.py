"""Counts what occurs in random histories, and says what must occur in 500 of them."""

from collections import Counter, defaultdict

from causes import KINDS, Case, is_right, kinds, ranges
from choices import Choice, same_by_masks
from model import ACTS, CELLS, FIXED, MOST_OPEN, MOST_TOLD, NO_PARTITION, OUTGOING, REPLY_WORDS, ROWS, WORD
from model import apply_update, cell_of, field, reply_of, run, updates_of
from plans import MOST_FIXED, TELL_WORD, step_places

TOLD = ["one number", "two numbers", "three numbers", "four numbers"]
# What is counted, each at least 50 times in 500 histories, or as LEAST says; what is seen, each so many numbers; the largest numbers, each
# so large.
COUNTS = ["histories", "with the premise", "without the premise", "calls", "histories on a chosen plan", "choices"]
COUNTS += ["choices with %d open" % count for count in range(MOST_OPEN + 1)]
COUNTS += ["choices of none", "choices of a parameter above 0", "choices among equals", "choices that cost more field by field"]
COUNTS += ["choices that cost more with the rest left out", "choices where plan order decides"]
COUNTS += ["calls on an open plan", "faults beside open fields"]
FAULTS = ["faults by %d beside open fields" % q for q in range(1, 5)] + ["faults by %d beside seven open fields" % q for q in range(1, 5)]
COUNTS += FAULTS + ["free runs", "local runs", "waits", "elsewhere"]
COUNTS += ["declined at a request", "declined at a visit"]
STOPS = {6: "add", 7: "need", 8: "take"}
# Adds and takes of more than 0, by kind and by how far the result is past the largest word or below 0.
ENDS = {(6, 0): "adds to 4294967295", (6, 1): "adds to one past it", (8, 0): "takes to 0", (8, 1): "takes to one below it"}
COUNTS += ["declined by " + stop + where for stop in STOPS.values() for where in ("", " at a visit", " between writes", " after telling")]
COUNTS += [*ENDS.values(), "runs that told", "declined after telling", "runs that told at a visit"]
COUNTS += ["told %s" % count for count in TOLD] + ["visits accepted", "visits with several replies"]
COUNTS += ["operations finished by visits", "changed frames accepted"] + ["refused by %d" % q for q in range(1, 18)]
# What is held to the serial run; it is written last.
CHECKED = ["serial replies checked", "serial cells checked", "waiting records checked", "rows of both sorts checked"]
CHECKED += ["histories with bulletins checked", "histories with a visit shown"]
CHECKED += ["histories with a global shown", "bulletins checked", "bulletins that show a visit", "bulletins that show a global"]
CHECKED += ["bulletin cells checked", "shared bulletin cells checked", "shared bulletin cells unlike the book"]
CHECKED += ["shared bulletin cells unlike the starting book"]
COUNTS += ["histories with other bulletins", "bulletins of a wrong size", "visits that changed a bulletin cell"]
COUNTS += ["visits that changed many bulletin cells", "visits that left an unshared bulletin cell unlike the book"]
COUNTS += ["urgent transactions in plans", "urgent requests that wait", "urgent requests that moved others"]
COUNTS += ["urgent requests at once", "urgent requests elsewhere", "urgent requests refused by 9", "others that wait behind urgent ones"]
COUNTS += ["visits that ran both sorts", "urgent runs at a visit", "urgent runs declined at a visit", "rows refused for their order alone"]
COUNTS += ["classifications", "classifications refused", "classified as free", "classified as local", "classified as global", *KINDS]
COUNTS += CHECKED
LEAST = {"choices that cost more with the rest left out": 10, "choices where plan order decides": 20}
LEAST.update({"declined by add": 300, "declined by take": 300, "histories with other bulletins": 25})
LEAST.update({"visits that changed a bulletin cell": 500, "visits that left an unshared bulletin cell unlike the book": 500})
LEAST.update({"histories with a global shown": 100, "bulletins that show a global": 300, "shared bulletin cells checked": 10000})
LEAST.update({"shared bulletin cells unlike the book": 500, "shared bulletin cells unlike the starting book": 1000})
LEAST.update({name: 5 if "seven" in name else 10 for name in FAULTS})
LEAST.update({"classifications": 4000, "classified as local": 500, "classified as global": 2000})
RANGES = {name + where: count for where in (" in plans", " in runs") for name, count in (("tables", 8), ("columns", 4), ("rows", ROWS))}
RANGES.update({"low bits of damaged transactions": 7, "fields of damaged transactions": 10, "places of urgent requests": ROWS})
RANGES.update({"tables in causes": 8, "columns in causes": 4, "rows in causes": ROWS, "first and last cells in causes": 2})
RANGES.update({"desks in causes": 8, "transactions in causes": 32})
LARGEST = {"largest fixed number in plans": MOST_FIXED, "largest fixed number in runs": MOST_FIXED}
LARGEST.update({"largest cell in an accepted forged frame": CELLS - 1, "longest frame taken": OUTGOING, "longest frame sent": OUTGOING})
LARGEST["highest visit accepted with the premise"] = 1 << 16
LARGEST["most tells in a transaction of a damaged plan"] = MOST_TOLD + 1
LARGEST["most others moved by an urgent request"] = ROWS - 1
LARGEST.update({"largest weight in plans": 255, "highest cost of a choice": 1 << 10, "most fillings of a choice": 1 << 10})


class Difference(Exception):
    """A history in which the model and the serial run differ, or a script that is not as it must be."""


class Tally:
    """What occurred in all histories."""

    def __init__(self):
        self.counts, self.seen = Counter(), defaultdict(set)

    def step(self, step, where, row):
        """Notes a step in plans or in runs, with its row, if it has one."""
        if step.kind in (3, 4):
            for name, number in (("tables", step.table), ("columns", step.column), ("rows", row)):
                self.seen[name + where] |= {number} - {None}
        elif step.source == FIXED:
            self.seen["largest fixed number" + where].add(step.fixed)

    def plan(self, plan):
        """Notes a plan that is accepted."""
        self.seen["largest weight in plans"] |= {t.weight for t in plan.transactions}
        self.counts["urgent transactions in plans"] += sum(t.urgent for t in plan.transactions)
        for step in (s for t in plan.transactions for s in t.steps):
            self.step(step, " in plans", step.fixed if step.source == FIXED else None)
        self.compare(plan.words)

    def compare(self, words):
        """Compares trying operations with masks on the words of a plan that is accepted."""
        if not same_by_masks(tuple(words)):
            raise Difference("trying operations and masks differ on what is global or shared")

    def choice(self, plan, cost, words):
        """Notes an accepted choice, with the plan before it, its cost and the words after it."""
        choice = Choice(plan, cost, words)
        if (choice.costs[choice.fields], choice.fields) != (cost, choice.best()[0]):
            raise Difference("a choice is not the best by masks")
        self.compare(words)
        chosen = [f for f, t in zip(choice.fields, plan.opened) if t.params]
        self.counts["choices"] += 1
        self.counts["choices with %d open" % len(plan.opened)] += 1
        self.counts["choices of none"] += NO_PARTITION in chosen
        self.counts["choices of a parameter above 0"] += any(0 < f < NO_PARTITION for f in chosen)
        self.counts["choices among equals"] += len(choice.best()) > 1
        self.counts["choices that cost more field by field"] += choice.costs_more_field_by_field()
        self.counts["choices that cost more with the rest left out"] += choice.costs_more_without_the_rest()
        self.counts["choices where plan order decides"] += choice.plan_order_decides()
        self.seen["highest cost of a choice"].add(cost)
        self.seen["most fillings of a choice"].add(len(choice.costs))

    def classification(self, plan, transaction, params, answer):
        """Notes a classification, which must be right by masks, and of what kind its cause is."""
        self.counts["classifications"] += 1
        self.counts["classifications refused" if answer[0] == "refused" else "classified as " + answer[0]] += 1
        if answer[0] != "refused" and not is_right(plan, transaction, params, answer):
            raise Difference("a class or a cause is not right by masks")
        if answer[0] == "global":
            case = Case(plan, transaction, params, answer)
            self.counts.update(kinds(case))
            for name, number in ranges(case):
                self.seen[name].add(number)

    def damaged(self, words):
        """Notes how many steps of a transaction tell, in the words of a plan that is refused."""
        tells = [words[places.start : places.stop].count(TELL_WORD) for places in step_places(words)]
        self.seen["most tells in a transaction of a damaged plan"].add(max(tells, default=0))

    def fault(self, question, opened):
        """Notes a plan that is refused by this question, with so many open fields beside the fault."""
        self.counts["faults beside open fields"] += opened > 0
        self.counts["faults by %d beside open fields" % question] += opened > 0
        self.counts["faults by %d beside seven open fields" % question] += opened > MOST_OPEN

    def damaged_transaction(self, word):
        """Notes the word of a transaction that has one of its lowest seven bits set, or a field 4 to 13."""
        self.seen["low bits of damaged transactions"] |= {bit for bit in range(7) if word >> bit & 1}
        self.seen["fields of damaged transactions"] |= {field(word, 19, 16)} & set(range(4, 14))

    def run(self, t, params, book, reply, where):
        """Notes a run with its reply. It is run again on the book before it, for a reply says neither whether a 0 was told nor which step
        declined. If it was done, all of its steps ran."""
        result = run(t, params, book)
        apply_update(result.update, book)
        if reply_of(result) != tuple(reply):
            raise Difference("a run has another reply when it is run again")
        for step in t.steps if result.done else []:
            self.step(step, " in runs", cell_of(step, params) % 128 // 4 if step.kind in (3, 4) else None)
        self.counts["declined at a " + where] += not result.done
        self.counts["urgent runs at a " + where] += t.urgent
        self.counts["urgent runs declined at a " + where] += t.urgent and not result.done
        self.acts(t, result, where)
        if result.told:
            self.counts["runs that told"] += 1
            self.counts["runs that told at a " + where] += 1
            self.counts["declined after telling"] += not result.done
            self.counts["told " + TOLD[len(result.told) - 1]] += 1

    def acts(self, t, result, where):
        """Notes by which step a run was declined, and adds and takes at the two ends of a word."""
        for kind, number, operand in result.acts:
            past = {6: number + operand - WORD + 1, 8: operand - number}.get(kind)
            if operand and (kind, past) in ENDS:
                self.counts[ENDS[kind, past]] += 1
        if not result.done:
            stop = [k for k, s in enumerate(t.steps) if s.kind in ACTS][len(result.acts) - 1]
            name = "declined by " + STOPS[t.steps[stop].kind]
            self.counts[name] += 1
            self.counts[name + " at a visit"] += where == "visit"
            self.counts[name + " between writes"] += all(any(s.kind == 4 for s in part) for part in (t.steps[:stop], t.steps[stop:]))
            self.counts[name + " after telling"] += result.told != []

    def request(self, plan, transaction, params, answer, book):
        """Notes a request that was not refused, with the desk's book before it."""
        if answer[0] != "replied":
            self.counts[answer[0]] += 1
            return
        self.counts[plan.class_of(transaction, params)[0] + " runs"] += 1
        self.run(plan.transactions[transaction], params, book, answer[1:], "request")

    def request_by_sort(self, plan, transaction, answer, waiting):
        """Notes what became of a request by its sort, with the records that waited before it; refused it may be by question 9 alone."""
        before = sum(plan.transactions[r.transaction].urgent for r in waiting)
        if not plan.transactions[transaction].urgent:
            self.counts["others that wait behind urgent ones"] += answer[0] == "waits" and before > 0
            return
        cases = {"replied": "at once", "elsewhere": "elsewhere", "refused": "refused by 9", "waits": "that wait"}
        self.counts["urgent requests " + cases[answer[0]]] += 1
        if answer[0] == "waits":
            self.counts["urgent requests that moved others"] += before < len(waiting)
            self.seen["places of urgent requests"].add(before)
            self.seen["most others moved by an urgent request"].add(len(waiting) - before)

    def of_both_sorts(self, plan, records):
        return len({plan.transactions[r.transaction].urgent for r in records}) > 1

    def checked_row(self, plan, waiting):
        """Notes a row that was held to the serial run."""
        self.counts["waiting records checked"] += len(waiting)
        self.counts["rows of both sorts checked"] += self.of_both_sorts(plan, waiting)

    def bulletins(self, bulletins):
        """Notes the bulletins of a history, which were held to the serial run: of each how many visits it shows with how many globals, and
        its shared cells, each as it is in the bulletin, in the book and in the starting book."""
        self.counts["histories with bulletins checked"] += 1
        self.counts["histories with a visit shown"] += any(visits > 0 for visits, _, _ in bulletins)
        self.counts["histories with a global shown"] += any(count > 0 for _, count, _ in bulletins)
        for visits, count, cells in bulletins:
            self.counts["bulletins checked"] += 1
            self.counts["bulletins that show a visit"] += visits > 0
            self.counts["bulletins that show a global"] += count > 0
            self.counts["bulletin cells checked"] += CELLS
            self.counts["shared bulletin cells checked"] += len(cells)
            self.counts["shared bulletin cells unlike the book"] += sum(shown != held for shown, held, _ in cells)
            self.counts["shared bulletin cells unlike the starting book"] += sum(shown != first for shown, _, first in cells)

    def visit(self, plan, call, holding, book, changed):
        """Notes an accepted visit, with its desk after it and the book before it, and whether its frame was one that no desk had sent."""
        self.counts["visits accepted"] += 1
        self.counts["visits that changed a bulletin cell"] += len(call.shown) > 0
        self.counts["visits that changed many bulletin cells"] += len(call.shown) > 24
        unshared = set(range(CELLS)).difference(plan.shared)
        self.counts["visits that left an unshared bulletin cell unlike the book"] += any(holding.bulletin[c] != book[c] for c in unshared)
        self.counts["visits with several replies"] += call.answer[2] > 1
        self.counts["visits that ran both sorts"] += self.of_both_sorts(plan, holding.row[: call.answer[2]])
        self.counts["operations finished by visits"] += call.answer[2]
        for desk, update in updates_of(call.words[2:-2]):
            apply_update(update if desk != holding.state.desk else [], book)
        for k in range(call.answer[2]):
            record, (first, _, *numbers) = holding.row[k], call.replies[k * REPLY_WORDS : (k + 1) * REPLY_WORDS]
            self.run(plan.transactions[record.transaction], record[2:6], book, [first == 12 << 28 | 1, *numbers], "visit")
        self.seen["longest frame taken"].add(len(call.words))
        self.seen["longest frame sent"].add(len(call.out))
        self.counts["changed frames accepted"] += changed
        if changed:
            cells = {cell for _, update in updates_of(call.words[2:-2]) for cell, _ in update}
            self.seen["largest cell in an accepted forged frame"] |= cells

    def lines(self):
        """All that was counted and seen, one a line."""
        lines = ["%s %d" % (name, self.counts[name]) for name in COUNTS]
        ranges = ["%s %d of %d" % (name, len(self.seen[name]), count) for name, count in RANGES.items()]
        largest = ["%s %d" % (name, max(self.seen[name], default=0)) for name in LARGEST]
        return lines[: -len(CHECKED)] + ranges + largest + lines[-len(CHECKED) :]

    def check(self):
        """Raises an exception if something is rare or a range was not reached."""
        rare = [name for name in COUNTS if self.counts[name] < LEAST.get(name, 50)]
        rare += [name for name, count in RANGES.items() if len(self.seen[name]) < count]
        rare += [name for name, number in LARGEST.items() if max(self.seen[name], default=0) < number]
        if rare:
            raise Difference("too few: " + ", ".join(rare))
