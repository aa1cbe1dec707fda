"""The script language of docs/SCRIPT.md over the plain model of model.py: python3 tools/script.py < script > answers

A line is read whole before anything is done, so a line with a fault changes nothing. A call is lent copies, cut to what `lend` says;
afterwards they are compared with what was there before, and the answer names each difference.
"""

import re
import sys
from collections import Counter, namedtuple
from functools import lru_cache

import model
from model import CELLS, FIXED, NO_PARTITION, OPEN, OUTGOING, REPLIES, REPLY_WORDS, ROWS, TELL, WORD, Desk, Plan, Request, field, sums

SLOTS, KEPT_FRAMES, MOST_PASSES, MOST_WORDS, LONGEST_LINE, HIGHEST = 8, 64, 1000000, 6420, 65536, WORD - 1
FIT = {b"book": CELLS, b"bulletin": CELLS, b"row": ROWS, b"out": OUTGOING, b"replies": REPLIES}
HELD = {b"book": 1040, b"bulletin": 1040, b"row": 33, b"out": MOST_WORDS, b"replies": 240}
MARKS = [0xF0F00000 + i for i in range(MOST_WORDS)]
VERBS = {3: "read", 4: "write", 5: "set", 6: "add", 7: "need", 8: "take"}
QUESTIONS = {
    1: "no head of kind 1 with the count of the words, 1 to 417",
    2: "desks or transactions out of range",
    3: "a word out of place or range, a bit that must be zero, or a fifth tell",
    4: "a parameter that the transaction does not have",
    5: "a buffer of the wrong size",
    6: "a state or waiting records that do not fit this desk",
    7: "no such transaction",
    8: "a row above 31 or an unused parameter that is not zero",
    9: "32 wait already",
    10: "no frame of 4 to 6404 words with its head and its count",
    11: "a sum is wrong",
    12: "a wrong desk addressed, or updates that are not well formed",
    13: "addressed to another desk",
    14: "not the visit that this desk awaits",
    15: "the last visit number",
    16: "more than six open fields",
    17: "a partitioning field is open",
}

# What a call was, at which desk, the plan, frame or operation handed in, the model's answer, and what an accepted call wrote; of a visit
# also which cells of the bulletin it changed.
Call = namedtuple("Call", "kind desk words answer out replies shown", defaults=(None, None, ()))


@lru_cache(maxsize=32)
def plan_of(words):
    """The plan of a tuple of words. Reading one takes time, so the latest are kept."""
    return Plan(words)


@lru_cache(maxsize=1024)
def choice_of(words):
    """The chooser's answer to a tuple of words, and the words after it. Trying every filling takes time, so the latest are kept."""
    lent = list(words)
    return model.choose(lent), tuple(lent)


# ---- Reading a line


class Fault(Exception):
    """What is wrong with a line, and where."""


def number_in(word, most):
    """The decimal number that a word is, or None where it is none or above `most`."""
    digits = word.lstrip(b"0") or b"0"
    return int(digits) if word.isdigit() and len(digits) <= 20 and int(digits) <= most else None


class Line:
    """The words of a line, taken from left to right. `at` is the number of the word looked at last, counted from 1."""

    def __init__(self, words):
        self.words, self.at = words, 0

    def need(self, good, text):
        if not good:
            raise Fault(", word %d: %s" % (self.at, text))

    def more(self):
        return self.at < len(self.words)

    def take(self):
        """The next word, empty where there is none."""
        self.at += 1
        return self.words[self.at - 1] if self.at <= len(self.words) else b""

    def end(self):
        self.need(self.take() == b"", "nothing more is expected")

    def number(self, most):
        number = number_in(self.take(), most)
        self.need(number is not None, "a number from 0 to %d is expected" % most)
        return number

    def named_number(self, name, most=HIGHEST):
        self.need(self.take() == name.encode(), name + " is expected")
        return self.number(most)

    def operation(self):
        """A transaction and as many parameters as are written, which end the line: its text, its number and four parameters."""
        word, params = self.take(), []
        transaction = number_in(word[1:], HIGHEST) if word.startswith(b"T") else None
        self.need(transaction is not None, "a transaction is expected, as T0")
        while self.more() and len(params) < 4:
            params.append(self.number(HIGHEST))
        self.end()
        return operation_text(transaction, params), transaction, params + [0] * (4 - len(params))

    def hexadecimal(self, word):
        self.need(re.fullmatch(rb"[0-9A-Fa-f]{1,8}", word), "a word of 1 to 8 hexadecimal digits is expected")
        return int(word, 16)

    def change(self, form, words):
        """Changes words by a form that was taken, if it is not one that puts others in their place."""
        no_such = "there are no such words"
        if form == b"word":
            at = self.number(MOST_WORDS)
            self.need(at < len(words), no_such)
            words[at] = self.hexadecimal(self.take())
        elif form == b"cut":
            count = self.number(MOST_WORDS)
            self.need(count <= len(words), no_such)
            del words[len(words) - count :]
        elif form == b"sums":
            self.need(len(words) >= 2, no_such)
            words[-2:] = sums(words[:-2])
        elif form == b"seal":
            words += sums(words)
        elif form.startswith(b"*"):
            count, slash, period = form[1:].partition(b"/")
            count, period = number_in(count, MOST_WORDS), number_in(period if slash else b"1", MOST_WORDS)
            self.need(count is not None and period is not None, "a number from 0 to %d is expected" % MOST_WORDS)
            self.need(count == 0 or 1 <= period <= len(words), no_such)
            for _ in range(count):
                words.append(words[-period])
        else:
            words.append(self.hexadecimal(form))
        self.need(len(words) <= MOST_WORDS, "more than %d words" % MOST_WORDS)


# ---- Texts


def counted(number, name):
    return "%d %s" % (number, name if number == 1 else name + "s")


def words_text(words):
    """How many, and the words; of more than 16 the two sums of all but the last two, and these."""
    text = counted(len(words), "word")
    if len(words) > 16:
        return text + ", sums %08X %08X, then %08X %08X" % (*sums(words[:-2]), *words[-2:])
    return text + (": " + " ".join("%08X" % w for w in words) if words else "")


def operation_text(transaction, params):
    return "T%d(%s)" % (transaction, ", ".join(str(p) for p in params))


def record_text(record):
    return "client %d %s" % (record[0], operation_text(record[1], record[2:]))


def state_text(slot, state):
    text = "%d waiting, awaits visit %d" % (state.waiting, state.awaited)
    return text + (", as desk %d" % state.desk if state.desk != slot else "")


def refusal_text(question):
    return "refused %d: %s" % (question, QUESTIONS[question])


def plan_text(plan):
    """What the line of the plan reader begins with, and what the plan reader says."""
    words = counted(len(plan.words), "word")
    if plan.verdict:
        return "plan of " + words, refusal_text(plan.verdict)
    return "plan", "accepted, %s, %s, %s" % (counted(plan.desks, "desk"), counted(len(plan.transactions), "transaction"), words)


def partition_text(partition):
    return {OPEN: "open", NO_PARTITION: "by none"}.get(partition, "by p%d" % partition)


def choice_text(plan, words):
    """What the words of a plan are now, where they are others than before: transactions with their fields, then how many others."""
    text = ""
    changed = {k for k, word in enumerate(words) if word != plan.words[k]}
    for number, t in enumerate(plan.transactions):
        if t.place in changed:
            by = partition_text(field(words[t.place], 19, 16))
            text += "; T%d %s, word %d is now %08X" % (number, by, t.place, words[t.place])
    others = len(changed - {t.place for t in plan.transactions})
    return text + ("; %s changed" % counted(others, "other word") if others else "")


def changed_words_text(plan, words):
    """How many words of a plan a refusal changed; it may change none."""
    changed = sum(word != other for word, other in zip(words, plan.words))
    return ": %s changed" % counted(changed, "other word") if changed else ""


def transaction_text(number, t):
    """A transaction as `show plan` has it."""
    by = "" if t.partition == NO_PARTITION else " " + partition_text(t.partition)
    rest = (", weight %d" % t.weight if t.weight else "") + (", urgent" if t.urgent else "")
    name = operation_text(number, ["p%d" % k for k in range(t.params)])
    return "%s%s%s: %s" % (name, by, rest, "; ".join(step_text(s) for s in t.steps))


def step_text(step):
    if step.kind == TELL:
        return "tell"
    source = "%d" % step.fixed if step.source == FIXED else "p%d" % step.source
    place = "table %d column %d row " % (step.table, step.column) if step.kind in (3, 4) else ""
    return "%s %s%s" % (VERBS[step.kind], place, source)


def class_text(case, desk=None, *cause):
    """A class, with its desk unless it is free, and of a global operation the cause."""
    text = case + (" at desk %d" % desk if case in ("local", "global") else "")
    return text + (": it may write cell %d, which T%d of desk %d may touch" % (cause[0], cause[2], cause[1]) if cause else "")


def reply_text(case, number, *told):
    """A reply; its four told words are written if one of them is not zero."""
    return "%s, %d" % (case, number) + (", told %d %d %d %d" % told if any(told) else "")


def replies_text(replies):
    count = len(replies) // REPLY_WORDS
    text = "1 reply" if count == 1 else "%d replies" % count
    for k in range(count):
        first, client, *numbers = replies[k * REPLY_WORDS : (k + 1) * REPLY_WORDS]
        case = {0xC0000001: "done", 0xC0000000: "declined"}.get(first, "word %08X" % first)
        text += ", client %d %s" % (client, reply_text(case, *numbers))
    return text


def others_text(*buffers):
    """How many words of buffers are no longer their marks, from behind the words that were written at the beginning of each."""
    others = 0
    for buffer, written in buffers:
        if buffer[written:] != MARKS[written : len(buffer)]:
            others += sum(buffer[i] != MARKS[i] for i in range(written, len(buffer)))
    return "; %s changed" % counted(others, "other word") if others else ""


# ---- The interpreter


def changed_cells(held, lent):
    """The cells of a book or a bulletin that are others in what a call was lent than in what is held."""
    return [] if lent == held[: len(lent)] else [c for c in range(len(lent)) if lent[c] != held[c]]


def take_cells(held, lent, name):
    """Takes back the cells that a call was lent, and says by their name which are others than before."""
    cells = changed_cells(held, lent)
    held[: len(lent)] = lent
    if len(cells) > 24:
        return "; %d %ss changed, sums %08X %08X" % (len(cells), name, *sums(held))
    return "".join("; %s %d is now %d" % (name, c, lent[c]) for c in cells)


class Holding:
    """A desk that is made."""

    def __init__(self, state):
        self.state, self.book, self.bulletin = state, [0] * HELD[b"book"], [0] * HELD[b"bulletin"]
        self.row = [Request(0, 0, 0, 0, 0, 0)] * HELD[b"row"]

    def take_back(self, slot, book, bulletin, row, state):
        """Takes back what a call was lent, and says what is another than before."""
        text = take_cells(self.book, book, "cell") + take_cells(self.bulletin, bulletin, "bulletin cell")
        for i, record in enumerate(row):
            if record != self.row[i]:
                self.row[i] = record
                text += "; record %d is now %s" % (i, record_text(record))
        if state != self.state:
            self.state = state
            text += "; " + state_text(slot, state)
        return text


class Interpreter:
    """Reads a script in any pieces and hands its answers to `write`, as bytes. A method do_NAME is the command NAME."""

    def __init__(self, write):
        self.write, self.rest, self.parts, self.lines, self.bad = write, b"", [], 0, 0
        self.counts, self.refusals = Counter(), Counter()
        self.do_reset(Line([]))

    # Lines

    def feed(self, data):
        *whole, self.rest = (self.rest + data).split(b"\n")
        for text in whole:
            self.lines += 1
            joined = text.endswith(b"\\")
            self.parts.append(text[:-1] + b" " if joined else text)
            if not joined:
                self.run_joined()

    def line(self, text):
        self.feed((text.encode() if isinstance(text, str) else text) + b"\n")

    def end(self):
        if self.rest:
            self.lines += 1
            self.parts.append(self.rest)
        if self.parts:
            self.run_joined()
        self.write_counts()

    def run_joined(self):
        """Runs the line that the parts make together; its number is that of the first."""
        text, number, self.parts = b"".join(self.parts), self.lines - len(self.parts) + 1, []
        try:
            self.run(text)
        except Fault as fault:
            self.bad += 1
            self.say("line %d%s" % (number, fault))

    def run(self, text):
        if len(text) > LONGEST_LINE:
            raise Fault(": longer than %d bytes" % LONGEST_LINE)
        found = list(re.finditer(rb"[^\x00-\x20]+", text))
        words = [f.group() for f in found]
        if words and words[0] == b"say":
            self.write(text[found[0].end() + 1 :] + b"\n")
            return
        comment = next((i for i, word in enumerate(words) if word.startswith(b"#")), len(words))
        line = Line(words[:comment])
        if line.more():
            command = getattr(self, "do_" + line.take().decode("latin-1"), None)
            line.need(command, "no such command")
            command(line)

    def say(self, text):
        self.write(text.encode() + b"\n")

    # What a line names

    def slot(self, line):
        slot = line.number(SLOTS - 1)
        line.need(self.desks[slot], "this desk is not made")
        return slot

    def kept(self, line):
        number = line.number(HIGHEST)
        line.need(len(self.frames) - KEPT_FRAMES <= number < len(self.frames), "this frame is not kept")
        return number

    def words(self, line, words):
        """WORDS or FRAME to the end of the line, from the words to begin with: the words, and what an answer calls them."""
        words, number, changed, cleared = list(words), len(self.frames) - 1, False, False
        while line.more():
            form = line.take()
            changed = changed or form != b"frame"
            if form == b"frame":
                number = self.kept(line)
                words = list(self.frames[number])
            elif form == b"words":
                words, cleared = [], True
            elif form == b"same":
                words = list(self.plan.words)
            else:
                line.change(form, words)
        if cleared or not self.frames:
            return words, "words"
        return words, "frame %d%s" % (number, ", changed" if changed else "")

    def frame(self, line):
        return self.words(line, self.frames[-1] if self.frames else [])

    # Calls

    def answer(self, call, who, said, changes="", answered=True):
        """Counts a call and writes its answer: what it said and changed, or its refusal."""
        self.last = call
        self.counts["calls"] += 1
        text = "%s: %s%s" % (who, said, changes)
        if call.answer[0] == "refused":
            self.refusals[call.answer[1]] += 1
            self.counts["changed"] += changes != ""
            text = "%s: %s%s" % (who, refusal_text(call.answer[1]), "\nCHANGED" + changes if changes else "")
        if answered:
            self.say(text)

    def do_plan(self, line):
        words, _ = self.words(line, [])
        self.plan = plan_of(tuple(words))
        self.answer(Call("plan", None, words, model.read_plan(self.plan)), *plan_text(self.plan))

    def do_choose(self, line):
        line.end()
        before = self.plan
        answer, words = choice_of(tuple(before.words))
        self.plan = plan_of(words)
        said, changes = "", changed_words_text(before, words)
        if answer[0] == "chosen":
            said, changes = "cost %d" % answer[1], choice_text(before, words)
        self.answer(Call("choose", None, before.words, answer, words), "choose", said, changes)

    def do_class(self, line):
        text, transaction, params = line.operation()
        answer = model.classify(self.plan, transaction, params)
        self.answer(Call("class", None, (transaction, params), answer), text, class_text(*answer))

    def do_desk(self, line):
        desk, said = line.number(HIGHEST), ""
        line.end()
        answer = model.new_desk(self.plan, desk)
        if answer[0] == "opened":
            self.desks[desk] = Holding(answer[1])
            said = state_text(desk, answer[1])
        self.answer(Call("desk", desk, None, answer), "desk %d" % desk, said)

    def do_start(self, line):
        line.end()
        out = MARKS[: self.lent[b"out"]]
        answer = model.starting_frame(out)
        sent = out[:4] if answer[0] == "written" else []
        said = self.send(sent) if sent else ""
        self.answer(Call("start", None, None, answer, sent or None), "start", said, others_text((out, len(sent))))

    def send(self, frame):
        """Keeps a frame that was sent, and says so."""
        self.frames.append(frame)
        return "sends frame %d of %s" % (len(self.frames) - 1, words_text(frame))

    def do_request(self, line):
        slot, client, (text, transaction, params) = self.slot(line), line.named_number("client"), line.operation()
        desk = self.desks[slot]
        book, row = desk.book[: self.lent[b"book"]], desk.row[: self.lent[b"row"]]
        answer, state = model.request(self.plan, desk.state, book, row, client, transaction, params)
        changes = desk.take_back(slot, book, [], row, state)
        case = said = answer[0]
        if case == "replied":
            case = "done" if answer[1] else "declined"
            said = reply_text(case, *answer[2:])
        elif case == "elsewhere":
            said = "elsewhere, desk %d" % answer[1]
        self.counts[case] += 1
        self.answer(Call("request", slot, None, answer), "desk %d: %s of client %d" % (slot, text, client), said, changes)

    def do_visit(self, line):
        self.visit(self.slot(line), *self.frame(line))

    def do_pass(self, line):
        line.need(self.desks[self.addressed()], "this desk is not made")
        count = line.number(MOST_PASSES)
        line.end()
        for i in range(count):
            if self.desks[self.addressed()] is None:
                return
            self.visit(self.addressed(), *self.frame(line), answered=i + 1 == count)

    def addressed(self):
        """The desk that the latest frame is addressed to, 0 where none was sent."""
        return field(self.frames[-1][0], 27, 24) % SLOTS if self.frames else 0

    def visit(self, slot, words, name, answered=True):
        """A visit by some words with their name; one that is not answered writes nothing."""
        desk = self.desks[slot]
        book, bulletin, row = desk.book[: self.lent[b"book"]], desk.bulletin[: self.lent[b"bulletin"]], desk.row[: self.lent[b"row"]]
        out, replies = MARKS[: self.lent[b"out"]], MARKS[: self.lent[b"replies"]]
        answer, state = model.visit(self.plan, desk.state, book, bulletin, row, words, out, replies)
        shown = changed_cells(desk.bulletin, bulletin)
        changes = desk.take_back(slot, book, bulletin, row, state)
        if answer[0] == "refused":
            changes += others_text((out, 0), (replies, 0))
            self.answer(Call("visit", slot, words, answer), "desk %d: visit by %s" % (slot, name), "", changes, answered)
            return
        sent, given = out[: answer[1]], replies[: REPLY_WORDS * answer[2]]
        changes += others_text((out, len(sent)), (replies, len(given)))
        who, said = "desk %d: visit %d by %s" % (slot, words[1], name), replies_text(given) + "; " + self.send(sent)
        self.count_visit(words, name, sent, answer[2])
        self.answer(Call("visit", slot, words, answer, sent, given, shown), who, said, changes, answered)

    def count_visit(self, words, name, sent, replies):
        self.counts["visits"] += 1
        self.counts["replies"] += replies
        self.counts["several"] += replies > 1
        self.counts["altered"] += name == "words" or name.endswith("changed")
        self.counts["taken"] = max(self.counts["taken"], len(words))
        self.counts["sent"] = max(self.counts["sent"], len(sent))

    def do_read(self, line):
        words, name = self.frame(line)
        answer = model.frame_visit(self.plan, words)
        self.answer(Call("read", None, words, answer), "read " + name, "visit %d, part of %s" % (answer[1], words_text(words[2:-2])))

    # What is shown

    def do_show(self, line):
        show = getattr(self, "show_" + line.take().decode("latin-1"), None)
        line.need(show, "plan, desk or frame is expected")
        show(line)

    def show_plan(self, line):
        line.end()
        self.say("%s: %s" % plan_text(self.plan))
        for number, t in enumerate(self.plan.transactions):
            self.say("  " + transaction_text(number, t))

    def show_desk(self, line):
        slot = self.slot(line)
        line.end()
        desk = self.desks[slot]
        self.say("desk %d: %s" % (slot, state_text(slot, desk.state)))
        for i, record in enumerate(desk.row[: desk.state.waiting]):
            self.say("  record %d: %s" % (i, record_text(record)))
        for cell, value in enumerate(desk.book):
            if value != 0:
                self.say("  cell %d is %d" % (cell, value))
        for cell in changed_cells(desk.book, desk.bulletin):
            self.say("  bulletin cell %d is %d" % (cell, desk.bulletin[cell]))

    def show_frame(self, line):
        number = self.kept(line)
        line.end()
        frame = self.frames[number]
        self.say("frame %d: %d words, visit %d to desk %d" % (number, len(frame), frame[1], field(frame[0], 27, 24)))
        for desk, update in model.updates_of(frame[2:-2]):
            cells = ", ".join("cell %d is %d" % pair for pair in update)
            self.say("  update of desk %d: %s" % (desk, cells or "no cells"))

    # What is set by hand

    def do_state(self, line):
        slot, desk = line.number(SLOTS - 1), line.named_number("desk")
        state = Desk(desk, line.named_number("waiting"), line.named_number("awaits", (1 << 64) - 1))
        line.end()
        self.desks[slot] = self.desks[slot] or Holding(state)
        self.desks[slot].state = state

    def do_cell(self, line):
        slot, cell, value = self.slot(line), line.number(HELD[b"book"] - 1), line.number(HIGHEST)
        line.end()
        self.desks[slot].book[cell] = value

    def do_cells(self, line):
        slot = self.slot(line)
        drawn = line.words[line.at : line.at + 1] == [b"seed"]
        value = line.named_number("seed") if drawn else line.number(HIGHEST)
        line.end()
        for cell in range(HELD[b"book"]):
            value = (value * 1664525 + 1013904223) % WORD if drawn else value
            self.desks[slot].book[cell] = value

    def do_bulletin(self, line):
        slot = self.slot(line)
        line.end()
        self.desks[slot].bulletin = list(self.desks[slot].book)

    def do_records(self, line):
        slot, start, end = self.slot(line), line.number(HELD[b"row"]), line.number(HELD[b"row"])
        client, (_, transaction, params) = line.named_number("client"), line.operation()
        for i in range(start, end):
            self.desks[slot].row[i] = Request((client + i - start) % WORD, transaction, *params)

    def do_lend(self, line):
        lent = dict(FIT)
        while line.more():
            name = line.take()
            line.need(name in HELD, "book, bulletin, row, out or replies is expected")
            lent[name] = line.number(HELD[name])
        self.lent = lent

    def do_reset(self, line):
        line.end()
        self.plan, self.desks, self.frames, self.lent, self.last = plan_of(()), [None] * SLOTS, [], dict(FIT), None

    # The end

    def write_counts(self):
        c = self.counts
        self.say("lines %d, bad %d" % (self.lines, self.bad))
        self.say("calls %d, refused %d, changed by a refusal %d" % (c["calls"], sum(self.refusals.values()), c["changed"]))
        for question in sorted(self.refusals):
            self.say("refused %d: %d" % (question, self.refusals[question]))
        requests = c["done"], c["declined"], c["waits"], c["elsewhere"]
        self.say("requests %d: done %d, declined %d, waiting %d, elsewhere %d" % (sum(requests), *requests))
        visits = "visits %d: replies %d, several replies %d, changed frames %d" % (c["visits"], c["replies"], c["several"], c["altered"])
        self.say(visits + ", longest frame taken %d, longest frame sent %d" % (c["taken"], c["sent"]))


def answers(script):
    """All answers to a script, bytes to bytes."""
    written = []
    interpreter = Interpreter(written.append)
    interpreter.feed(script)
    interpreter.end()
    return b"".join(written)


if __name__ == "__main__":
    sys.stdout.buffer.write(answers(sys.stdin.buffer.read()))
