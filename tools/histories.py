"""Draws random histories and writes them as one script in the language of docs/SCRIPT.md:

    python3 tools/histories.py [histories] [seed] [first] > script

Every line is followed by the interpreter of script.py over the model as soon as it is written, so that the plan, the states, the frames
and all answers are known while the next line is drawn. At the end of a history that keeps the premise of demand 3 the model's answers are
held to the serial run of model.py, and so are the rows, and the bulletins if they began as the books. Every class and every cause is held
to masks. A history is drawn by its number and the seed alone, so that it can be drawn without those before it.
"""

import random
import sys
from collections import deque

from model import ACTS, CELLS, FIXED, MOST_OPEN, OUTGOING, REPLIES, REPLY_WORDS, ROWS, STARTING_FRAME, WORD
from model import Desk, Serial, cell_of, field, question_6, refused, run
from plans import CauseDrawing, PlanDrawing, changes, damage, hexadecimal, made_urgent, opened, transaction_damage, transaction_places
from script import Interpreter
from tally import Difference, Tally

HISTORIES, SEED, CALLS = 500, 97, 60
# The shape of a history by its number; it decides on the plan and on how the calls begin.
SHAPES = ["one desk", "no partition", "many transactions", "most words", "full frame", "long pass"]
SHAPES += ["own cells"] * 3 + ["burst"] * 2 + ["plain"] * 9
# How many fields of a plan are open at first, and by which questions a damaged plan is refused.
OPENED, DAMAGES = [0, 0, 0, 1, 2, 3, 4, 4, 5, 5, 6, 7, 7], [1, 2, 3, 4, 17]


def four(params):
    return list(params) + [0] * (4 - len(params))


def text_of(transaction, params):
    """An operation, as the script has it."""
    return " ".join(["T%d" % transaction] + [str(p) for p in params])


def any_word(rng):
    """A word: small, any, or one of the last."""
    return rng.choice((rng.randrange(100), rng.randrange(WORD), rng.randrange(WORD), WORD - 1 - rng.randrange(3)))


class History:
    """One history. `premise` says whether it keeps the premise so far; a forging one is drawn so that it mostly does not. The token is
    the number of the frame that the latest accepted visit sent, and `by_hand` the desk whose state is not as the calls left it, if any.
    `chosen` are the places of the transactions whose fields were chosen. What is drawn of bulletins, of urgent requests and of causes is
    drawn apart, and is no other draw's; `other_bulletins` says whether they begin unlike the books."""

    def __init__(self, number, seed, interpreter, lines, tally):
        self.number, self.rng = number, random.Random("%d %d" % (seed, number))
        self.interpreter, self.lines, self.tally = interpreter, lines, tally
        self.shape = "full round" if number % 500 == 19 else SHAPES[number % len(SHAPES)]
        self.forging = self.shape not in ("full round", "long pass") and self.rng.randrange(100) < 31
        self.request_share = self.rng.choice((84, 78, 70, 62))
        self.apart = random.Random("bulletins %d %d" % (seed, number))
        self.other_bulletins = self.forging and self.apart.randrange(3) == 0
        self.urgent = random.Random("urgent %d %d" % (seed, number))
        self.causes = random.Random("causes %d %d" % (seed, number))
        self.calls, self.token, self.premise, self.by_hand = 0, 0, True, None
        self.clients, self.given, self.visits, self.highest = [], [], [], 0

    def write(self, line):
        """A line of the script, followed at once."""
        self.lines.append(line)
        self.interpreter.line(line)

    def call(self, line, calls=1):
        """A line that makes a call, or several by `pass`; gives the answer of the last."""
        self.write(line)
        self.calls += 1
        self.tally.counts["calls"] += calls
        answer = self.interpreter.last.answer
        if answer[0] == "refused":
            self.tally.counts["refused by %d" % answer[1]] += 1
        return answer

    def holding(self, desk):
        return self.interpreter.desks[desk]

    def book_of(self, desk):
        """A copy of a desk's book."""
        return self.holding(desk).book[:CELLS]

    def bulletin_of(self, desk):
        """A copy of a desk's bulletin."""
        return self.holding(desk).bulletin[:CELLS]

    # The opening and the course

    def open(self):
        """The plan, the desks with equal books and rows that hold anything, and the starting frame."""
        rng = self.rng
        self.write("reset")
        self.draw_plan()
        fill = rng.choice(("", "%d" % any_word(rng), "seed %d" % rng.randrange(1000), "%d" % (WORD - 1 - rng.randrange(32))))
        for desk in range(self.n):
            self.call("desk %d" % desk)
            self.fill(desk, fill)
            if rng.randrange(4) == 0:
                self.write("records %d 0 33 client %d %s" % (desk, self.client(), text_of(*self.operation())))
        self.serial, self.book = Serial(self.plan), self.book_of(0)
        self.bulletins = [self.bulletin_of(desk) for desk in range(self.n)]
        if rng.randrange(8) == 0:
            self.call("visit 0")
        if rng.randrange(8) == 0:
            self.lent("out %d" % rng.randrange(4), lambda: self.call("start"))
        self.call("start")
        self.sent = {tuple(STARTING_FRAME)}

    def fill(self, desk, fill):
        """The book of a new desk, zeros if nothing is said, and its bulletin, which is made equal to it, or to another book before."""
        if self.other_bulletins:
            self.write("cells %d %s%d" % (desk, self.apart.choice(("", "seed ", "seed ")), any_word(self.apart)))
            self.write("bulletin %d" % desk)
        if fill or self.other_bulletins:
            self.write("cells %d %s" % (desk, fill or "0"))
        if fill and not self.other_bulletins:
            self.write("bulletin %d" % desk)

    def draw_plan(self):
        """The plan, often with open fields, which are then chosen. With more than six one is closed as it was drawn."""
        rng, count = self.rng, 0 if self.shape == "no partition" else self.rng.choice(OPENED)
        drawing = PlanDrawing(rng, self.shape, count)
        words = made_urgent(self.urgent, drawing.draw())
        places, paired = transaction_places(words)[drawing.kept :], drawing.paired
        self.chosen = places[:paired] + rng.sample(places[paired:], count - paired)
        self.call("plan " + hexadecimal(opened(words, self.chosen)))
        self.plan, self.rows, self.n = self.interpreter.plan, drawing.rows, self.interpreter.plan.desks
        if count > MOST_OPEN or count and rng.randrange(3) == 0:
            self.fault_beside_open()
        if count > MOST_OPEN:
            self.choose()
            place = self.chosen.pop()
            self.call("plan same word %d %X" % (place, words[place]))
        if count:
            self.refused_calls(self.first_calls(), rng.randrange(2), refused(17))
        if count or rng.randrange(4) == 0:
            self.choose()
        self.plan = self.interpreter.plan
        self.tally.counts["histories on a chosen plan"] += count > 0
        self.tally.plan(self.plan)

    def choose(self):
        before = self.interpreter.plan
        answer = self.call("choose")
        if answer[0] == "chosen":
            self.tally.choice(before, answer[1], self.interpreter.plan.words)

    def run(self):
        """The opening and 60 calls, which begin in some shapes with a course of their own; the longest of these has 300 calls more."""
        self.open()
        first, last = self.calls, self.calls + CALLS + (300 if self.shape == "full round" else 0)
        damage_at = self.rng.randrange(first, last) if self.rng.randrange(4) == 0 else last
        pass_at = first + 20 if self.shape == "long pass" else last
        course = {"full frame": self.full_frame, "full round": self.full_round, "burst": self.burst, "own cells": self.own_cells}
        course.get(self.shape, self.usual_request)()
        while self.calls < last:
            if self.calls >= damage_at:
                damage_at = last
                self.damaged_plan()
            elif self.calls >= pass_at:
                pass_at = last
                self.long_pass()
            else:
                self.next_call()
        self.finish()

    def next_call(self):
        """A request, a visit, or an odd call, which is mostly refused or changes nothing."""
        if self.urgent.randrange(24) == 0:
            self.besides(self.urgent, self.out_of_order)
        form, waiting = self.rng.randrange(100), any(self.holding(desk).state.waiting for desk in range(self.n))
        if form < (self.request_share if waiting else 83):
            self.usual_request()
        elif form < 89:
            self.usual_visit()
        elif self.shape == "own cells" and form < 91:
            self.own_cells()
        else:
            odd = [self.odd_request] * 2 + [self.odd_frame] * 5 + [self.forged_frame] * 3 + [self.lent_call] * 2 + [self.odd_state] * 2
            odd += [self.last_number, self.past_a_word, self.usual_class, self.usual_read, self.outside_desk, self.other_start]
            odd += [self.chosen_again] * 2 + [self.damaged_transaction]
            odd += [self.forged_frame] * 6 + [self.odd_frame, self.made_by_hand, self.made_by_hand] if self.forging else []
            self.rng.choice(odd)()

    # Requests

    def client(self):
        return self.rng.randrange(10) if self.rng.randrange(24) else any_word(self.rng)

    def parameter(self, t, k):
        """A number for a parameter: of a row mostly one of the plan's rows and seldom above 31, of others small or any word."""
        rng, form = self.rng, self.rng.randrange(40)
        if any(s.kind in (3, 4) and s.source == k for s in t.steps):
            return rng.choice(self.rows) if form < 30 else rng.randrange(ROWS) if form < 39 else rng.choice((32, 33, any_word(rng)))
        return rng.randrange(10) if form < 26 else any_word(rng)

    def operation(self):
        """A transaction and its parameters, mostly such that pass questions 7 and 8."""
        transaction = self.rng.randrange(len(self.plan.transactions))
        t = self.plan.transactions[transaction]
        return transaction, [self.parameter(t, k) for k in range(t.params)]

    def at_an_end(self, transaction, params):
        """The parameters. Where they pass questions 7 and 8 and the run comes to an add or a take by one that is no row and does not decide
        the desk, one such is changed so that the add comes to 4,294,967,295 or to one past it, or the take to 0 or to one below it, on the
        book that the operation's desk has now, if no step before it names the same one. Either number must be a word."""
        t, drawn = self.plan.transactions[transaction], four(params)
        if self.plan.class_of(transaction, drawn)[0] == "refused":
            return params
        acts = run(t, drawn, self.book_of(self.plan.desk_of(t, drawn))).acts
        kept = {FIXED, t.partition, *(s.source for s in t.steps if s.kind in (3, 4))}
        steps = zip((s.source for s in t.steps if s.kind in ACTS), acts)
        ends = [(k, WORD - 1 - number if kind == 6 else number) for k, (kind, number, _) in steps if kind in (6, 8) and k not in kept]
        ends = [(k, most) for k, most in ends if most < WORD - 1]
        if ends:
            k, most = self.rng.choice(ends)
            params[k] = most + self.rng.randrange(2)
        return params

    def global_operation(self, desk=None):
        """The desk, transaction and parameters of a global operation, of a desk if one is named, or None if none was drawn."""
        for _ in range(60):
            transaction, params = self.operation()
            found = self.plan.class_of(transaction, four(params))
            if found[0] == "global" and desk in (None, found[1]):
                return found[1], transaction, params
        return None

    def usual_request(self):
        """A request, mostly at the operation's own desk, at times with a number at an end of what a word holds; some classified first."""
        transaction, params = self.operation()
        if self.rng.randrange(2):
            params = self.at_an_end(transaction, params)
        if self.causes.randrange(24) == 0:
            self.besides(self.causes, self.classify, transaction, params)
        own = self.plan.desk_of(self.plan.transactions[transaction], four(params))
        self.request(own if self.rng.randrange(6) else self.rng.randrange(self.n), transaction, params)

    def request(self, desk, transaction, params):
        client, book = self.client(), self.book_of(desk)
        waiting = self.holding(desk).row[: self.holding(desk).state.waiting]
        answer = self.call("request %d client %d %s" % (desk, client, text_of(transaction, params)))
        if answer[0] != "refused" or answer == refused(9):
            self.tally.request_by_sort(self.plan, transaction, answer, waiting)
        if answer[0] == "refused":
            return
        params, name = four(params), len(self.clients)
        self.tally.request(self.plan, transaction, params, answer, book)
        self.premise = self.premise and desk != self.by_hand
        self.clients.append(client)
        self.serial.accepted_request(desk, name, transaction, params)
        if answer[0] == "replied":
            self.given.append((name, client, *answer[1:]))

    def odd_request(self):
        """A transaction that does not exist, an unused parameter that is not zero, or a row above 31."""
        rng, form = self.rng, self.rng.randrange(3)
        transaction, params = self.operation()
        if form == 0:
            transaction = min(WORD - 1, len(self.plan.transactions) + rng.choice((0, 0, 1, 32, any_word(rng))))
        elif form == 1 and len(params) < 4:
            params = four(params)[:3] + [rng.choice((1, any_word(rng)))]
        elif params:
            params[rng.randrange(len(params))] = rng.choice((32, 33, rng.randrange(ROWS, WORD)))
        self.request(rng.randrange(self.n), transaction, params)

    def is_urgent(self, transaction):
        return self.plan.transactions[transaction].urgent

    def sorts(self, desk):
        """A global operation of a desk that is not urgent, and one that is, each as a transaction and its parameters; or None of a sort of
        which none was drawn."""
        found = [self.global_operation(desk) for _ in range(8)]
        return [next((f[1:] for f in found if f and self.is_urgent(f[1]) == urgent), None) for urgent in (False, True)]

    def burst(self):
        """One global operation until its desk's row is full, and some more; or both sorts as they are drawn, or 31 or 32 that are not
        urgent and then urgent ones."""
        found = self.global_operation()
        sorts = self.besides(self.urgent, self.sorts, found[0]) if found else [None]
        form = "one" if None in sorts else self.urgent.choice(("one", "both", 31, 32))
        for k in range(33 + self.rng.randrange(3) if found else 0):
            one = found[1:] if form == "one" else sorts[self.urgent.randrange(2) if form == "both" else int(k >= form)]
            self.request(found[0], *one)

    def own_cells(self):
        """The global that writes a cell of its own desk, the local that writes it afterwards, the token once around, and the reader."""
        row = self.rng.choice(self.rows)
        for transaction, params in ((0, [row, self.rng.randrange(100)]), (1, [row, self.rng.randrange(100)]), (2, [row])):
            self.request(row % self.n, transaction, params)
            round_end = self.interpreter.frames[self.token][1] + self.n
            for _ in range(self.n if transaction < 2 else 0):
                if self.interpreter.frames[self.token][1] < round_end:
                    self.usual_visit()

    # Visits

    def frame_text(self, number):
        """A kept frame, as the script has it."""
        return "" if number + 1 == len(self.interpreter.frames) else "frame %d" % number

    def addressed(self, number):
        return field(self.interpreter.frames[number][0], 27, 24)

    def token_visit(self, change=""):
        """The token goes on, with its frame as it is or changed."""
        self.visit(self.addressed(self.token), self.frame_text(self.token) + change)

    def usual_visit(self):
        """The token goes on, often by `pass`, at times by a frame that is written by hand word for word."""
        form, steps, frame = self.rng.randrange(24), self.steps_to_waiting(), self.interpreter.frames[self.token]
        if form < 20 and steps and self.frame_text(self.token) == "":
            self.pass_on(self.rng.choice((steps, steps, self.rng.randrange(1, steps + 1))))
        elif form == 20:
            self.token_visit(" word 1 %X" % frame[1])
        elif form == 21 and frame == STARTING_FRAME:
            self.visit(0, "words 90000004 0 seal")
        else:
            self.token_visit()

    def steps_to_waiting(self):
        """How many visits the token can make up to one with replies, or around; 0 where the next one would be refused."""
        number = self.interpreter.frames[self.token][1]
        for k in range(self.n):
            desk, waiting, awaited = self.holding((number + k) % self.n).state
            if awaited != number + k or desk != awaited % self.n:
                return k
            if waiting:
                return k + 1
        return self.n

    def visit(self, desk, text=""):
        """A visit by the latest frame, or by the frame that the text makes of it."""
        book = self.book_of(desk)
        self.call(("visit %d %s" % (desk, text)).rstrip())
        if self.interpreter.last.answer[0] != "refused":
            self.accepted_visit(desk, book)

    def accepted_visit(self, desk, book):
        """Takes account of the latest call, an accepted visit, with the desk's book before it."""
        call = self.interpreter.last
        changed = tuple(call.words) not in self.sent
        self.tally.visit(self.plan, call, self.holding(desk), book, changed)
        self.premise = self.premise and desk != self.by_hand and not changed
        self.sent.add(tuple(call.out))
        self.token, self.highest = len(self.interpreter.frames) - 1, call.words[1]
        self.visits.append((self.serial.accepted_visit(desk, call.words[1]), call.answer[2], call.replies))

    def pass_on(self, steps):
        """As many visits by `pass`. Nothing waits at their desks, but for the last one, which is visited once if something does."""
        frames, first = self.interpreter.frames, len(self.interpreter.frames)
        desk = (frames[-1][1] + steps - 1) % self.n
        book = self.book_of(desk)
        self.call("pass %d" % steps, steps)
        if len(frames) != first + steps:
            raise Difference("history %d: a visit was refused on the way" % self.number)
        for frame in frames[first:-1]:
            self.sent.add(tuple(frame))
            self.visits.append((self.serial.accepted_visit((frame[1] - 1) % self.n, frame[1] - 1), 0, []))
        self.tally.counts["visits accepted"] += steps - 1
        self.accepted_visit(desk, book)

    def long_pass(self):
        """The token goes round until nothing waits, and then on for some hundred visits, or past 2^16 in a few histories."""
        for _ in range(self.n):
            self.token_visit()
        if self.frame_text(self.token) == "" and self.steps_to_waiting() == self.n:
            self.pass_on(self.rng.randrange(65600, 70000) if self.number % 200 == 105 else self.rng.randrange(200, 900))

    # Frames that come late, and those that no desk sent

    def drawn_frame(self):
        """The number of any kept frame."""
        count = len(self.interpreter.frames)
        return self.rng.randrange(max(0, count - 64), count)

    def word_change(self, number, behind):
        """A kept frame with a word changed, but for some at its end."""
        rng, frame = self.rng, self.interpreter.frames[number]
        at = rng.randrange(len(frame) - behind)
        word = rng.choice((frame[at] ^ 1 << rng.randrange(32), frame[at] + 1, rng.randrange(WORD), 11 << 28 | rng.randrange(CELLS)))
        return "%s word %d %X" % (self.frame_text(number), at, word % WORD)

    def odd_frame(self):
        """A frame twice, late, at a wrong desk, cut, renumbered with right sums, or with a word changed, if forging with right sums."""
        rng, number, form = self.rng, self.token, self.rng.randrange(6)
        if form == 0:
            self.usual_visit()
        elif form == 1:
            number = self.drawn_frame()
        desk, text, frame = self.addressed(number), self.frame_text(number), self.interpreter.frames[number]
        if form == 2:
            desk = rng.randrange(self.n)
        elif form == 3:
            text += " cut %d" % rng.choice((1, 2, len(frame), rng.randrange(1, len(frame) + 1)))
        elif form == 4:
            text += " word 1 %X sums" % ((frame[1] + rng.choice((1, 2, self.n, self.n, 2 * self.n, WORD - self.n))) % WORD)
        elif form == 5:
            text = self.word_change(number, 2) + " sums" if self.forging else self.word_change(number, 0)
        self.visit(desk, text)

    def touched_cell(self):
        """A cell that the plan touches, or at times any."""
        step = self.rng.choice(self.rng.choice(self.plan.transactions).steps)
        return cell_of(step, [self.rng.choice(self.rows)] * 4) if step.kind in (3, 4) else self.rng.randrange(CELLS)

    def update(self, desk, count):
        """An update of a desk with so many cells, over all cells and all words."""
        words = [10 << 28 | desk << 24 | count << 20]
        for _ in range(count):
            cell = self.rng.choice((self.touched_cell(), self.rng.randrange(CELLS), CELLS - 1 - self.rng.randrange(8)))
            words += [11 << 28 | cell, any_word(self.rng)]
        return words

    def forged(self, number, parts):
        """The frame of a visit number with these parts, each some words and how often they stand there, as the script has it."""
        length = 4 + sum(len(words) * times for words, times in parts)
        text = "words %X %X" % (9 << 28 | number % self.n << 24 | length, number)
        for words, times in parts:
            text += " " + hexadecimal(words) + (" *%d/%d" % (len(words) * (times - 1), len(words)) if times > 1 else "")
        return text + " seal"

    def sound_parts(self):
        """Updates that are well formed; at times as many and as long as they can be."""
        rng = self.rng
        if rng.randrange(12) == 0:
            return [(self.update(desk, 12), rng.choice((31, 32))) for desk in range(self.n)]
        parts = [(self.update(rng.randrange(self.n), rng.randrange(4)), 1) for _ in range(rng.randrange(5))]
        return parts + [(self.update(rng.randrange(self.n), rng.randrange(2)), 27)] * (rng.randrange(8) == 0)

    def flawed_parts(self):
        """Updates that are not well formed: a desk outside the plan, 13 cells, 33 of a desk, a word short, too many, or a wrong bit."""
        rng = self.rng
        parts = [(self.update(rng.randrange(self.n), rng.randrange(3)), 1) for _ in range(rng.randrange(3))]
        head, cell, *rest = self.update(rng.randrange(self.n), rng.randrange(1, 4))
        flaws = [(self.update(rng.choice((self.n, 15, rng.randrange(self.n, 16))), rng.randrange(3)), 1)]
        flaws += [(self.update(rng.randrange(self.n), rng.choice((13, 15))), 1), ([head, cell, *rest], 33), ([head, cell, *rest[:-1]], 1)]
        flaws += [([head ^ 1 << rng.choice((rng.randrange(20), rng.randrange(28, 32))), cell, *rest], 1)]
        flaws += [([head, cell ^ 1 << rng.randrange(10, 32), *rest], 1)]
        flaws += [([10 << 28], 6400 - sum(len(words) for words, _ in parts) + rng.randrange(2))]
        return parts + [rng.choice(flaws)]

    def forged_frame(self):
        """A frame that no desk sent: flawed, or sound, and then only in a forging history the one that this desk awaits."""
        desk, number = self.addressed(self.token), self.interpreter.frames[self.token][1]
        sound = self.rng.randrange(8) < (7 if self.forging else 2)
        if sound and not self.forging:
            wrong_desk = self.n > 1 and self.rng.randrange(2)
            desk, number = ((desk + 1) % self.n, number) if wrong_desk else (desk, number + self.n)
        self.visit(desk, self.forged(number, self.sound_parts() if sound else self.flawed_parts()))

    def full_frame(self):
        """A desk with 32 waiting operations of 12 writes takes a frame with all updates of all other desks and sends 6,404 words."""
        for _ in range(self.rng.randrange(8)):
            self.token_visit()
        number, desk = self.interpreter.frames[self.token][1], self.addressed(self.token)
        self.wait_by_hand(desk, 32, 0, [desk + 8 * self.rng.randrange(4), self.rng.choice(self.rows)])
        others = [d for d in range(8) if d != desk or self.rng.randrange(2)]
        self.visit(desk, self.forged(number, [(self.update(d, 12), 32) for d in others]))

    def full_round(self):
        """All rows are filled by requests for operations of 12 writes, and the token goes round, with a frame of up to 6,404 words."""
        for k in range(256):
            self.request(k // 32, 0, [k // 32 + 8 * self.rng.randrange(4), self.rng.randrange(ROWS)])
        for _ in range(9):
            self.token_visit()

    # Buffers and states

    def lent(self, what, action):
        """An action while less or more is lent than the paper asks."""
        self.write("lend " + what)
        action()
        self.write("lend")

    def lent_call(self):
        """A visit or a request with buffers that are mostly not fit."""
        rng = self.rng
        book = "book %d" % rng.choice((1023, 1025, rng.randrange(1041)))
        row = "row %d" % rng.choice((31, 33, rng.randrange(34)))
        out = "out %d" % rng.choice((OUTGOING - 1, rng.randrange(OUTGOING), OUTGOING + rng.randrange(17)))
        replies = "replies %d" % rng.choice((REPLIES - 1, REPLIES, rng.randrange(REPLIES), REPLIES + rng.randrange(17)))
        if rng.randrange(3):
            self.lent(rng.choice((book, row, out, replies, out + " " + replies)), self.token_visit)
            self.lent("bulletin %d" % self.bulletin_size(), lambda: self.besides(self.urgent, self.bulletin_visit))
        else:
            self.lent(rng.choice((book, row, book + " " + row, out)) + " bulletin %d" % self.bulletin_size(), self.usual_request)

    def bulletin_size(self):
        """A size that no bulletin may have."""
        return self.apart.choice((1023, 1025, 0, 1040, self.apart.randrange(CELLS)))

    def besides(self, rng, action, *arguments):
        """An action that draws by what is drawn apart. Its calls are not of the 60, so that the others are drawn as without it."""
        before, calls, self.rng = self.rng, self.calls, rng
        result = action(*arguments)
        self.rng, self.calls = before, calls
        return result

    def bulletin_visit(self):
        """The token's visit, refused for the size of the bulletin."""
        self.token_visit()
        if self.interpreter.last.answer != refused(5):
            raise Difference("history %d: a bulletin of a wrong size is not refused" % self.number)
        self.tally.counts["bulletins of a wrong size"] += 1

    def set_record(self, desk, place, record):
        self.write("records %d %d %d client %d %s" % (desk, place, place + 1, record[0], text_of(record[1], record[2:])))

    def out_of_order(self):
        """A call at a desk in whose row a waiting urgent record follows one that is not: two records of both sorts change places, or such
        are put behind those that wait. Afterwards records and state are as they were."""
        desk = self.addressed(self.token) if self.rng.randrange(2) else self.rng.randrange(self.n)
        state, row = self.holding(desk).state, list(self.holding(desk).row)
        places = [[k for k in range(state.waiting) if self.is_urgent(row[k].transaction) == urgent] for urgent in (False, True)]
        if all(places):
            i, j = (self.rng.choice(sort) for sort in places)
            put = {i: row[j], j: row[i]}
        else:
            sorts = self.sorts(desk)
            added = sorts[1:] if places[0] else sorts
            if None in added or state.waiting + len(added) > 32:
                return
            put = {state.waiting + k: (self.client(), one[0], *four(one[1])) for k, one in enumerate(added)}
        for place in put:
            self.set_record(desk, place, put[place])
        waiting = max(state.waiting, *(place + 1 for place in put))
        self.with_state(desk, state._replace(waiting=waiting), lambda: self.call_at(desk))
        if self.interpreter.last.answer != refused(6):
            raise Difference("history %d: a row out of order is not refused" % self.number)
        ordered = self.plan.urgent_first(self.holding(desk).row[:waiting])
        self.tally.counts["rows refused for their order alone"] += question_6(self.plan, state._replace(waiting=waiting), ordered)
        for place in put:
            self.set_record(desk, place, row[place])

    def set_state(self, desk, state):
        self.write("state %d desk %d waiting %d awaits %d" % (desk, *state))

    def with_state(self, desk, state, action):
        """An action while a desk has another state, which is put back; after an accepted call only as far as the token needs it."""
        before, token = self.holding(desk).state, self.token
        self.set_state(desk, state)
        self.by_hand = desk
        action()
        self.by_hand, after = None, self.holding(desk).state
        if after != state and state[0::2] == before[0::2]:
            return
        if after != state:
            before = before._replace(waiting=after.waiting if state.desk == before.desk else 0)
        self.token = token
        self.set_state(desk, before)

    def odd_state(self):
        """A state of a wrong desk, number waiting or awaited number; only in a forging history it may be fit."""
        rng = self.rng
        desk, other = self.addressed(self.token) if rng.randrange(2) else rng.randrange(self.n), rng.randrange(self.n)
        state, row = self.holding(desk).state, self.holding(desk).row
        states = [state._replace(desk=rng.choice((desk + self.n, self.n, WORD - 1)))]
        states.append(state._replace(waiting=rng.choice((33, 34, WORD - 1))))
        states.append(state._replace(waiting=rng.choice((state.waiting + 1, state.waiting + 2, 32))))
        states.append(state._replace(awaited=state.awaited + rng.randrange(1, self.n + 1)))
        states.append(state._replace(desk=other, awaited=state.awaited + rng.choice((0, other - desk + self.n))))
        state = rng.choice(states)
        if self.forging or not question_6(self.plan, state, row):
            self.with_state(desk, state, lambda: self.call_at(desk))

    def call_at(self, desk):
        """A request or a visit at this desk."""
        if self.rng.randrange(2):
            self.visit(desk, self.frame_text(self.token))
        else:
            found = self.global_operation(desk) or (desk, *self.operation())
            self.request(desk, *found[1:])

    def last_number(self):
        """The visit 4,294,967,295; in a forging history at times the one before it, and then the one that it sends."""
        number = WORD - 1 - (self.rng.randrange(2) if self.forging else 0)
        desk, parts = number % self.n, self.sound_parts() if self.forging else []
        state = Desk(desk, self.holding(desk).state.waiting, number)
        self.with_state(desk, state, lambda: self.visit(desk, self.forged(number, parts)))
        if self.interpreter.last.answer[0] == "passed":
            desk = (number + 1) % self.n
            self.with_state(desk, Desk(desk, self.holding(desk).state.waiting, number + 1), lambda: self.visit(desk))

    def past_a_word(self):
        """A desk that awaits a number past a word, and a visit whose number is the rest of it, or in a forging history any call."""
        rng, n = self.rng, self.n
        desk, high = rng.randrange(n), rng.choice((1, 1, rng.randrange(1, WORD))) * WORD
        rest = (desk - high) % n + n * rng.choice((0, rng.randrange(100), rng.randrange(WORD // n - 1)))
        state = Desk(desk, self.holding(desk).state.waiting, high + rest)
        any_call = self.forging and rng.randrange(2)
        self.with_state(desk, state, lambda: self.call_at(desk) if any_call else self.visit(desk, self.forged(rest, [])))

    def wait_by_hand(self, desk, count, transaction, params):
        """So many waiting records of one operation at a desk, by hand; the history goes on without the premise."""
        self.premise = False
        self.write("records %d 0 %d client %d %s" % (desk, count, self.client(), text_of(transaction, params)))
        self.set_state(desk, self.holding(desk).state._replace(waiting=count))

    def made_by_hand(self):
        """A cell, waiting records or a whole desk by hand; the history goes on without the premise."""
        rng, desk, form = self.rng, self.rng.randrange(self.n), self.rng.randrange(4)
        state, found = self.holding(desk).state, self.global_operation(desk)
        self.premise = False
        if form < 2 and found:
            self.wait_by_hand(desk, rng.choice((32, rng.randrange(1, 33))), *found[1:])
        elif form == 2:
            self.call("desk %d" % desk)
            self.set_state(desk, state._replace(waiting=0))
        else:
            self.write("cell %d %d %d" % (desk, rng.choice((self.touched_cell(), rng.randrange(1040))), any_word(rng)))
        if self.apart.randrange(3) == 0:
            self.write("bulletin %d" % desk)
        self.call_at(desk)

    # Calls that change nothing, and damaged plans

    def classify(self, transaction, params):
        answer = self.call("class " + text_of(transaction, params))
        self.tally.classification(self.plan, transaction, four(params), answer)

    def usual_class(self):
        transaction, params = self.operation()
        self.classify(transaction if self.rng.randrange(8) else self.rng.randrange(40), params)

    def classify_some(self, count):
        """Some operations, most of them global if such are found."""
        for _ in range(count):
            found = self.global_operation() if self.rng.randrange(6) else None
            self.classify(*(found[1:] if found else self.operation()))

    def classify_at_the_end(self):
        """Some operations on the plan of the history, then some on a plan for causes."""
        self.classify_some(4)
        drawing = CauseDrawing(self.rng)
        self.call("plan " + hexadecimal(made_urgent(self.rng, drawing.draw())))
        self.plan, self.rows = self.interpreter.plan, drawing.rows
        self.tally.compare(self.plan.words)
        self.classify_some(5)

    def usual_read(self):
        number, visit = self.drawn_frame(), any_word(self.rng)
        texts = [self.frame_text(number), self.word_change(number, 0), self.word_change(number, 2) + " sums", "cut 1"]
        texts += [self.forged(visit, self.sound_parts()), self.forged(visit, self.flawed_parts())]
        self.call(("read " + self.rng.choice(texts)).rstrip())

    def outside_desk(self):
        self.call("desk %d" % self.rng.choice((self.n, self.n, 8, 15, self.rng.randrange(self.n, WORD))))

    def other_start(self):
        """A starting frame on the way, often in a buffer that is too short."""
        self.lent("out %d" % self.rng.choice((0, 3, 3, 4, self.rng.randrange(OUTGOING))), lambda: self.call("start"))

    def refused_calls(self, calls, count, answer):
        """Some of these calls, which must all have the plan's own answer."""
        for call in self.rng.sample(calls, count):
            call()
            if answer[0] != "refused" or self.interpreter.last.answer != answer:
                raise Difference("history %d: a call on a plan that is refused has another answer" % self.number)
            self.tally.counts["calls on an open plan"] += answer == refused(17)

    def same_plan(self):
        if self.interpreter.plan.words != self.plan.words:
            raise Difference("history %d: the plan is not as it was" % self.number)

    def first_calls(self):
        """Calls that are refused as the plan is, and need no desk."""
        return [self.usual_class, lambda: self.call("desk 0"), lambda: self.call("read words 90000004 0 seal")]

    def plan_calls(self):
        """The calls that are refused as the plan is, but for the chooser."""
        return [self.usual_class, self.usual_request, self.token_visit, self.usual_read, self.made_again]

    def made_again(self):
        """A new desk in place of one of the plan's desks, on a plan that is refused."""
        self.call("desk %d" % self.rng.randrange(self.n))

    def damaged_plan(self):
        """A plan that is refused, some calls on it, and the plan as it was. What the chooser fills in on the way is undone as well."""
        question = DAMAGES[(self.number + self.number // len(SHAPES)) % len(DAMAGES)]
        self.damaged(*damage(self.rng, self.plan.words, question), self.rng.choice((2, 3)))

    def damaged_transaction(self):
        """The same for a transaction's word with a bit or a field that is refused with 3."""
        change, undo = transaction_damage(self.rng, self.plan.words)
        self.damaged(change, undo, 1)
        self.tally.damaged_transaction(int(change.split()[2], 16))

    def damaged(self, change, undo, count):
        answer = self.call("plan same " + change)
        self.tally.damaged(self.interpreter.plan.words)
        choose = [] if answer == refused(17) else [self.choose]
        self.refused_calls(self.plan_calls() + choose, count, answer)
        if answer == refused(17):
            self.choose()
        self.call("plan same " + undo)
        self.same_plan()

    def fault_beside_open(self):
        """The plan with open fields and a fault beside them, by which it is refused, and the plan as it was."""
        before = self.plan.words
        change, undo = damage(self.rng, before, self.rng.choice((1, 2, 3, 3, 4, 4)))
        answer, words = self.call("plan same " + change), self.interpreter.plan.words
        self.tally.damaged(words)
        self.tally.fault(answer[1], sum(words[k : k + 1] == [before[k]] for k in self.chosen))
        self.refused_calls([self.choose], 1, answer)
        self.refused_calls(self.first_calls(), self.rng.randrange(2), answer)
        self.call("plan same " + undo)
        self.same_plan()

    def chosen_again(self):
        """Some of the fields that were chosen open again, or none. They are chosen as before: no filling of them costs less with the others
        as they are, and none that costs the same has smaller fields."""
        places = self.rng.sample(self.chosen, self.rng.randrange(len(self.chosen) + 1))
        if places:
            answer = self.call("plan same " + changes(self.plan.words, opened(self.plan.words, places))[0])
            self.refused_calls(self.plan_calls(), self.rng.randrange(3), answer)
        self.choose()
        self.same_plan()

    # The end

    def finish(self):
        counts = self.tally.counts
        counts["histories"] += 1
        counts["with the premise" if self.premise else "without the premise"] += 1
        counts["histories with other bulletins"] += self.other_bulletins
        if self.premise:
            self.check_serial_run()
            self.tally.seen["highest visit accepted with the premise"].add(self.highest)
        self.besides(self.causes, self.classify_at_the_end)
        self.write("say history %d: premise %skept" % (self.number, "" if self.premise else "not "))

    def check_serial_run(self):
        """Holds all replies, with their told numbers, and all cells to the serial run, and bulletins that began as the books."""
        due, book, cuts = self.serial.end(self.book)
        given = list(self.given)
        for names, count, replies in self.visits:
            if count != len(names) or len(replies) != REPLY_WORDS * len(names):
                raise Difference("history %d: a visit has another count of replies" % self.number)
            for k, name in enumerate(names):
                first, client, *numbers = replies[k * REPLY_WORDS : (k + 1) * REPLY_WORDS]
                given.append((name, client, first - (12 << 28), *numbers))
        if sorted(given) != sorted((name, self.clients[name], *reply) for name, reply in due.items()):
            raise Difference("history %d: a reply is not that of the serial run" % self.number)
        for cell in range(CELLS):
            if self.holding(self.serial.desk_with(cell)).book[cell] != book[cell]:
                raise Difference("history %d: cell %d is not that of the serial run" % (self.number, cell))
        self.tally.counts["serial replies checked"] += len(given)
        self.tally.counts["serial cells checked"] += CELLS
        for desk in range(self.n):
            self.check_row(desk)
        if not self.other_bulletins:
            self.tally.bulletins([self.check_bulletin(desk, cuts) for desk in range(self.n)])

    def check_row(self, desk):
        """Holds the waiting records of a desk to the line of the serial run: what was accepted there and not finished, urgent requests
        before the others, each sort by arrival."""
        waiting = self.holding(desk).row[: self.holding(desk).state.waiting]
        if waiting != [(self.clients[name], transaction, *params) for name, transaction, params in self.serial.line(desk)]:
            raise Difference("history %d: the row of desk %d is not the line of the serial run" % (self.number, desk))
        self.tally.checked_row(self.plan, waiting)

    def check_bulletin(self, desk, cuts):
        """Holds a desk's bulletin, and its book where two or more desks may touch it, to the serial run cut behind some global: the book
        behind as many as were finished by its latest visit, the bulletin behind as many as by the one a round before, which no desk may
        have had less of. What one desk may touch, or none, is in the bulletin as at first. Gives the visits and the globals that the
        bulletin shows, and its shared cells, each as it is there, in the book and in the starting book."""
        visits, count = self.serial.shown(desk)
        book, bulletin, shared = self.book_of(desk), self.bulletin_of(desk), set(self.plan.shared)
        if any(g < count for g in self.serial.g):
            raise Difference("history %d: the bulletin of desk %d shows a global that some desk has not had" % (self.number, desk))
        for cell in range(CELLS):
            due = cuts[count] if cell in shared else self.bulletins[desk]
            if bulletin[cell] != due[cell]:
                raise Difference("history %d: cell %d in the bulletin of desk %d is not that of the serial run" % (self.number, cell, desk))
            if cell in shared and book[cell] != cuts[self.serial.g[desk]][cell]:
                raise Difference("history %d: cell %d at desk %d is not that of the serial run so far" % (self.number, cell, desk))
        return visits, count, [(bulletin[c], book[c], self.book[c]) for c in shared]


def script(histories, seed, first=0):
    """The script of so many histories from the first on, with the counts at its end."""
    lines, tally, said = [], Tally(), deque(maxlen=40)
    interpreter = Interpreter(said.append)
    for number in range(first, first + histories):
        History(number, seed, interpreter, lines, tally).run()
    interpreter.end()
    if b", bad 0\n" not in b"".join(said):
        raise Difference("a line is not understood")
    if histories >= HISTORIES:
        tally.check()
    lines += ["say " + line for line in tally.lines()]
    return "".join(line + "\n" for line in lines).encode()


if __name__ == "__main__":
    numbers = [int(word) for word in sys.argv[1:]]
    sys.stdout.buffer.write(script(*numbers, *[HISTORIES, SEED][len(numbers) :]))
