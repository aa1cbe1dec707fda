"""Makes all expected outputs again and compares them with the files: python3 tools/outputs.py
With `write` it writes the files instead: python3 tools/outputs.py write

The expected outputs are the answers of script.py: to each example alone, to what `belt` is run on (all examples, then questions.txt) and
to what `histories` is run on (random histories). The values that the paper states of its own course stand below as they are printed
there, and values of sums at the two ends of a word, of bulletins, of urgent requests and of causes, reckoned by hand; the run of `belt` is
held to all of them first, then to the claims of choices.py, and each of its classes and causes to masks.
"""

import sys
from pathlib import Path

import histories
from causes import is_right
from choices import CLAIMS, Choice, same_by_masks
from script import Interpreter, answers

ROOT = Path(__file__).resolve().parent.parent
HISTORIES, SEED = 500, 97

# The paper's "A plan and its course": the plan, then a line of the script and how its answer begins.
PLAN = "1204000B 22200000 52000000 40000000 22200000 52000000 42700000 21100000 32700000 201F0000 34700000"
STATED = [
    ("class T0 5 9", "T0(5, 9): local at desk 1"),
    ("class T0 4 9", "T0(4, 9): local at desk 0"),
    ("class T0 31 9", "T0(31, 9): local"),
    ("class T0 32 9", "T0(32, 9): refused 8:"),
    ("class T1 0 3", "T1(0, 3): global at desk 0"),
    ("class T2 1", "T2(1): local at desk 1"),
    ("class T3", "T3(): free"),
    ("start", "start: sends frame 0 of 4 words: 90000004 00000000 90000004 20000008\n"),
    ("request 1 client 9 T0 5 9", "desk 1: T0(5, 9) of client 9: done, 9; cell 20 is now 9\n"),
    ("request 1 client 9 T0 31 9", "desk 1: T0(31, 9) of client 9: done, 9"),
    ("request 1 client 9 T0 32 9", "desk 1: T0(32, 9) of client 9: refused 8:"),
    ("request 0 client 7 T1 0 3", "desk 0: T1(0, 3) of client 7: waits"),
    (
        "visit 0",
        "desk 0: visit 0 by frame 0: 1 reply, client 7 done, 3; "
        "sends frame 1 of 7 words: 91000007 00000001 A0100000 B0000080 00000003 E110008B 1530012A;",
    ),
    ("visit 0", "desk 0: visit by frame 1: refused 13:"),
    ("request 1 client 8 T2 1", "desk 1: T2(1) of client 8: done, 0"),
    ("visit 1 word 2 A1100000", "desk 1: visit by frame 1, changed: refused 11:"),
    ("visit 1", "desk 1: visit 1 by frame 1:"),
    ("request 1 client 8 T2 1", "desk 1: T2(1) of client 8: done, 3"),
    ("visit 1 frame 1", "desk 1: visit by frame 1: refused 14:"),
    ("request 0 client 131 T1 0 3", "desk 0: T1(0, 3) of client 131: waits; record 31 is now"),
    ("request 0 client 132 T1 0 3", "desk 0: T1(0, 3) of client 132: refused 9:"),
    ("request 0 client 133 T4", "desk 0: T4() of client 133: refused 7:"),
]

# Sums that would go round, on the plan of examples/7-gas.txt: "an add whose sum exceeds 4,294,967,295, and a take below zero, declines the
# run; the number given is the one before that step".
GAS_PLAN = "12050018 22300000 30000000 62000000 40000000 22300000 30000000 82000000 40000000 22600000 30000000 82000000 40000000 "
GAS_PLAN += "32700000 62000000 42700000 22500000 32700000 D0000000 82000000 D0000000 42700000 21100000 32700000"
GAS = [
    ("request 1 client 11 T0 5 70", "desk 1: T0(5, 70) of client 11: done, 70; cell 20 is now 70\n"),
    ("request 1 client 12 T1 5 71", "desk 1: T1(5, 71) of client 12: declined, 70\n"),
    ("request 1 client 12 T1 5 67", "desk 1: T1(5, 67) of client 12: done, 3; cell 20 is now 3\n"),
    ("request 1 client 12 T1 5 3", "desk 1: T1(5, 3) of client 12: done, 0; cell 20 is now 0\n"),
    ("request 1 client 12 T1 5 1", "desk 1: T1(5, 1) of client 12: declined, 0\n"),
    ("request 1 client 11 T0 5 4294967200", "desk 1: T0(5, 4294967200) of client 11: done, 4294967200;"),
    ("request 1 client 11 T0 5 96", "desk 1: T0(5, 96) of client 11: declined, 4294967200\n"),
    ("request 1 client 11 T0 5 95", "desk 1: T0(5, 95) of client 11: done, 4294967295; cell 20 is now 4294967295\n"),
    ("request 1 client 11 T0 5 1", "desk 1: T0(5, 1) of client 11: declined, 4294967295\n"),
    (
        "visit 0",
        "desk 0: visit 0 by frame 0: 4 replies, client 22 done, 600, client 23 declined, 400, client 24 declined, 600, told 600 0 0 0, "
        "client 25 done, 500, told 600 500 0 0; sends frame 1 of 14 words: "
        "9100000E 00000001 A0200000 B0000018 00000190 B0000080 00000258 A0000000 A0000000 A0100000 B0000080 000001F4 ",
    ),
    ("visit 1", "desk 1: visit 1 by frame 1: 2 replies, client 31 done, 4294967295, client 32 declined, 4294967295;"),
]

# What staff and page read, on the plan of examples/8-bulletin.txt for three desks, from level 1 on: "An accepted visit sets each bulletin
# cell that two or more desks may touch to what the desk's book held before the visit". Cell 128 is the level, which every desk may touch,
# cell 20 a station of desk 2 alone. Frame 1 has the words of the paper's course.
BULLETIN_PLAN = "1303000A 22300000 32700000 62000000 42700000 21100000 32700000 22200000 52000000 40000000"
BULLETIN = [
    ("class T0 0 2", "T0(0, 2): global at desk 0: it may write cell 128, which T0 of desk 1 may touch\n"),
    ("class T2 5 24", "T2(5, 24): local at desk 2\n"),
    ("request 0 client 7 T0 0 2", "desk 0: T0(0, 2) of client 7: waits;"),
    (
        "visit 0",
        "desk 0: visit 0 by frame 0: 1 reply, client 7 done, 3; sends frame 1 of 7 words: "
        "91000007 00000001 A0100000 B0000080 00000003 E110008B 1530012A; cell 128 is now 3; 0 waiting, awaits visit 3\n",
    ),
    ("request 0 client 8 T1 0", "desk 0: T1(0) of client 8: done, 3\n"),
    ("show desk 0", "desk 0: 0 waiting, awaits visit 3\n  cell 128 is 3\n  bulletin cell 128 is 1\n"),
    (
        "visit 1",
        "desk 1: visit 1 by frame 1: 0 replies; sends frame 2 of 7 words: "
        "92000007 00000002 A0100000 B0000080 00000003 E210008C 1A30012E; cell 128 is now 3; 0 waiting, awaits visit 4\n",
    ),
    ("request 2 client 8 T1 2", "desk 2: T1(2) of client 8: done, 1\n"),
    ("request 2 client 9 T2 5 24", "desk 2: T2(5, 24) of client 9: done, 24; cell 20 is now 24\n"),
    ("show desk 1", "desk 1: 0 waiting, awaits visit 4\n  cell 128 is 3\n  bulletin cell 128 is 1\n"),
    (
        "visit 2",
        "desk 2: visit 2 by frame 2: 0 replies; sends frame 3 of 7 words: "
        "90000007 00000003 A0100000 B0000080 00000003 E010008D 10300132; cell 128 is now 3; 0 waiting, awaits visit 5\n",
    ),
    ("visit 2 frame 2", "desk 2: visit by frame 2: refused 14:"),
    (
        "show desk 2",
        "desk 2: 0 waiting, awaits visit 5\n  cell 20 is 24\n  cell 128 is 3\n  bulletin cell 20 is 0\n  bulletin cell 128 is 1\n",
    ),
    (
        "visit 0",
        "desk 0: visit 3 by frame 3: 0 replies; sends frame 4 of 4 words: "
        "91000004 00000004 91000008 2200000C; bulletin cell 128 is now 3; 0 waiting, awaits visit 6\n",
    ),
    (
        "visit 1",
        "desk 1: visit 4 by frame 4: 0 replies; sends frame 5 of 4 words: "
        "92000004 00000005 92000009 2400000D; bulletin cell 128 is now 3; 0 waiting, awaits visit 7\n",
    ),
    (
        "visit 2",
        "desk 2: visit 5 by frame 5: 0 replies; sends frame 6 of 4 words: "
        "90000004 00000006 9000000A 2000000E; bulletin cell 128 is now 3; 0 waiting, awaits visit 8\n",
    ),
    ("show desk 2", "desk 2: 0 waiting, awaits visit 8\n  cell 20 is 24\n  cell 128 is 3\n  bulletin cell 20 is 0\n"),
    ("pass 3", "desk 2: visit 8 by frame 8: 1 reply, client 7 done, 6; sends frame 9 of 13 words:"),
    ("show desk 0", "desk 0: 0 waiting, awaits visit 9\n  cell 128 is 4\n  bulletin cell 128 is 3\n"),
    ("show desk 1", "desk 1: 0 waiting, awaits visit 10\n  cell 128 is 5\n  bulletin cell 128 is 3\n"),
    (
        "visit 0",
        "desk 0: visit 9 by frame 9: 0 replies; sends frame 10 of 10 words: "
        "9100000A 0000000A A1100000 B0000080 00000005 A2100000 B0000080 00000006 3420011F 04900430; "
        "cell 128 is now 6; bulletin cell 128 is now 4; 0 waiting, awaits visit 12\n",
    ),
    ("visit 1", "desk 1: visit 10 by frame 10: 0 replies; sends frame 11 of 7 words:"),
    ("visit 2", "desk 2: visit 11 by frame 11: 0 replies; sends frame 12 of 4 words:"),
    ("show desk 0", "desk 0: 0 waiting, awaits visit 12\n  cell 128 is 6\n  bulletin cell 128 is 4\n"),
    ("show desk 1", "desk 1: 0 waiting, awaits visit 13\n  cell 128 is 6\n  bulletin cell 128 is 5\n"),
    ("show desk 2", "desk 2: 0 waiting, awaits visit 14\n  cell 20 is 24\n  cell 128 is 6\n  bulletin cell 20 is 0\n"),
]

# Urgent requests, on the plan of examples/9-urgent.txt for three desks, from level 1 on: "The waiting row holds urgent requests before the
# others, each sort by arrival, and a visit runs it so. An arriving urgent request moves the waiting others up by a place." T1 declares the
# level, cell 128, and is urgent; T0 edits an event, cells 256 + 4 * event and the next, and notes the level with it.
URGENT_PLAN = "13040010 23400000 54000000 44100000 32700000 44900000 22400080 32700000 D0000000 52000000 42700000 "
URGENT_PLAN += "21100000 32700000 22200000 52000000 40000000"
URGENT = [
    ("class T0 1 5 31", "T0(1, 5, 31): global at desk 1: it may write cell 276, which T0 of desk 0 may touch\n"),
    ("class T1 1 3", "T1(1, 3): global at desk 1: it may write cell 128, which T0 of desk 0 may touch\n"),
    ("request 1 client 11 T0 1 5 31", "desk 1: T0(1, 5, 31) of client 11: waits; record 0 is now client 11 T0(1, 5, 31, 0); 1 waiting,"),
    ("request 1 client 12 T0 1 6 27", "desk 1: T0(1, 6, 27) of client 12: waits; record 1 is now client 12 T0(1, 6, 27, 0); 2 waiting,"),
    ("request 1 client 11 T0 1 5 33", "desk 1: T0(1, 5, 33) of client 11: waits; record 2 is now client 11 T0(1, 5, 33, 0); 3 waiting,"),
    (
        "request 1 client 20 T1 1 3",
        "desk 1: T1(1, 3) of client 20: waits; record 0 is now client 20 T1(1, 3, 0, 0); record 1 is now client 11 T0(1, 5, 31, 0); "
        "record 2 is now client 12 T0(1, 6, 27, 0); record 3 is now client 11 T0(1, 5, 33, 0); 4 waiting, awaits visit 1\n",
    ),
    ("request 1 client 13 T3 4 24", "desk 1: T3(4, 24) of client 13: done, 24; cell 16 is now 24\n"),
    ("request 1 client 12 T0 1 7 40", "desk 1: T0(1, 7, 40) of client 12: waits; record 4 is now client 12 T0(1, 7, 40, 0); 5 waiting,"),
    (
        "request 1 client 20 T1 1 4",
        "desk 1: T1(1, 4) of client 20: waits; record 1 is now client 20 T1(1, 4, 0, 0); record 2 is now client 11 T0(1, 5, 31, 0); "
        "record 3 is now client 12 T0(1, 6, 27, 0); record 4 is now client 11 T0(1, 5, 33, 0); record 5 is now client 12 T0(1, 7, 40, 0); "
        "6 waiting, awaits visit 1\n",
    ),
    ("request 0 client 10 T0 0 8 15", "desk 0: T0(0, 8, 15) of client 10: waits; record 0 is now client 10 T0(0, 8, 15, 0); 1 waiting,"),
    (
        "visit 0",
        "desk 0: visit 0 by frame 0: 1 reply, client 10 done, 1; sends frame 1 of 9 words: 91000009 00000001 A0200000 B0000120 0000000F "
        "B0000121 00000001 9120025B 37A00735; cell 288 is now 15; cell 289 is now 1; 0 waiting, awaits visit 3\n",
    ),
    (
        "visit 1",
        "desk 1: visit 1 by frame 1: 6 replies, client 20 done, 3, told 1 0 0 0, client 20 done, 4, told 3 0 0 0, client 11 done, 4, "
        "client 12 done, 4, client 11 done, 4, client 12 done, 4; sends frame 2 of 35 words,",
    ),
    (
        "show frame 2",
        "frame 2: 35 words, visit 2 to desk 2\n  update of desk 0: cell 288 is 15, cell 289 is 1\n"
        "  update of desk 1: cell 128 is 3\n  update of desk 1: cell 128 is 4\n  update of desk 1: cell 276 is 31, cell 277 is 4\n"
        "  update of desk 1: cell 280 is 27, cell 281 is 4\n  update of desk 1: cell 276 is 33, cell 277 is 4\n"
        "  update of desk 1: cell 284 is 40, cell 285 is 4\n",
    ),
    ("request 1 client 14 T2 1", "desk 1: T2(1) of client 14: done, 4\n"),
    ("visit 2", "desk 2: visit 2 by frame 2: 0 replies; sends frame 3 of 35 words,"),
    ("request 2 client 15 T2 2", "desk 2: T2(2) of client 15: done, 4\n"),
    ("request 1 client 14 T2 1", "desk 1: T2(1) of client 14: refused 6:"),
    ("request 1 client 14 T2 1", "desk 1: T2(1) of client 14: done, 4\n"),
]
# The same requests on the plan with bit 7 of T1 cleared: all by arrival.
BY_ARRIVAL_PLAN = URGENT_PLAN.replace("22400080", "22400000")
BY_ARRIVAL = [
    ("request 1 client 11 T0 1 5 33", "desk 1: T0(1, 5, 33) of client 11: waits; record 2 is now client 11 T0(1, 5, 33, 0); 3 waiting,"),
    ("request 1 client 20 T1 1 3", "desk 1: T1(1, 3) of client 20: waits; record 3 is now client 20 T1(1, 3, 0, 0); 4 waiting,"),
    ("request 1 client 20 T1 1 4", "desk 1: T1(1, 4) of client 20: waits; record 5 is now client 20 T1(1, 4, 0, 0); 6 waiting,"),
    (
        "visit 1",
        "desk 1: visit 1 by frame 4: 6 replies, client 11 done, 1, client 12 done, 1, client 11 done, 1, client 20 done, 3, told 1 0 0 0, "
        "client 12 done, 3, client 20 done, 4, told 3 0 0 0;",
    ),
]

# The plan of examples/10-cause.txt as it is at first.
CAUSE_PLAN = "13050012 22500000 52000000 40000000 30800000 6E000001 40800000 22200000 52000000 42700000 "
CAUSE_PLAN += "22200000 30100000 44000000 202F0000 5E000000 40F00004 21100000 32700000"
# Causes, worked out by hand: "the lowest cell it may write that another desk may touch, then the lowest such desk, then the lowest
# transaction of that desk with such an operation". Each plan with lines on it.
CAUSES = [
    # The paper's: T1 of the other desk writes cell 128, and T2 of it, which is higher, reads it.
    (
        PLAN,
        [
            ("class T0 5 9", "T0(5, 9): local at desk 1\n"),
            ("class T1 0 3", "T1(0, 3): global at desk 0: it may write cell 128, which T1 of desk 1 may touch\n"),
            ("class T2 1", "T2(1): local at desk 1\n"),
            ("class T3", "T3(): free\n"),
            ("class T1 1 3", "T1(1, 3): global at desk 1: it may write cell 128, which T1 of desk 0 may touch\n"),
        ],
    ),
    # examples/10-cause.txt, three desks. T0 writes cells 16 and 17 of station 4; T2 by crew reads cell 16 at every desk.
    (
        CAUSE_PLAN,
        [
            ("class T0 4 24", "T0(4, 24): global at desk 1: it may write cell 16, which T2 of desk 0 may touch\n"),
            ("class T0 3 24", "T0(3, 24): global at desk 0: it may write cell 12, which T2 of desk 1 may touch\n"),
            ("class T2 7 4", "T2(7, 4): local at desk 1\n"),
        ],
    ),
    # T2 by station: cell 16 is desk 1's alone, cell 17 is touched by T3 of desk 0; T2 writes cell 284 at every desk.
    (
        CAUSE_PLAN.replace("22200000 30100000", "22210000 30100000"),
        [
            ("class T0 3 24", "T0(3, 24): local at desk 0\n"),
            ("class T0 4 24", "T0(4, 24): global at desk 1: it may write cell 17, which T3 of desk 0 may touch\n"),
            ("class T2 7 4", "T2(7, 4): global at desk 1: it may write cell 284, which T2 of desk 0 may touch\n"),
        ],
    ),
    # T3 by station as well, and the note in the station's row: of all this T1 alone is global.
    (
        CAUSE_PLAN.replace("22200000 30100000 44000000 202F0000", "22210000 30100000 41100000 21200000").replace("40F00004", "40800000"),
        [
            ("class T2 7 4", "T2(7, 4): local at desk 1\n"),
            ("class T1 1 3", "T1(1, 3): global at desk 1: it may write cell 128, which T1 of desk 0 may touch\n"),
            ("class T1 0 3", "T1(0, 3): global at desk 0: it may write cell 128, which T1 of desk 1 may touch\n"),
            ("request 1 client 11 T0 4 24", "desk 1: T0(4, 24) of client 11: done, 1; cell 16 is now 24; cell 17 is now 1\n"),
        ],
    ),
    # Cell 4 is only read, cell 1 (or 125) is of the own row; of the shared 384, 256 and 128 the last is the lowest.
    (
        "13010007 21500000 46700000 40800000 30700001 44700000 42700000",
        [
            ("class T0 0", "T0(0): global at desk 0: it may write cell 128, which T0 of desk 1 may touch\n"),
            ("class T0 31", "T0(31): global at desk 1: it may write cell 128, which T0 of desk 0 may touch\n"),
        ],
    ),
    # T0 of desk 0 writes cell 128, which every desk reads, and cell 28, which desk 7 alone reads beside it: the cell goes first.
    (
        "18030008 202F0000 42700000 40700007 21100000 32700000 21100000 30000000",
        [("class T0", "T0(): global at desk 0: it may write cell 28, which T2 of desk 7 may touch\n")],
    ),
    # Cell 12 is touched by T0 and T1 of desk 0, T4 of desk 3 and T5 of every desk: the lowest other desk is 1, and T5 alone is of it.
    (
        "1806000F 201F0000 40700003 202F0000 30700003 40700002 21200000 30700004 32700003 21100000 40800000 21100000 30000000 "
        "21100000 30700003",
        [
            ("class T0", "T0(): global at desk 0: it may write cell 12, which T5 of desk 1 may touch\n"),
            ("class T1", "T1(): global at desk 0: it may write cell 8, which T4 of desk 2 may touch\n"),
            ("class T5 3", "T5(3): local at desk 3\n"),
        ],
    ),
    # Cell 20 is desk 5's row: T0 and T1 have operations of desk 0, but none of them touches it; T2 of desk 0 reads it.
    (
        "18040009 21100000 40000000 21100000 30000000 201F0000 30700005 201F0000 40700005",
        [
            ("class T0 5", "T0(5): global at desk 5: it may write cell 20, which T2 of desk 0 may touch\n"),
            ("class T0 6", "T0(6): local at desk 6\n"),
            ("class T1 5", "T1(5): local at desk 5\n"),
            ("class T3", "T3(): global at desk 0: it may write cell 20, which T0 of desk 5 may touch\n"),
        ],
    ),
    # The row of a parameter with no partitioning, at three desks: row 4 is desk 1's, row 5 desk 2's, row 3 desk 0's.
    (
        "13030007 211F0000 40000000 21100000 30000000 201F0000 30700004",
        [
            ("class T0 3", "T0(3): local at desk 0\n"),
            ("class T0 4", "T0(4): global at desk 0: it may write cell 16, which T1 of desk 1 may touch\n"),
            ("class T0 5", "T0(5): global at desk 0: it may write cell 20, which T1 of desk 2 may touch\n"),
        ],
    ),
    # The last cell of the book, and below it the first.
    (
        "12030008 21100000 4FF0001F 21100000 40700000 21200000 4FF0001F 40700000",
        [
            ("class T0 1", "T0(1): global at desk 1: it may write cell 1023, which T0 of desk 0 may touch\n"),
            ("class T1 0", "T1(0): global at desk 0: it may write cell 0, which T1 of desk 1 may touch\n"),
            ("class T2 1", "T2(1): global at desk 1: it may write cell 0, which T1 of desk 0 may touch\n"),
        ],
    ),
    # 32 transactions, of which T31 alone touches row 5 at desk 0.
    (
        "18200041 21100000 40000000 " + "201F0000 3E700000 " * 30 + "201F0000 30700005",
        [
            ("class T0 5", "T0(5): global at desk 5: it may write cell 20, which T31 of desk 0 may touch\n"),
            ("class T0 13", "T0(13): local at desk 5\n"),
            ("class T30", "T30(): free\n"),
            ("class T31", "T31(): local at desk 0\n"),
        ],
    ),
]


def followed(script):
    """Each line of a script, without its comment: the command, the plan before it, its answer, the call that it made, or None, and the
    interpreter after it."""
    written = []
    interpreter = Interpreter(written.append)
    for line in script.split(b"\n"):
        written.clear()
        before, last = interpreter.plan, interpreter.last
        interpreter.line(line)
        command, said = b" ".join(line.split(b"#")[0].split()), b"".join(written)
        call = interpreter.last if interpreter.last is not last else None
        yield command.decode("latin-1"), before, said.decode("latin-1"), call, interpreter


def hold_to_stated(script, stated):
    """Ends with a message unless the lines of each plan stand in the script in their order, on this plan, and are answered as is stated."""
    pending = [([int(word, 16) for word in plan.split()], list(lines)) for plan, lines in stated]
    for command, _, said, _, interpreter in followed(script):
        for plan, lines in pending:
            if not lines or command != lines[0][0] or interpreter.plan.words != plan:
                continue
            wanted = lines.pop(0)[1]
            if not said.startswith(wanted):
                sys.exit("%s: the answer is '%s', stated is '%s'" % (command, said.strip(), wanted.strip()))
    for _, lines in pending:
        if lines:
            sys.exit("not in the script on this plan, or not in this order: %s" % lines[0][0])


def hold_to_claims(script):
    """Ends with a message unless each claim stands in the script and the choice behind it is as it says, or if trying operations and masks
    differ: on what is global or shared in an accepted plan, on a class or a cause, or on a choice."""
    pending, claimed = dict(CLAIMS), None
    for command, before, _, call, interpreter in followed(script):
        if interpreter.plan.verdict == 0 and not same_by_masks(tuple(interpreter.plan.words)):
            sys.exit("%s: trying operations and masks differ on the plan behind it" % command)
        if call and call.kind == "class" and call.answer[0] != "refused" and not is_right(before, *call.words, call.answer):
            sys.exit("%s: trying operations and masks differ on the class or the cause" % command)
        if command.startswith("say Choose: "):
            claimed = command.removeprefix("say Choose: ")
            if claimed not in pending:
                sys.exit("%s: no such claim, or twice" % command)
        elif call and call.answer[0] == "chosen":
            choice = Choice(before, call.answer[1], interpreter.plan.words)
            if (choice.costs[choice.fields], choice.fields) != (choice.cost, choice.best()[0]):
                sys.exit("a choice behind '%s' is not the best by masks" % claimed)
            if claimed in pending and not pending.pop(claimed)(choice):
                sys.exit("'%s' does not hold" % claimed)
    if pending:
        sys.exit("claimed by no case: %s" % ", ".join(pending))


def examples():
    """The examples, in the order of their numbers."""
    return sorted((ROOT / "examples").glob("*.txt"), key=lambda path: int(path.stem.split("-")[0]))


def expected():
    """Every file that is made, by its path."""
    made, belt = {}, b""
    for path in examples():
        script = path.read_bytes()
        if not script.endswith(b"\n"):
            sys.exit("%s does not end with a line feed" % path)
        made["examples/%s.out" % path.stem] = answers(script)
        belt += script + b"reset\n"
    belt += (ROOT / "tools/questions.txt").read_bytes()
    stated = [(PLAN, STATED), (GAS_PLAN, GAS), (BULLETIN_PLAN, BULLETIN), (URGENT_PLAN, URGENT), (BY_ARRIVAL_PLAN, BY_ARRIVAL)]
    hold_to_stated(belt, stated + CAUSES)
    hold_to_claims(belt)
    drawn = histories.script(HISTORIES, SEED)
    for name, script in (("belt", belt), ("histories", drawn)):
        made["crates/%s/stdin" % name] = script
        made["crates/%s/stdout" % name] = answers(script)
    return made


def main():
    if sys.argv[1:] not in ([], ["write"]):
        sys.exit(__doc__)
    differing = []
    for name, data in expected().items():
        path = ROOT / name
        if sys.argv[1:] == ["write"]:
            path.parent.mkdir(parents=True, exist_ok=True)
            path.write_bytes(data)
        elif not path.exists() or path.read_bytes() != data:
            differing.append(name)
    for name in differing:
        print(name + " differs")
    if not differing:
        print("written" if sys.argv[1:] else "same")
    sys.exit(1 if differing else 0)


if __name__ == "__main__":
    main()
