"""Draws new histories and compares the built program with the model: python3 tools/draw.py N [SEED] [PROGRAM]

N histories are drawn in batches of 50, for as long as one likes if N is 0. The first batch has the seed that is given, or one from the
clock, every other the seed before it plus 1. The program, crates/histories/out/histories if none is given, runs on each batch, and what
it writes is compared with the answers of script.py. At the first difference the script is left in target/.
"""

import io
import subprocess
import sys
import time
from pathlib import Path

import histories
from model import WORD
from script import Interpreter

ROOT = Path(__file__).resolve().parent.parent
BATCH = 50


def answered(script):
    """The lines of the answers, each with the number of the script's line, and how many calls were made."""
    said = []
    interpreter = Interpreter(lambda data: said.append((interpreter.lines, data)))
    interpreter.feed(script)
    interpreter.end()
    return said, interpreter.counts["calls"]


def show_difference(said, lines):
    """The first line that the program writes another."""
    for i in range(max(len(said), len(lines))):
        number, wanted = said[i] if i < len(said) else (said[-1][0], b"")
        line = lines[i] if i < len(lines) else b""
        if line != wanted:
            print("line %d of the script" % number)
            print("the model:   %s" % (wanted.decode("latin-1").strip() or "nothing"))
            print("the program: %s" % (line.decode("latin-1").strip() or "nothing"))
            return


def compare(seed, script, program):
    """Runs both on a script and gives the number of calls; ends at a difference."""
    said, calls = answered(script)
    ran = subprocess.run([program], input=script, stdout=subprocess.PIPE)
    if ran.returncode != 0 or ran.stdout != b"".join(data for _, data in said):
        left = ROOT / "target" / ("draw-%d.txt" % seed)
        left.parent.mkdir(exist_ok=True)
        left.write_bytes(script)
        print("seed %d differs, the program ended with %d; the script is %s" % (seed, ran.returncode, left))
        show_difference(said, io.BytesIO(ran.stdout).readlines())
        sys.exit(1)
    return calls


def main():
    if not 2 <= len(sys.argv) <= 4:
        sys.exit(__doc__)
    wanted = int(sys.argv[1])
    seed = int(sys.argv[2]) % WORD if len(sys.argv) > 2 else int(time.time()) % WORD
    program = sys.argv[3] if len(sys.argv) > 3 else str(ROOT / "crates/histories/out/histories")
    print("seeds from %d" % seed, flush=True)
    drawn = calls = 0
    try:
        while wanted == 0 or drawn < wanted:
            batch = BATCH if wanted == 0 else min(BATCH, wanted - drawn)
            calls += compare(seed, histories.script(batch, seed), program)
            drawn, seed = drawn + batch, (seed + 1) % WORD
    except KeyboardInterrupt:
        pass
    print("%d histories with %d calls, all the same" % (drawn, calls))


if __name__ == "__main__":
    main()
