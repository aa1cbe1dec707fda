#!/usr/bin/env python3
"""Brings the repository's own definitions and lemmas to snake case: `waitingAt` to `waiting_at`, `every-member` to `every_member`.

usage: python3 tools/respell.py            at the top of a repository that port.py has turned, once

Renamed are names that files of specs/ and proofs/ declare: definitions, lemmas, fields, constructors. Types and modules keep their upper
camel case, and names that Rattle makes (the goals of Answers.antt and Invariants.antt, labels, parameters) theirs. Functions of src/,
exported names and strings are not touched: in a .rt file only its clauses and its `ghost use` lines are. Pages follow in backticks.
A name whose new spelling is taken stays, and a line 'left:' says so.
"""
import glob
import os
import re
import sys

NAME = r"[^\s(){}.;,@\"«»`]+"
DECLARED = re.compile(r"(?m)^[ ]*(?:(?:abbrev|unfoldable|pub|pattern) )*(" + NAME + r")(?: \{[^{}\n]*\})* :(?=[ \n])(.*)")
TOKEN = re.compile(r"(?<![^\s(){}.;,@\"«»`])" + NAME)
# what Rattle asks for in a function's folder of proofs/
ASKED = re.compile(r"^\s*(?:goal|needs|need|Goals|Given)\.")
MADE = re.compile(r"/proofs/.+/(Answers|Invariants)\.antt$")
# a name that the library spells anew, inside a name of the repository's own
PARTS = {"getD": "get_or", "get_d": "get_or"}


def snake(name):
    for old, new in PARTS.items():
        name = re.sub(rf"(?<![A-Za-z]){old}(?![a-z])", new, name)
    words = []
    for part in name.split("-"):
        if part[:1].islower():
            part = re.sub(r"(?<=[a-z0-9])([A-Z]+)", lambda m: "_" + m[1].lower(), part)
        words.append(part)
    return "_".join(words)


def files(*patterns):
    return sorted({p for t in patterns for p in glob.glob(t, recursive=True) if "/out/" not in p})


def declared(paths):
    names, made, fields = set(), set(), set()
    for path in paths:
        text = open(path, encoding="utf-8").read()
        for m in DECLARED.finditer(text):
            name, rest = m[1], m[2]
            if ASKED.match(rest):
                made.add(name)
            else:
                names.add(name)
    return names, made


def rust_words(paths):
    words = set()
    for path in paths:
        text = open(path, encoding="utf-8").read()
        text = re.sub(r"//.*", "", text)
        # parameters, fields, constants and items
        words |= set(re.findall(r"\b(\w+):(?!:)", text))
        words |= set(re.findall(r"\b(?:const|static|type|mod|struct|enum|trait)\s+(\w+)", text))
    return words


def clauses(text, turn):
    """Turns the clauses and the ghost lines of a .rt file."""
    out, i = [], 0
    start = re.compile(r"\bghost use [^;]*;|(?:\b(?:requires|ensures)\*?(?: \w+)?|\bghost \w+:) \{|#!?\[tactic\([^\n]*\]")
    while True:
        m = start.search(text, i)
        if not m:
            out.append(text[i:])
            return "".join(out)
        out.append(text[i:m.start()])
        end = m.end()
        if m[0].endswith("{"):
            depth = 1
            while depth:
                depth += {"{": 1, "}": -1}.get(text[end], 0)
                end += 1
        out.append(turn(text[m.start():end]))
        i = end


def main():
    logic = files("crates/*/specs/**/*.antt", "crates/*/proofs/**/*.antt")
    code = files("crates/*/src/**/*.rt")
    names, made = declared(logic)
    imported = set()
    for path in logic:
        for use in re.finditer(r"(?m)^\s*(?:unfoldable )?(?:pub )?use ([^{\n]+)\{([^}]*)\}", open(path, encoding="utf-8").read()):
            if use[1].startswith("Rattle.std") or not use[1].startswith("Rattle."):
                imported |= {x.strip().split(" as ")[-1] for x in use[2].split(",")}
    taken = names | imported
    rust = rust_words(code)
    table, goal = {}, {}

    def give(name, new):
        if name in made:
            print(f"left: {name}: Rattle makes this name too")
        elif new in rust:
            print(f"left: {name}: {new} is a parameter, a field, a constant or an item of src/")
        elif new in goal:
            print(f"left: {name}: {new} is taken by {goal[new]}")
        else:
            table[name] = new
            goal[new] = name

    # definitions first, in camel case; a lemma that would have a definition's name ends in `_lem`
    for name in sorted(n for n in names if "-" not in n and snake(n) != n):
        new = snake(name)
        if new in taken:
            if new not in names or new in imported or new + "_lem" in taken:
                print(f"left: {name}: {new} is taken")
                continue
            table[new] = new + "_lem"
            goal[new + "_lem"] = new
            print(f"both: {name} is {new}, and {new} is {new}_lem")
        give(name, new)
    for name in sorted(n for n in names if "-" in n and snake(n) != n):
        new = snake(name)
        if new in taken and new not in table or new in goal:
            print(f"both: {new} is taken: {name} is {new}_lem")
            new += "_lem"
        give(name, new)

    def turn(text):
        return TOKEN.sub(lambda m: table.get(m[0], m[0]), text)

    def turn_logic(path, text):
        if not MADE.search(path) and not "/Proof" in path:
            return turn(text)
        # behind these heads stand names that Rattle makes
        return re.sub(r"(\b(?:goal|goals|needs|need|c|l|g|w)(?:\.[^\s(){};,@\"]+)+)|(" + TOKEN.pattern + ")",
                      lambda m: m[1] or table.get(m[2], m[2]), text)

    count = 0
    for path in logic + code + files("*.md", "docs/**/*.md"):
        old = open(path, encoding="utf-8").read()
        if path.endswith(".antt"):
            new = turn_logic(path, old)
        elif path.endswith(".rt"):
            new = clauses(old, turn)
        else:
            new = re.sub(r"`[^`\n]+`", lambda m: turn(m[0]), old)
        if new != old:
            count += 1
            with open(path, "w", encoding="utf-8") as f:
                f.write(new)
    print(f"respelled: {len(table)} names in {count} files")


if __name__ == "__main__":
    sys.exit(main())
