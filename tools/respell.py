#!/usr/bin/env python3
"""Brings the names of this repository's own definitions and lemmas to the spelling of today's Rattle: words in snake case,
types and modules in camel case.

usage: tools/respell.py [--list]     at the top; --list only prints the names that change and what they might meet

Run once, right behind the toolchain's own script (docs/PORT.md). It goes by text: a name that a file of specs/ or proofs/
declares, a definition, a lemma, a field, a constructor or a parameter of such, is written anew wherever it stands as a whole
word: in specs/, proofs/, in clauses and comments of src/, in the wrong versions, in README.md, docs/ and .ci/. Names that
Rattle makes of the code (the needs of a proof and their places) keep theirs.
"""
import os
import re
import subprocess
import sys

WORD = r"[^\s(){}\[\].;,:@\"«»`|*/]+"
TOKEN = re.compile(WORD)
HEAD = re.compile(r"(?m)^( *)((?:abbrev |unfoldable |pub )*)([^\s(){}.;,:]+) :(?= |\n)(.*)$")
# The last commit in the older spelling: names that the toolchain's own script turned stand there still in the pages.
LANDED = "6824f697a5065b9c7fd403a72fb3f74e3232d713"
MADE = re.compile(r"tie\.(Need|invariant-loop|decreases-loop)|statement M")


def files():
    out = subprocess.run(["git", "ls-files"], capture_output=True, text=True, check=True).stdout.split("\n")
    return [p for p in out if p and os.path.isfile(p)]


def read(p):
    with open(p, encoding="utf-8") as f:
        return f.read()


def snake(name):
    words = re.sub(r"(?<=[a-z0-9₀-₉])([A-Z])", lambda m: "_" + m[1].lower(), name)
    return words.replace("-", "_")


def turns(name):
    if not re.match(r"[a-z]", name):
        return False  # a type, a fact, an operator
    return snake(name) != name


def declared(text):
    """The names that a file declares, and those that it answers a need of Rattle's by."""
    mine, made = set(), set()
    for m in HEAD.finditer(text):
        (made if MADE.search(m[4]) else mine).add(m[3])
    # the parameters of a definition, a record or a section, and what a lemma binds
    for m in re.finditer(r"[({]((?:%s )+): " % WORD, text):
        mine.update(m[1].split())
    for m in re.finditer(r"\bλ ((?:\(?%s\)? ?)+?)(?:\.| :)" % r"[\w'₀-₉-]+", text):
        mine.update(re.findall(r"[\w'₀-₉-]+", m[1]))
    for m in re.finditer(r"\blet (%s)(?: :| =)" % WORD, text):
        mine.add(m[1])
    return mine - made, made


def landed(paths):
    """The names that the files declared at LANDED."""
    mine = set()
    for p in paths:
        it = subprocess.run(["git", "show", f"{LANDED}:{p}"], capture_output=True, text=True)
        if it.returncode == 0:
            mine |= declared(it.stdout)[0]
    return mine


def main():
    os.chdir(os.path.join(os.path.dirname(os.path.abspath(__file__)), ".."))
    paths = [p for p in files() if p != "tools/respell.py" and not p.endswith("/02-begun.patch")]
    logic = [p for p in paths if p.startswith("crates/") and p.endswith(".antt")]
    names, fields, per, there = set(), set(), {}, set()
    for p in logic:
        text = read(p)
        mine, made = declared(text)
        per[p] = made
        names |= {n for n in mine if turns(n)}
        there |= {n for n in mine if not turns(n)}
        for m in HEAD.finditer(text):
            if m[1] and turns(m[3]):
                fields.add(m[3])
    new = {n: snake(n) for n in names}
    # two names that would fall together: the definition has the new one, and the lemma keeps its dashes
    settled = {new[n] for n in names if "-" not in n}
    new = {n: it for n, it in new.items() if "-" not in n or it not in settled and it not in there}
    # in the pages and the wrong versions also the names that the toolchain's script has turned
    pages = {n: snake(n) for n in landed(logic) if turns(n) and snake(n) in there}
    pages.update(new)
    if "--list" in sys.argv:
        for n in sorted(new):
            print(n, new[n], "field" if n in fields else "")
        tokens = {p: set(TOKEN.findall(read(p))) for p in logic + [q for q in paths if q.endswith(".rt")]}
        by = {}
        for n in new:
            by.setdefault(new[n], []).append(n)
        for it, of in sorted(by.items()):
            if len(of) > 1:
                print("meet:", it, of)
        for p, ts in tokens.items():
            for n in sorted(ts & set(new)):
                if new[n] in ts:
                    print("both:", p, n, new[n])
        return

    def put(p, text):
        made = per.get(p, set())
        logic_too = p.endswith(".antt") or p.endswith(".edit") and re.search(r"(?m)^file: .*\.antt", text)
        alias = {m[1] for m in re.finditer(r"(?m)^use \S+ as (\S+)$", text)} - {"tie"}

        def one(m):
            n = m[0]
            turned = new if p.startswith("crates/") and not p.endswith(".edit") else pages
            if n not in turned or n in made:
                return n
            at = m.start()
            if at and text[at - 1] == "." and "-" in n and p.endswith(".antt"):
                before = re.search(r"(%s)\.$" % WORD, text[:at])
                if n not in fields and not (before and before[1] in alias):
                    return n
            line = text[text.rfind("\n", 0, at) + 1 : at]
            prose = not logic_too or "--" in line or line.startswith("#")
            if "-" in n and prose and not (at and text[at - 1] == ":"):
                return n
            return turned[n]

        return TOKEN.sub(one, text)

    turned = 0
    for p in paths:
        if not (p.endswith((".antt", ".rt", ".edit", ".md", "premises.txt"))):
            continue
        text = read(p)
        after = put(p, text)
        if after != text:
            with open(p, "w", encoding="utf-8") as f:
                f.write(after)
            turned += 1
    print(f"{len(new)} names, {turned} files")


if __name__ == "__main__":
    main()
