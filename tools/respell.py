#!/usr/bin/env python3
"""Spells this repository's own definitions and lemmas in snake case, once, right after the kit's port.py.

usage: tools/respell.py [--check]      at the top of the repository; --check lists the names and writes nothing

A name that specs/ or proofs/ declare turns where it has a dash or a capital after its first letter's small one: badDepth to
bad_depth, any-more to any_more. Types, facts, modules and constructors keep their capital, a Rust name keeps its spelling, and a
name that a file imports from a library stays in that file. Names that a proof of a function declares for itself turn too.
"""
import os
import re
import sys

NAME = r"[^\s(){}.;,@\"«»]+"
HEAD = re.compile(rf"^ *(?:abbrev |unfoldable |private )?(?:pub )?({NAME})(?: \{{[^{{}}\n]*\}})* :(?= |$)", re.M)
BOUND = re.compile(rf"[({{]((?:{NAME} )+): ")
RECORD = re.compile(r"^ *(?:pub )?record [^\n]* where\n((?:(?: [^\n]*)?\n)+)", re.M)
USE = re.compile(r"^(?:ghost )?use ([^\s;{]+)\.\{([^}]*)\};?$", re.M)
TOKEN = re.compile(r"\.?" + NAME)
# a name behind a module's short name, as R.badPlane
BEHIND = re.compile(rf"\b([A-Z][A-Za-z]*)\.({NAME})")
QUIET = re.compile(r"--[^\n]*|\"[^\"\n]*\"")
KEPT = {"→"}


def snake(name):
    words = re.sub(r"(?<=[a-z0-9])([A-Z]+)", lambda m: "_" + m[1].lower(), name)
    return words.replace("-", "_")


def turns(name):
    plain = re.fullmatch(r"[a-z][A-Za-z0-9_'₀-₉-]*", name)
    return bool(plain) and (re.search(r"[a-z0-9][A-Z]|[A-Za-z0-9₀-₉']-[A-Za-z0-9]", name) is not None) and name not in KEPT


def files(root):
    for folder, dirs, names in os.walk(os.path.join(root, "crates")):
        dirs[:] = sorted(d for d in dirs if d != "out")
        for f in sorted(names):
            if f.endswith((".rt", ".antt")):
                yield os.path.join(folder, f)


def imported(text):
    """The names that a file has from a library, not from this repository."""
    found = set()
    for m in USE.finditer(text):
        if not m[1].startswith("Rattle.") or m[1].startswith("Rattle.std."):
            for it in m[2].split(","):
                found.add(it.split(" as ")[-1].strip())
    return found


def main(argv):
    check = argv[1:] == ["--check"]
    if argv[1:] and not check:
        print(__doc__)
        return 2
    texts = {p: open(p, encoding="utf-8").read() for p in files(".")}
    heads, bound, plain, fields = set(), set(), {}, set()
    for p, t in texts.items():
        if p.endswith(".antt"):
            bare = QUIET.sub("", t)
            for m in HEAD.finditer(bare):
                if turns(m[1]):
                    heads.add(m[1])
                else:
                    plain.setdefault(m[1], set()).add(p)
            for m in BOUND.finditer(bare):
                bound.update(n for n in m[1].split() if turns(n))
            for m in RECORD.finditer(bare):
                fields.update(f[1] for f in HEAD.finditer(m[1]))
    # a definition has its plain name; a lemma that would have it too gets _lem behind it
    words = {n: snake(n) for n in heads | bound if "-" not in n}
    lemmas = {n: snake(n) for n in heads | bound if "-" in n}
    for n, new in lemmas.items():
        if n in heads and (new in words.values() or new in plain):
            lemmas[n] = new + "_lem"
    moved = {}
    for old, new in words.items():
        for p in plain.get(new, ()):
            if re.search(rf"(?<![\w.-]){old}(?![\w-])", texts[p]):
                moved.setdefault(p, {})[new] = new + "_lem"
    declared = words | lemmas
    taken = {}
    for old, new in sorted(declared.items()):
        taken.setdefault(new, []).append(old)
    for new, olds in taken.items():
        if len(olds) > 1:
            print(f"together: {' '.join(olds)} would all be {new}")
    for p, its in moved.items():
        print(f"moved: {p}: {' '.join(its)}, and where others import it, by hand")
    changed = 0
    for p, t in texts.items():
        foreign = imported(t)
        words = set(re.findall(NAME, QUIET.sub("", t)))
        out = []

        def turn(m):
            word = m[0]
            dot = word.startswith(".")
            bare = word[1:] if dot else word
            if bare in moved.get(p, {}) and not dot:
                return moved[p][bare]
            if bare not in declared or (bare not in fields if dot else bare in foreign):
                return word
            if declared[bare] in words and not dot:
                clash.add((bare, declared[bare]))
            return ("." if dot else "") + declared[bare]

        clash = set()
        if p.endswith(".antt"):
            last = 0
            for q in QUIET.finditer(t):
                out.append(TOKEN.sub(turn, t[last : q.start()]))
                out.append(TOKEN.sub(turn, q[0]) if q[0].startswith("--") else q[0])
                last = q.end()
            out.append(TOKEN.sub(turn, t[last:]))
            new = "".join(out)
        else:
            new = rust(t, turn)
        new = BEHIND.sub(lambda m: f"{m[1]}.{declared.get(m[2], m[2])}", new)
        for a, b in sorted(clash):
            print(f"meet: {p}: {a} and {b}")
        if new != t:
            changed += 1
            if not check:
                open(p, "w", encoding="utf-8").write(new)
    if check:
        for old, new in sorted(declared.items()):
            print(f"{old} {new}")
    print(f"{changed} files, {len(declared)} names")
    return 0


CLAUSE = re.compile(r"(?:requires|ensures)\*?\s*(?:\w+\s*)?\{|ghost\s*(?:\w+\s*:\s*)?\{|ghost use [^;]*;")


def rust(text, turn):
    """Turns the clauses and the ghost use items of a source file, and the code spans of its comments."""
    out, at = [], 0
    while True:
        m = CLAUSE.search(text, at)
        if not m:
            break
        end = m.end()
        if not m[0].startswith("ghost use"):
            depth = 1
            while depth:
                depth += {"{": 1, "}": -1}.get(text[end], 0)
                end += 1
        out.append(text[at : m.start()])
        out.append(TOKEN.sub(turn, text[m.start() : end]))
        at = end
    out.append(text[at:])
    return "".join(out)


if __name__ == "__main__":
    raise SystemExit(main(sys.argv))
