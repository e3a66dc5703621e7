#!/usr/bin/env python3
"""Spells the repository's own definitions and lemmas in snake case: once, after the scripts of the toolchain.

usage: tools/respell.py [--list]        at the top of the repository

A name that a file of specs/ or proofs/ declares, or binds, and that has a capital or a dash between its words, gets
plain underscores, unless a library has it; a name that begins with a capital keeps its dash, and a prime is an
apostrophe. Where two names fall together, the lemma gets the ending `_lem`. A name that only the proof of one function
declares keeps its dash: it stands for a goal. What stands behind `tie.`, `lts.` or `goal.` is a name of the toolchain's
and stays, and so does a module in a path. In src/ only clauses and `ghost use` items turn; in pages and comments what
stands between backticks. --list writes nothing and prints each old name, a tab and the new one.
"""
import collections
import os
import re
import sys

WORD = r'[^\s(){}.;,@"«»`\[\]]+'
QUIET = re.compile(r'(?<![^\s(){}.;,@"«»])--[^\n]*|\{-.*?-\}|"(?:[^"\\\n]|\\.)*"', re.S)
MARKS = r"(?:(?:pub|abbrev|unfoldable|pattern|axiom) +)*"
DECLARED = re.compile(rf"(?m)^ *{MARKS}({WORD})(?: \{{[^{{}}\n]*\}})* :(?=\s)")
BOUND = re.compile(rf"[({{]([^(){{}}:;,.\"]+?) :(?=\s)|\blet ({WORD}) [:=]|λ ((?:{WORD} ?)+)\.")
USE = re.compile(r"\buse ([^\s;{]+)(\{[^;]*?\}(?=;|[ \t]*$))?(?: as ([^\s;]+))?", re.M)
OF_FUNCTION = re.compile(r"/proofs/[^/]+/(.*/)?[^/]+\.antt$")
CLAUSE = re.compile(r"\b(?:requires|ensures)\*?(?:\s+\w+)?\s*\{|\bghost\s+\w+\s*:\s*\{|\bghost\s+use\b")
SPAN = re.compile(r"`[^`\n]+`")
MADE = ("tie", "lts", "goal", "Need", "kinds")
TOKEN = re.compile(rf"({WORD})")


def texts(kinds):
    for folder, dirs, files in os.walk("crates"):
        dirs[:] = sorted(d for d in dirs if d != "out")
        for f in sorted(files):
            if f.endswith(kinds):
                yield os.path.join(folder, f)


def read(path):
    with open(path, encoding="utf-8") as f:
        return f.read()


def is_camel(name):
    return re.match(r"[a-zα-ω].*[a-z0-9₀-₉′'][A-Z]", name) is not None


def is_odd(name):
    return is_camel(name) or "′" in name or (re.match(r"[a-zα-ω0-9]", name) and "-" in name.strip("-"))


def snake(name):
    name = name.replace("′", "'")
    if re.match(r"[A-Z]", name):
        return name
    name = re.sub(r"(?<=[a-z0-9₀-₉'])[A-Z]", lambda m: "_" + m[0].lower(), name)
    return name.replace("-", "_")


def gather():
    declared, bound, said = collections.defaultdict(set), collections.Counter(), collections.Counter()
    lent = set()
    for path in texts((".antt",)):
        text = QUIET.sub(" ", read(path))
        for m in DECLARED.finditer(text):
            declared[m[1]].add(path)
        for m in BOUND.finditer(text):
            for w in (m[1] or m[2] or m[3]).split():
                bound[w] += 1
        for m in USE.finditer(text):
            if m[3]:
                bound[m[3]] += 1
            if m[2] and not re.match(r"Rattle\.(\w+)", m[1]) or m[2] and not os.path.isdir("crates/" + m[1].split(".")[1]):
                lent |= {w.split(" as ")[0].strip() for w in m[2][1:-1].split(",")}
        for w in TOKEN.findall(text):
            said[w] += 1
    return declared, bound, said, lent


def table():
    declared, bound, said, lent = gather()
    alone = {w for w, where in declared.items() if all(OF_FUNCTION.search(p) for p in where)}
    turns = {}
    for w in set(declared) | set(bound):
        if is_odd(w) and w not in lent and not (w in alone and not is_camel(w) and "′" not in w):
            turns[w] = snake(w)
    turns |= {w: w.replace("′", "'") for w in said if "′" in w and w not in turns and w not in lent}
    meets = collections.defaultdict(list)
    for old, new in turns.items():
        meets[new].append(old)
    for new, olds in list(meets.items()):
        camels = [w for w in olds if is_camel(w)]
        taken = new in declared and new not in turns
        lemmas = [w for w in olds if w not in camels] if camels or taken else []
        for w in lemmas:
            turns[w] = new + "_lem"
        if camels and taken:
            turns[new] = new + "_lem"
    return {old: new for old, new in turns.items() if old != new}


def turned(text, turns):
    """The text with each word of the table turned, but for those behind a name that the toolchain makes, and modules."""
    parts = TOKEN.split(text)
    path = False
    for i in range(1, len(parts), 2):
        behind = parts[i - 1] == "."
        path = parts[i] == "Rattle" or path and behind
        module = path and parts[i + 1].startswith(".")
        made = behind and i > 1 and old in MADE
        old = parts[i]
        if not module and not made:
            parts[i] = turns.get(old, old)
    return "".join(parts)


def of_antt(text, turns):
    out, at = [], 0
    for m in QUIET.finditer(text):
        out.append(turned(text[at:m.start()], turns))
        quiet = m[0]
        out.append(quiet if quiet.startswith('"') else SPAN.sub(lambda s: turned(s[0], turns), quiet))
        at = m.end()
    return "".join(out) + turned(text[at:], turns)


def closed(text, at):
    depth = 0
    for i in range(at, len(text)):
        depth += {"{": 1, "}": -1}.get(text[i], 0)
        if depth == 0 and text[i] == "}":
            return i + 1
    return len(text)


def of_rust(text, turns):
    out, at = [], 0
    for m in CLAUSE.finditer(text):
        if m.start() < at:
            continue
        out.append(SPAN.sub(lambda s: turned(s[0], turns), text[at:m.start()]))
        end = text.index(";", m.end()) if m[0].startswith("ghost") and m[0].endswith("use") else closed(text, m.end() - 1)
        out.append(turned(text[m.start():end], turns))
        at = end
    return "".join(out) + SPAN.sub(lambda s: turned(s[0], turns), text[at:])


def write(path, text, old):
    if text != old:
        with open(path, "w", encoding="utf-8") as f:
            f.write(text)


def pages():
    yield "README.md"
    for folder in ("docs", "bench", "campaigns", "rust"):
        for f in sorted(os.listdir(folder)):
            if f.endswith(".md"):
                yield os.path.join(folder, f)


def main():
    turns = table()
    if "--list" in sys.argv:
        print("\n".join(f"{old}\t{new}" for old, new in sorted(turns.items())))
        return
    for path in texts((".antt",)):
        old = read(path)
        write(path, of_antt(old, turns), old)
    for path in texts((".rt",)):
        old = read(path)
        write(path, of_rust(old, turns), old)
    for path in pages():
        old = read(path)
        write(path, SPAN.sub(lambda s: turned(s[0], turns), old), old)


main()
