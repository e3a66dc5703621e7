#!/usr/bin/env python3
"""Brings the must-fail edits to today's spelling: once, after tools/respell.py.

usage: respell.py --list >TABLE          in a checkout of the commit before respell.py ran
       tools/turn_edits.py TABLE         at the top of the repository: turns each edit of a file of specs/ or proofs/
       tools/turn_edits.py --check [COMMIT]    says which edits do not fit the files as they stand, and with COMMIT also
                                               where a text stands in another place than it did there

A line `old: TEXT` or `new: TEXT` is turned where the edit's file is one of specs/ or proofs/: names by TABLE, paths and
operators as the toolchain's port.py has them, and a projection is written tight. What stands in src/ kept its spelling.
An edit that has come over already stays as it is.
"""
import difflib
import glob
import re
import subprocess
import sys

WORD = r'[^\s(){}.;,@"«»`\[\]]+'
NAMES = {"getD": "get_or"}
ATOM = rf"(?:{WORD}|\([^()]*\))"


def read(path):
    with open(path, encoding="utf-8") as f:
        return f.read()


def edit_of(path):
    """The lines of an edit, and of each pair its file, the numbers of its two lines and its texts."""
    lines, pairs, file = read(path).split("\n"), [], None
    for i, line in enumerate(lines):
        if line.startswith("file: "):
            file = line[6:].strip()
        elif line.startswith("old: "):
            pairs.append([file, i, line[5:], None, None])
        elif line.startswith("new: "):
            pairs[-1][3:] = i, line[5:]
    return lines, pairs


def tight(text):
    """`d .starts j` as `d.starts j`, and `f x .field` as `(f x).field`."""
    text = re.sub(r"\.«(\w+)»", r".\1", text)
    while True:
        m = re.search(r"(?<=\S) \.(?=\w)", text)
        if not m:
            break
        before, after = text[:m.start()], text[m.end():]
        run = re.search(rf"{ATOM}(?: {ATOM})*$", before)
        atoms = re.findall(ATOM, run[0])
        at = max([i + 1 for i, a in enumerate(atoms) if re.fullmatch(r"[^\w(]+", a)] + [0])
        of = " ".join(atoms[at:])
        text = before[:len(before) - len(of)] + (f"({of})" if len(atoms[at:]) > 1 else of) + "." + after
    return re.sub(r"(?<=[\s(])\(((?:\w+\.)+\w+|\([^()]*\)\.\w+)\)", r"\1", text)


def snake(word):
    """What port.py made of a name that is not in the table."""
    return re.sub(r"(?<=[a-z0-9])[A-Z]", lambda m: "_" + m[0].lower(), word) if re.match(r"[a-z]", word) else word


def turned(text, names):
    text = text.replace("List·", "").replace("·", ".")
    text = re.sub(WORD, lambda m: names.get(m[0]) or snake(m[0]), text)
    text = re.sub(r"(?<=[^\w\s(])_(?=[\s)])|(?<=[\s(])_(?=[^\w\s)])", "◌", text)
    return tight(text)


def turn(table):
    names = dict(line.rstrip("\n").split("\t") for line in open(table, encoding="utf-8")) | NAMES
    for path in sorted(glob.glob("crates/*/must-fail/*.edit")):
        lines, pairs = edit_of(path)
        if fits(path, pairs) is None and all(turned(t, names) == t for p in pairs for t in (p[2], p[4])):
            continue
        for file, i, old, j, new in pairs:
            if file.endswith(".antt"):
                lines[i], lines[j] = "old: " + turned(old, names), "new: " + turned(new, names)
        with open(path, "w", encoding="utf-8") as f:
            f.write("\n".join(lines))


def landed(commit, path):
    return subprocess.run(["git", "show", f"{commit}:{path}"], capture_output=True, text=True, check=True).stdout


def fits(path, pairs):
    """What is wrong with an edit, or None."""
    crate, files = path.rsplit("/", 2)[0], {}
    for file, _, old, _, new in pairs:
        text = files.get(file) or read(f"{crate}/{file}")
        if text.count(old) != 1:
            return f"stands {text.count(old)} times: {old}"
        if old == new:
            return f"changes nothing: {old}"
        files[file] = text.replace(old, new)
    return None


def moved(path, pairs, commit):
    """Where the first old text stands on another line of its file than it did at the commit."""
    file, _, old, _, _ = pairs[0]
    _, before = 0, None
    then = landed(commit, f"{path.rsplit('/', 2)[0]}/{file}")
    was = [l for l in landed(commit, path).split("\n") if l.startswith("old: ")][0][5:]
    now = read(f"{path.rsplit('/', 2)[0]}/{file}")
    at, to = then[:then.index(was)].count("\n"), now[:now.index(old)].count("\n")
    a, b = then.split("\n"), now.split("\n")
    plain = lambda l: re.sub(r"[\W_]", "", l).lower()
    for m in difflib.SequenceMatcher(None, [plain(l) for l in a], [plain(l) for l in b], autojunk=False).get_opcodes():
        if m[1] <= at < m[2]:
            inside = m[3] <= to < m[4] and (m[0] != "equal" or to - m[3] == at - m[1])
            return None if inside else f"line {at + 1} of then is line {to + 1}: {old}"


def check(commit):
    bad = count = 0
    for path in sorted(glob.glob("crates/*/must-fail/*.edit")):
        _, pairs = edit_of(path)
        said = fits(path, pairs) or (moved(path, pairs, commit) if commit else None)
        count += 1
        if said:
            bad += 1
            print(f"{path}: {said}")
    print(f"{count} edits, {bad} bad")
    return 1 if bad else 0


if sys.argv[1:2] == ["--check"]:
    sys.exit(check(sys.argv[2] if len(sys.argv) > 2 else None))
turn(sys.argv[1])
