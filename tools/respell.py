#!/usr/bin/env python3
"""Spells the repository's own definitions and lemmas as today's Rattle does: in snake case, without a dash.

    tools/respell.py        once, after port.py: rewrites specs/, proofs/, the clauses and comments of src/, must-fail/,
                            README.md and docs/, and prints what it changed

A name is turned if a file of specs/ or of proofs/ declares it, begins with a small letter or holds a dash, and holds a
capital or a dash inside. Types keep their camel case. A name that a file imports from a library stays in that file, and
so does one behind `tie.`, `goal.` or `c.`, which Rattle makes.
A lemma that would get its function's name gets `_lem` after it. must-fail/ and the pages, which port.py leaves, are
turned for the names that it turned too, as far as `older`, the commit before it, has them.
"""
import collections
import os
import re
import subprocess
import sys

NAME = r"[^\s(){}.;,@\"«»:`\[\]]+"
DECLARES = re.compile(r"^ *(?:(?:abbrev|unfoldable|pub|syntax) )*(%s)(?: \{[^{}\n]*\})* :(?:\s|$)" % NAME)
TOKEN = re.compile(r"(?<![^\s(){}.;,@\"«»:`\[\]|+])(%s)(?![^\s(){}.;,@\"«»:`\[\]|+])" % r"[^\s(){}.;,@\"«»:`\[\]|+]+")
USE = re.compile(r"^ *(?:ghost )?use ([^\s{;]+)\.\{([^}]*)\}", re.M)
MADE = ("tie", "goal", "c")
# lemmas that would get their function's name, and those that port.py gave such a name
LEM = {"one-of", "in-turn"}
TURNED = {"to_in", "from_in", "position_in", "same_kind", "in_order"}


def snake(name):
    words = re.sub(r"(?<=[a-z0-9])[A-Z]", lambda m: "_" + m[0].lower(), name)
    words = re.sub(r"^[A-Z](?=-)", lambda m: m[0].lower(), words.replace("-A", "-a").replace("-B", "-b").replace("-C", "-c"))
    return words.replace("-", "_")


def files(kinds):
    for folder, dirs, names in os.walk("crates"):
        dirs[:] = sorted(d for d in dirs if d != "out")
        for name in sorted(names):
            if name.endswith(kinds):
                yield os.path.join(folder, name)


def is_turned(name):
    if name.startswith("Need") or re.fullmatch(r"-+", name):
        return False
    return bool(re.match(r"[a-zA-Z]", name)) and snake(name) != name and (name[0].islower() or "-" in name)


def declared(texts):
    """Each own name: the files that declare it."""
    found = collections.defaultdict(set)
    for path, text in texts.items():
        for line in text.splitlines():
            m = DECLARES.match(line)
            if m and not re.search(r" : (tie|goal)\.", line):
                found[m[1]].add(path)
    return found


def imported(text, crates):
    """What a file takes from a library, under the name that it has there."""
    out = set()
    for m in USE.finditer(text):
        steps = m[1].split(".")
        if steps[0] == "Rattle" and len(steps) > 1 and steps[1] in crates:
            continue
        for item in m[2].split(","):
            out.add(item.split(" as ")[-1].strip())
    return out


def older():
    """Each name that port.py turned, from the commit before it: its declarations stand in the same order."""
    for commit in ("HEAD", "HEAD~1", "HEAD~2"):
        run = lambda *words: subprocess.run(["git", *words], capture_output=True, text=True).stdout
        if "Rattle\u00b7" in run("show", commit + ":crates/octets/src/lib.rt"):
            break
    turned = {}
    for path in files((".antt",)):
        was = [m[1] for m in map(DECLARES.match, run("show", commit + ":" + path).splitlines()) if m]
        now = [m[1] for m in map(DECLARES.match, open(path, encoding="utf-8")) if m]
        if len(was) == len(now):
            turned.update((a, b) for a, b in zip(was, now) if a != b and "returns" not in a and "Need" not in b)
    return turned


def parts(path, text, turn):
    """Turns the code; of a comment and of a page the code spans alone, and of a page the blocks too."""
    spans = lambda line: re.sub(r"`[^`\n]*`", lambda m: turn(m[0]), line)
    out, fenced = [], False
    for line in text.splitlines(keepends=True):
        if path.endswith(".md"):
            if line.lstrip().startswith("```"):
                fenced = not fenced
            out.append(turn(line) if fenced or line.startswith("    ") else spans(line))
            continue
        mark = {".antt": r"(?:^|(?<=\s))--.*", ".rt": r"(?:^|(?<=\s))//.*", ".edit": r"^#.*"}["." + path.split(".")[-1]]
        m = re.search(mark, line)
        out.append(turn(line[: m.start()]) + spans(line[m.start() :]) if m else turn(line))
    return "".join(out)


def main():
    crates = set(os.listdir("crates"))
    texts = {p: open(p, encoding="utf-8").read() for p in files((".antt",))}
    own = declared(texts)
    rows = {n: snake(n) for n in own if is_turned(n)}
    back = collections.defaultdict(set)
    for old, new in rows.items():
        back[new].add(old)
    for new, olds in sorted(back.items()):
        for old in olds:
            if old in LEM or len(olds) > 1 and "-" in old:
                rows[old] = new + "_lem"
    # a new name that some file has already, for something else
    for path, text in texts.items():
        words = set(TOKEN.findall(text))
        for old in words & set(rows):
            if rows[old] in words:
                print("meets:", path, old, rows[old])
    turned = older()
    if "--look" in sys.argv:
        print(turned)
        return
    for path in list(files((".antt", ".rt", ".edit"))) + ["README.md"] + sorted(
        os.path.join(f, n) for f, _, ns in os.walk("docs") for n in ns if n.endswith(".md")
    ):
        text = open(path, encoding="utf-8").read()
        theirs = imported(text, crates) if path.endswith((".antt", ".rt")) else set()
        lemmas = set()
        if path.endswith(".antt"):
            for name in TURNED:
                if path in own.get(name, ()) or any(
                    ".proofs." in m[1] and name in [i.strip() for i in m[2].split(",")] for m in USE.finditer(text)
                ):
                    lemmas.add(name)

        def turn(m):
            word = m[1]
            if path.endswith((".edit", ".md")):
                word = turned.get(word, word)
            if word in lemmas and not m.string[: m.start()].endswith("."):
                return word + "_lem"
            if word not in rows or word in theirs:
                return word
            before = re.search(r"(\w+)\.$", m.string[max(0, m.start() - 20) : m.start()])
            if before and before[1] in MADE:
                return word
            return rows[word]

        new = parts(path, text, lambda part: TOKEN.sub(lambda m: turn(m), part))
        if new != text:
            open(path, "w", encoding="utf-8").write(new)
    print(len(rows), "names turned")


if __name__ == "__main__":
    main()
