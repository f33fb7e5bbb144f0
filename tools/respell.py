#!/usr/bin/env python3
"""Brings the repository's own names to the spelling of its Rattle: words in snake case, types in camel case.

usage: tools/respell.py            at the top, once, on what the kit's port.py left; `--list` only prints what it would rename

port.py respells a name only where the library has one like it. Here every definition, lemma, constructor and field that specs/ and proofs/
declare is respelled, so that two neighbours read alike: `holdingOf` is `holding_of`, `power-above` is `power_above`, `Nothing-moved` is
`NothingMoved`. What the kit generates keeps its dashes, and so do the goals of a function's proof, which are named as the kit names them.
Where two names fall together in a file, the lemma gets `_lem`, as the library has it.

The crate `core` becomes `parts`: the kit has a library of that name, and port.py took ours for it.
"""

import collections
import glob
import os
import re
import sys

TOKEN = re.compile(r"[^\W\d][\w'′₀-₉⊎]*(?:-[\w'′₀-₉]+)*|⊎_elim")
DECLARED = re.compile(r"^\s*(?:(?:abbrev|unfoldable|pub|data|record)\s+)*([^\s:(){}.,]+)(?:\s+[({].*)?\s+:(?:\s(.*)|$)")
WORDS = {"record", "data", "open", "use", "module", "where", "let", "in", "as", "elim", "abbrev", "unfold", "pub", "syntax", "ground", "assumption", "search", "grind", "omega", "simp", "rw", "cc", "subst", "hlevel"}
TOKENS = {}
# declared in other forms: several at once, or by a `let` or a `λ`
OTHERS = ["andPop", "byBatch", "byPop", "answers-done", "idle-t", "is-set-up", "other-lists", "set-up-told"]


def read(path):
    with open(path, encoding="utf-8") as f:
        return f.read()


def write(path, text):
    with open(path, "w", encoding="utf-8") as f:
        f.write(text)


def files(*ends):
    for folder, dirs, names in os.walk("crates"):
        dirs[:] = sorted(d for d in dirs if d != "out")
        for n in sorted(names):
            if n.endswith(ends):
                yield os.path.join(folder, n)


def declared():
    """Each name that specs/ and proofs/ declare, with the files; a goal's answer in a function's proof is the kit's name."""
    found = collections.defaultdict(set)
    for path in files(".antt"):
        for line in read(path).split("\n"):
            m = DECLARED.match(line)
            if not m or line.lstrip().startswith("--"):
                continue
            name, kind = m.group(1), m.group(2) or ""
            if kind.startswith("tie.") or kind.startswith("goal.") or name.endswith(("-spec", "_spec")):
                continue
            if TOKEN.fullmatch(name):
                found[name].add(path)
    for name in OTHERS:
        found[name].add("crates/model/proofs/")
    return found


def imported(text):
    """The names that a file takes from the library."""
    own = "|".join(sorted(os.listdir("crates")))
    lists = re.findall(r"use (?!Rattle\.(?:" + own + r")\.)[\w.]+\.\{([^}]*)\}", text)
    return {n for names in lists for n in re.split(r",\s*", names)}


def snake(part):
    part = re.sub(r"([a-z0-9'])([A-Z])", r"\1_\2", part)
    return part.lower() if part[:1].islower() else part


def respelled(name):
    if name[0].isupper():
        parts = name.split("-")
        return parts[0] + "".join(p[:1].upper() + p[1:] for p in parts[1:])
    return "_".join(snake(p) for p in name.replace("-", "_").split("_"))


def apart(turn, names):
    """Where a file has two names of one new spelling, the lemma gets `_lem`, as in the library; what it would hide is listed."""
    new = collections.defaultdict(set)
    for n in names:
        new[turn.get(n, n)].add(n)
    for m, olds in sorted(new.items()):
        lemmas = [o for o in olds if any("/proofs/" in p for p in names[o])]
        met = any(sum(o in t for o in olds) > 1 for t in TOKENS.values()) if len(olds) > 1 else False
        if met:
            for o in lemmas if len(lemmas) < len(olds) else sorted(olds)[:1]:
                turn[o] = m + "_lem"
                print("together:", m, "of", sorted(olds), "so", o, "is", turn[o])
        elif len(olds) > 1:
            print("apart:", m, "of", sorted(olds), "in no file together")
        if m in WORDS:
            print("a word of the language:", m)
    for path, tokens in TOKENS.items():
        theirs = imported(read(path))
        for n in sorted(tokens):
            m = turn.get(n, n)
            if n in turn and (m in theirs or m in tokens and m not in names):
                print("look:", path, "has", m, "beside", n)


def part(text, own):
    """The paths of the crate that was called core."""
    if own:
        text = text.replace("Rattle.core.specs.Prelude", "Rattle.std.specs.Prelude")
    text = re.sub(r"\bRattle\.core\.(specs|proofs)\b", r"Rattle.parts.\1", text)
    ours = r"(?:Queues|Answers|Out|declared\.(?:answer|out|queue|stage)|contracts\.(?:answer|out|queue|stage))"
    text = re.sub(r"\bRattle\.std\.specs\.(" + ours + r")\b", r"Rattle.parts.specs.\1", text)
    # port.py took this name for one of the library's
    text = re.sub(r"\bfield_own\b", "own_at", text)
    return re.sub(r"\bcore::", "parts::", text)


def rename_core():
    if not os.path.isdir("crates/core"):
        return
    os.rename("crates/core", "crates/parts")
    for path in files(".antt", ".rt", ".edit"):
        text = read(path)
        new = part(text, path.startswith("crates/parts/"))
        if new != text:
            write(path, new)
    write("crates.txt", re.sub(r"\bcore\b", "parts", read("crates.txt")))
    write("README.md", read("README.md").replace("| `core` |", "| `parts` |"))


def main():
    if "--list" not in sys.argv:
        rename_core()
    TOKENS.update({p: set(TOKEN.findall(read(p))) for p in files(".antt", ".rt")})
    names = declared()
    turn = {n: respelled(n) for n in names if respelled(n) != n}
    apart(turn, names)
    if "--list" in sys.argv:
        for n in sorted(turn):
            print(n, turn[n])
        return
    for path in [*files(".antt", ".rt", ".edit"), *glob.glob("docs/*"), "README.md"]:
        text = read(path)
        theirs = imported(text)
        out = []
        for line in text.split("\n"):
            out.append(turned(path, line, turn, theirs))
        new = "\n".join(out)
        if new != text:
            write(path, new)


def turned(path, line, turn, theirs):
    def swap(m):
        name, before = m.group(0), m.string[: m.start()]
        new = turn.get(name, name)
        # a path and a step are the kit's or the source's, and so are the source's functions
        ours = new.endswith("_lem") and (before.endswith(".") or path.endswith(".rt"))
        return name if name in theirs or ours else new

    mark = {".antt": "--", ".rt": "//"}.get(os.path.splitext(path)[1])
    if mark is None and not path.endswith(".edit"):
        return re.sub(r"`[^`]*`", lambda m: TOKEN.sub(swap, m.group(0)), line)
    code, said = line, ""
    if mark:
        at = line.find(mark + " ") if not line.strip().startswith(mark) else line.index(mark)
        if at >= 0:
            code, said = line[:at], line[at:]
    # in what is said a word with a dash is a word; a name stands in backquotes
    said = re.sub(r"`[^`]*`", lambda m: TOKEN.sub(swap, m.group(0)), said)
    # a text is no name
    parts = re.split(r'("(?:[^"\\]|\\.)*")', code)
    return "".join(p if p.startswith('"') else TOKEN.sub(swap, p) for p in parts) + said


if __name__ == "__main__":
    main()
