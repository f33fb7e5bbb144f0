"""Lists functions of crates/*/src whose bodies are the same once every name and number in them is one letter: python3 tools/twins.py [LEAST]
A body of fewer than LEAST tokens (24, where none is given) tells nothing."""
import re
import subprocess
import sys

least = int(sys.argv[1]) if len(sys.argv) > 1 else 24
token = re.compile(r"b?'(?:\\.|[^\\'])'|b?\"[^\"]*\"|[A-Za-z_]\w*|\d\w*|::|=>|->|[=!<>]=|&&|\|\||\S")
head = re.compile(r"^( *)(?:pub(?:\(\w+\))? )?(?:extern \"C\" )?fn (\w+)")
kept = {"match", "if", "else", "let", "mut", "return", "while", "for", "in", "self", "true", "false"}


def functions(lines):
    """Each function's name and body, which begins behind a brace alone in its line or at the end of the head; a declaration has none."""
    for at, line in enumerate(lines):
        found = head.match(line)
        if not found:
            continue
        indent, name = found.groups()
        start = at
        while not lines[start].endswith((";", "{", "{}")):
            start += 1
        if lines[start].endswith("{"):
            end = lines.index(indent + "}", start)
            yield name, "\n".join(lines[start + 1 : end])


def skeleton(body):
    words = []
    for word in token.findall(re.sub(r"//.*", "", body)):
        if re.match(r"\w", word) and word not in kept:
            word = "x"
        if word == "x" and words[-2:] == ["x", "::"]:
            words.pop()
            continue
        words.append(word)
    return words


groups = {}
for path in subprocess.check_output(["git", "ls-files", "crates/*/src/*.rt"], text=True).split():
    for name, body in functions(open(path).read().split("\n")):
        words = skeleton(body)
        if len(words) >= least:
            groups.setdefault(" ".join(words), []).append(f"{path}:{name}")
twins = [names for names in groups.values() if len(names) > 1]
for names in sorted(twins):
    print(" ".join(names))
print(len(twins), "groups,", sum(map(len, twins)), "functions")
