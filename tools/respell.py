#!/usr/bin/env python3
"""Brings this repository's own definitions and lemmas to today's spelling: words in snake case.

usage: python3 tools/respell.py            at the top of the checkout: rewrites crates/ in place
       python3 tools/respell.py FOLDER     the same over another tree, of .rt, .antt and .txt files

It was run once, right after the kit's own port script, and is kept so that the two steps can be done
again on an older commit to compare the outcome. Only names that specs/ and proofs/ declare, and names
that a proof binds with a dash in them, are turned; functions of src/, strings, comments and what the
kit generates or its library declares keep their spelling.
"""
import os
import re
import sys

# Names whose new spelling is not the old one with its dashes turned: the library's word for the first part is another now.
OTHERS = {
    "getD-below": "slice_index_below",
    "getD-puts": "slice_index_puts",
    "getD-span": "slice_index_span",
}
# Declared by a module, a definition, a record's field or a constructor: a name, then a colon.
DECLARED = re.compile(r"^\s*(?:abbrev |unfoldable )?(?:pub )?(?:unfoldable )?([a-z][\w'-]*)\s+:\s")
# Bound inside a proof: by let, by λ or in parentheses, then a colon or an equals sign.
BOUND = re.compile(r"(?:\blet|[({]|λ)\s+?([a-z][\w']*(?:-[\w']+)+)\s*[:=.]|[({]([a-z][\w']*(?:-[\w']+)+)[ \w'-]*:")
# A lemma of an answer file's own (its type is no goal), and the names that a clause binds left of its equals sign.
OWN = re.compile(r"^(?:pub )?([a-z][\w'-]*) : (?!goal\.|\w+\.[a-z])", re.M)
CLAUSE = re.compile(r"^ *[a-z][\w'-]* ([^=:.;]*) =(?: |$)", re.M)
EDGE = r"(?<![\w'·◌-])%s(?![\w'·◌-])"
COMMENT = {".rt": "//", ".antt": "--"}


def kind(path):
    return os.path.splitext(path[:-4] if path.endswith(".txt") else path)[1]


def files(root):
    for folder, dirs, names in os.walk(root):
        dirs[:] = sorted(d for d in dirs if d not in ("out", "target"))
        for name in sorted(names):
            if kind(name) in COMMENT:
                yield os.path.join(folder, name)


def is_answer(path):
    """Whether a file answers the goals of one function: it stands in a folder below proofs/."""
    parts = path.split(os.sep)
    return "proofs" in parts and parts.index("proofs") < len(parts) - 2


def turned(name):
    return OTHERS.get(name, name.replace("-", "_"))


def split_comment(line, mark):
    """The line's code and its comment; a mark inside a string is no comment."""
    quoted = False
    for i, ch in enumerate(line):
        if ch == '"' and (i == 0 or line[i - 1] != "\\"):
            quoted = not quoted
        if not quoted and line.startswith(mark, i) and (i == 0 or line[i - 1] in " \t"):
            return line[:i], line[i:]
    return line, ""


def outside_strings(code, change):
    parts = re.split(r'("(?:[^"\\]|\\.)*")', code)
    return "".join(p if i % 2 else change(p) for i, p in enumerate(parts))


def declared(paths):
    names = set()
    for path in paths:
        if kind(path) != ".antt" or is_answer(path):
            continue
        with open(path, encoding="utf-8") as f:
            for line in f:
                code, _ = split_comment(line, "--")
                m = DECLARED.match(code)
                if m and "-" in m.group(1):
                    names.add(m.group(1))
    return names


def rewrite(path, names):
    with open(path, encoding="utf-8") as f:
        text = f.read()
    here = set(names)
    local = set()
    if kind(path) == ".antt":
        local = {a or b for a, b in BOUND.findall(text)}
        if is_answer(path):
            local |= set(OWN.findall(text))
        for args in CLAUSE.findall(text):
            local |= set(re.findall(r"(?<![\w'-])[a-z][\w']*(?:-[\w']+)+", args))
        local = {n for n in local if "-" in n} - here
    table = {n: turned(n) for n in here}
    pattern = re.compile(EDGE % ("(" + "|".join(sorted(map(re.escape, table), key=len, reverse=True)) + ")")) if table else None
    own = re.compile(r"(?<!\.)" + EDGE % ("(" + "|".join(sorted(map(re.escape, local), key=len, reverse=True)) + ")")) if local else None

    def change(code):
        if pattern:
            code = pattern.sub(lambda m: table[m.group(1)], code)
        if own:
            code = own.sub(lambda m: turned(m.group(1)), code)
        return code

    out = []
    for line in text.split("\n"):
        code, comment = split_comment(line, COMMENT[kind(path)])
        out.append(outside_strings(code, change) + comment)
    new = "\n".join(out)
    if new != text:
        with open(path, "w", encoding="utf-8") as f:
            f.write(new)
        return True
    return False


def main():
    root = sys.argv[1] if len(sys.argv) > 1 else "crates"
    paths = list(files(root))
    names = declared(paths)
    together = {}
    for n in sorted(names):
        together.setdefault(turned(n), []).append(n)
    for new, old in sorted(together.items()):
        if len(old) > 1:
            print(f"fall together as {new}: {', '.join(old)}")
    changed = sum(rewrite(p, names) for p in paths)
    print(f"{len(names)} names, {changed} of {len(paths)} files changed")


if __name__ == "__main__":
    main()
