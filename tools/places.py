#!/usr/bin/env python3
"""Lists the places in src/ that may read like an older language.

    places.py [COMMIT]

A line for each candidate, by kind; a reader decides which of them are
places. Without COMMIT it reads the work tree.
"""

import collections
import re
import subprocess
import sys

LINES = {
    "1a variant that says none, some, this or that": r"^\s+(None|Some|Ok|Err|This|That|No[A-Z]\w*)\b[^=]*,$",
    "1b bool beside a value": r"^(?!.*->\s*bool).*\bbool\b",
    "1c number in an arm": r"=> \d+,|^\s+\d[\d_]* =>|=> \"\",",
    "1d number that says which": r"fn .*\b(i|j|region|kind|number|place): usize",
    "3a loop": r"^\s*(for\b.* in |while |loop \{)",
    "3b elements by hand": r"^\s+(.*\[0\]\)?,|hex_digit\(word, 28\),)$",
    "4a conversion by hand": r"fn (from_\w+|to_\w+|as_\w+|number|place|layer|state_of|block_of|told|code)\b",
    "4b printing by hand": r"fn (push_\w+|write_\w+|name|phrase|detail|hex_digit|is)\b",
    "4c widening by `as`": r"\bas (u64|u128|usize)\b",
    "6a fixed buffer": r"\[[a-z]\w*; ?\w+\]",
    "6b length beside": r"^\s+(len|used|count): usize,",
    "7a chain of choices": r"^\s*\} else if ",
}


def sources(commit):
    if commit is None:
        names = subprocess.run(["git", "ls-files", "--cached", "--others", "--exclude-standard", "crates"],
                               capture_output=True, text=True, check=True).stdout.split()
    else:
        names = subprocess.run(["git", "ls-tree", "-r", "--name-only", commit, "crates"], capture_output=True,
                               text=True, check=True).stdout.split()
    for name in sorted(names):
        if not re.search(r"/src/.*\.rt$", name):
            continue
        if commit is None:
            try:
                text = open(name).read()
            except FileNotFoundError:
                continue
        else:
            text = subprocess.run(["git", "show", f"{commit}:{name}"], capture_output=True, text=True,
                                  check=True).stdout
        yield name, text


def clauses(texts):
    """Clause lines and parameter pairs that stand in three or more functions."""
    facts, pairs = collections.defaultdict(list), collections.defaultdict(list)
    for name, text in texts:
        for head in re.finditer(r"\bfn (\w+)[^(]*\(([^{;]*?)\)(.*?)\n\s*(\{|\})", text, re.S):
            where = f"{name[7:]}:{head[1]}"
            for clause in re.findall(r"^\s*((?:requires|ensures)[^\n]*)", head[3], re.M):
                facts[clause].append(where)
            names = re.findall(r"(\w+): ([^,\n]+)", head[2])
            for i, one in enumerate(names):
                for two in names[i + 1:]:
                    pairs[f"{one[0]}: {one[1]}, {two[0]}: {two[1]}"].append(where)
    return facts, pairs


def main():
    texts = list(sources(sys.argv[1] if len(sys.argv) > 1 else None))
    for kind, pattern in LINES.items():
        hits = [(name, i + 1, line.strip()) for name, text in texts
                for i, line in enumerate(text.split("\n"))
                if re.search(pattern, line) and not line.strip().startswith(("//", "ghost use"))]
        print(f"{kind}: {len(hits)}")
        for name, i, line in hits:
            print(f"    {name[7:]}:{i}: {line}")
    for title, table in zip(("5a clause", "5b pair of parameters"), clauses(texts)):
        for text, where in sorted(table.items(), key=lambda row: (-len(row[1]), row[0])):
            if len(where) >= 3:
                print(f"{title} in {len(where)} functions: {text}")
                print(f"    {' '.join(where)}")


main()
