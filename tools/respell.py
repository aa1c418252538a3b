#!/usr/bin/env python3
"""Brings the names of definitions and lemmas to Rattle's spelling: words in snake case, facts in camel case.

Run once at the top of the repository, after port.py. It renames what the files of specs/ and proofs/ define, in
those files, in the ghost parts of src/ and in the edits; names of src/, strings and generated names stay.
"""

import re
import sys
from collections import defaultdict
from pathlib import Path

NAME = r"[^\W\d][\w'-]*"
DEFINED = re.compile(rf"^(\s*)(?:(?:abbrev|pub|data|record|unfoldable)\s+)*({NAME})\s*(?:[({{].*)?:(?!:)")
BY_HAND = {
    "may_of": "MayOf",
    "at-getD": "at_get_or",
    "at-from-getD": "at_from_get_or",
    "getD-mapped": "get_or_mapped",
    "Earlier-place": "EarlierPlace",
    "bit-and": "bit-bit_and",
    "bit-or": "bit-bit_or",
    "bit-mod": "bit-mod",
    "bit-shl": "bit-shl",
    "bit-shr": "bit-shr",
    "condition-bit": "condition_bit_lem",
    "first-packet": "first_packet_lem",
    "lawful-row": "lawful_row_lem",
}
# names that Rattle makes for goals
GENERATED = re.compile(r"^(invariant|decreases|loop|returns|overflow|bounds|ghost)[-_]|-requires\b|^the-invariant")


def snake(name):
    name = re.sub(r"(?<=[a-z0-9])(?=[A-Z])", "_", name)
    return name.replace("-", "_").lower()


def defined(root):
    """The names that specs/ and proofs/ define, with the files that define them."""
    found = defaultdict(set)
    for path in sorted(root.glob("crates/*/specs/**/*.antt")) + sorted(root.glob("crates/*/proofs/**/*.antt")):
        for line in path.read_text().splitlines():
            it = DEFINED.match(line)
            if it and not line.startswith(("use ", "--")) and "goal." not in line:
                found[it.group(2)].add(path)
    return found


def table(found):
    names = dict(BY_HAND)
    for name in found:
        if name in names or GENERATED.search(name):
            continue
        if name[0].islower() and (re.search(r"[A-Z]", name) or "-" in name):
            names[name] = snake(name)
    return {a: b for a, b in names.items() if a != b}


def renamed(text, names, said):
    def one(it):
        head = re.search(r"([\w'-]+)\.(?:[\w'-]+\.)*$", text[max(0, it.start() - 200) : it.start()])
        word = it.group(0)
        if word in names and head and head.group(1) in ("c", "g", "l", "w"):
            said.add(f"{head.group(0)}{word}")
            return word
        return names.get(word, word)

    return re.sub(NAME, one, text)


def outside_strings(text, names, said):
    """The same in Rust's text, where strings and comments stay."""
    parts = re.split(r'("(?:[^"\\]|\\.)*"|//[^\n]*)', text)
    return "".join(p if k % 2 else renamed(p, names, said) for k, p in enumerate(parts))


def main():
    root = Path(".")
    names = table(defined(root))
    files = sorted(root.glob("crates/*/specs/**/*.antt")) + sorted(root.glob("crates/*/proofs/**/*.antt"))
    sources = sorted(root.glob("crates/*/src/**/*.rt")) + sorted(root.glob("crates/*/must-fail/*.edit"))
    said = set()
    for path in files + sources:
        text = path.read_text()
        words = set(re.findall(NAME, text))
        for a, b in names.items():
            if a in words and b in words and path.suffix == ".antt":
                print(f"look: {path}: {a} and {b} fall together", file=sys.stderr)
        new = (renamed if path.suffix == ".antt" else outside_strings)(text, names, said)
        if new != text:
            path.write_text(new)
    for word in sorted(said):
        print(f"look: {word} is a step of the code and stays", file=sys.stderr)
    for a, b in sorted(names.items()):
        print(f"{a} {b}")


if __name__ == "__main__":
    main()
