#!/usr/bin/env python3
"""Brings this repository's own definitions and lemmas to the spelling of today's Rattle, once, after port.py.

usage: python3 tools/spell.py [--list] [FOLDER]

Types are in upper camel case (`Word-at` is `WordAt`), everything else in snake case (`record-at` is `record_at`).
It turns each name with a dash below crates/ but those of the logic's libraries and those that Rattle makes for a
proof by hand, in .antt files and in the ghost lines and clauses of .rt files; in comments only names of types and of
definitions of specs/. --list prints the table and changes nothing.
"""

import os
import re
import sys

OWN = re.compile(r"Rattle\.(?!std\b)")
TOKEN = re.compile(r"[^\s(){}\[\],;.\"`@]+")
USE = re.compile(r"^[ \t]*(?:(?:pub|ghost|unfoldable) )*use ([^\s{;]+?)(?:\.\{([^{}]*)\})?(?: as ([^\s;]+))?;?$", re.M)
WORDS = r"(?:(?:abbrev|pub|unfoldable) +)*"
DECLARED = re.compile(rf"(?m)^[ \t]*{WORDS}(?:data |record )?([^\s(){{}}\[\],;.:]+)(?= [:({{])")
# A capital that stands for a number.
VALUE = re.compile(rf"(?m)^[ \t]*{WORDS}([A-Z][^\s(){{}}\[\],;.:]*) : ℕ$")
# A name whose new spelling is a struct or an enum of src/ already.
FALLS_TOGETHER = {"Pack-read": "PackReadAs"}
# What Rattle makes for a proof by hand: states, needs, invariants and measures.
MADE = re.compile(r"(Need|Lts|After|Then|Else|In|At|Loop|Arm)\d*-|(invariant|decreases)-loop\d*$|#|calls-|loop\d*-test$")


def files(root, *endings):
    for above, folders, names in os.walk(os.path.join(root, "crates")):
        folders[:] = sorted(it for it in folders if it not in ("out", "must-fail", "target"))
        for name in sorted(names):
            if name.endswith(endings):
                yield os.path.join(above, name)


def by_hand(path):
    return os.path.basename(path) == "Proof.antt"


def bare(text):
    return re.sub(r"--[^\n]*", "", text)


def dashed(name):
    return "-" in name.strip("-") and re.search(r"[^\W\d_]", name) is not None and not name.startswith("-")


def clauses(text):
    """The lines of a source that hold ghost words."""
    depth = 0
    for k, line in enumerate(text.split("\n")):
        if not re.match(r"\s*//", line) and (depth or re.match(r"\s*(ghost|requires|ensures)\b", line)):
            yield k
            depth += line.count("{") - line.count("}")


def joined(name):
    return "".join(it[:1].upper() + it[1:] for it in re.split("[-_]", name))


def table(root):
    used, declared, library, values, said = set(), set(), set(), set(), set()
    for path in files(root, ".antt", ".rt"):
        text = open(path).read()
        if path.endswith(".rt"):
            lines = text.split("\n")
            text = "\n".join(lines[k] for k in clauses(text))
        text = bare(text)
        for m in USE.finditer(text):
            if not OWN.match(m[1]):
                library |= set(re.split(r"[\s,]+", m[2] or ""))
        declared |= set(DECLARED.findall(text))
        values |= set(VALUE.findall(text))
        if "/specs/" in path:
            said |= set(DECLARED.findall(text))
        for name in TOKEN.findall(USE.sub(lambda m: (m[2] or "") + " " + (m[3] or ""), text)):
            if dashed(name) and not (by_hand(path) and MADE.match(name)):
                used.add(name)
            elif name in declared and re.match(r"[A-Z]\w*_", name):
                used.add(name)
    names = {}
    for name in sorted(used - library):
        if name in FALLS_TOGETHER:
            names[name] = FALLS_TOGETHER[name]
        elif name[0].isupper() and name not in values:
            names[name] = joined(name)
        else:
            new = name.replace("-", "_")
            names[name] = new[0].lower() + new[1:] if name in values else new
    shown = {old: new for old, new in names.items() if old in said or old[0].isupper() and old in declared}
    return names, shown


def turned(text, names, kept=None):
    return TOKEN.sub(lambda m: m[0] if kept and kept.match(m[0]) else names.get(m[0], m[0]), text)


def turned_antt(text, names, shown, kept):
    out = []
    for line in text.split("\n"):
        at = re.search(r"(?:^|\s)--(?=\s|$)", line)
        at = at.start() if at else len(line)
        out.append(turned(line[:at], names, kept) + turned(line[at:], shown))
    return "\n".join(out)


def turned_rt(text, names, shown):
    at = set(clauses(text))
    return "\n".join(
        turned(line, names) if k in at else turned(line, shown) if re.match(r"\s*//", line) else line
        for k, line in enumerate(text.split("\n"))
    )


def main(argv):
    only = "--list" in argv
    argv = [it for it in argv if it != "--list"]
    root = argv[0] if argv else "."
    names, shown = table(root)
    if only:
        for old, new in names.items():
            print(f"{old}\t{new}")
        return
    for path in files(root, ".antt", ".rt"):
        text = open(path).read()
        if path.endswith(".rt"):
            new = turned_rt(text, names, shown)
        else:
            new = turned_antt(text, names, shown, MADE if by_hand(path) else None)
        if new != text:
            with open(path, "w") as f:
                f.write(new)


if __name__ == "__main__":
    main(sys.argv[1:])
