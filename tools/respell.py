#!/usr/bin/env python3
"""Spells the house's own definitions and lemmas as today's library does: words in snake case, types in camel case.

usage: python3 tools/respell.py        at the top of the repository, once, after the kit's port.py

spelling.tsv beside this script has a row a name: old, a tab, new. Two names that would fall together (a function and a lemma of it) stay apart: the lemma ends in _lem.
Turned: the code of .antt and .rt files, names in back-quotes in comments and pages, the lines of must-fail edits. Kept: strings, Rust's own names, names that Rattle makes.
"""

import os
import re
import sys

HERE = os.path.dirname(os.path.realpath(__file__))
WORD = re.compile(r'[^\s(){}.;,@"«»`]+')
TOKEN = re.compile(r'"(?:[^"\\\n]|\\.)*"|[^\s(){}.;,@"«»`]+|.|\n', re.S)
SPAN = re.compile(r"`[^`\n]+`")
# fields of records of specs/ that have a dash: in a proof's folder a name behind a dot turns only if it is one of these
FIELDS = set(
    """needs-are no-guard present-kinds no-circle quads-are places-are of-choice before-is of-variable first-sound count-so-far one-costly group-size of-unknown of-bit
    of-branch no-bit refused-is no-bit-constant to-condition second-sound to-second joined-size has-given no-choice of-skip group-is zero-paired of-assign of-start
    no-word-constant outputs-are to-first conditions-are has-empty no-pick groups-are has-whole one-paired has-without accepted-is isLeft
    example-1 example-2 example-3 example-4 example-5 example-6 example-7 example-8 example-9""".split()
)


def table():
    with open(os.path.join(HERE, "spelling.tsv"), encoding="utf-8") as f:
        return dict(l.rstrip("\n").split("\t") for l in f if l.strip())


def span(text, names):
    return SPAN.sub(lambda m: WORD.sub(lambda w: names.get(w.group(), w.group()), m.group()), text)


def comment(text, names):
    text = span(text, names)
    # a word of two cases is no English word, so it turns without back-quotes too
    return WORD.sub(lambda w: names.get(w.group(), w.group()) if re.fullmatch(r"[a-z]+[A-Za-z]*", w.group()) else w.group(), text)


def code(text, names, keep=None, dotted=None):
    out, before = [], ""
    for m in TOKEN.finditer(text):
        t = m.group()
        if WORD.fullmatch(t) and t in names:
            if before == "." and dotted is not None:
                t = names[t] if t in dotted else t
            elif keep is None or t in keep:
                t = names[t]
        out.append(t)
        before = t[-1]
    return "".join(out)


def lines(text, mark, names, keep=None, dotted=None):
    done = []
    for l in text.split("\n"):
        at = 0 if l.startswith(mark) else l.find(" " + mark) + 1 if " " + mark in l else -1
        if at < 0 or '"' in l[:at]:
            done.append(code(l, names, keep, dotted))
        else:
            done.append(code(l[:at], names, keep, dotted) + comment(l[at:], names))
    return "\n".join(done)


def imported(text):
    """The names that a proof file brings from the definitions and laws of this repository."""
    found = set()
    for m in re.finditer(r"^use Rattle\.[\w.]+\.(?:specs|proofs)[^\n{]*\.\{([^}]*)\}", text, re.M):
        found |= {w.strip() for w in m.group(1).split(",")}
    return found


def turn(path, names):
    with open(path, encoding="utf-8") as f:
        text = f.read()
    if path.endswith(".antt"):
        inner = re.search(r"/proofs/.+/[^/]*$", path)
        new = lines(text, "--", names, imported(text), FIELDS) if inner else lines(text, "--", names)
    elif path.endswith(".rt"):
        # a name of neither a dash nor two cases may be a function's
        new = lines(text, "//", {a: b for a, b in names.items() if not re.fullmatch(r"[a-z0-9_]+", a)})
    elif path.endswith(".md"):
        # names of folders and of other tools' functions stand in pages too
        new = span(text, {a: b for a, b in names.items() if not re.fullmatch(r"[a-z0-9_]+", a) and not os.path.exists(os.path.join("examples", a))})
    elif path.endswith(".edit"):
        new = "\n".join(l if l.startswith(("#", "file:")) else code(l, names) for l in text.split("\n"))
    else:
        new = span(text, names)
    if new != text:
        with open(path, "w", encoding="utf-8") as f:
            f.write(new)
        return 1
    return 0


def main():
    names, n = table(), 0
    for folder, dirs, files in os.walk("."):
        dirs[:] = sorted(d for d in dirs if d not in ("out", "target", ".git", "tools"))
        for f in sorted(files):
            path = os.path.join(folder, f)
            if path.startswith("./crates/") and f.endswith((".antt", ".rt", ".edit")) or f.endswith(".md"):
                n += turn(path, names)
    print(f"respell: {n} files turned by {len(names)} names")


if __name__ == "__main__":
    sys.exit(main())
