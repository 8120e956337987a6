#!/usr/bin/env python3
"""Respells this repository's own definitions and laws in snake case: dayNumber, built-checks become day_number, built_checks.

usage: python3 tools/snake_names.py [TOP]     TOP: a checkout, by default the one that holds this file

Own is what an .antt file below specs/ or proofs/ declares. What Rattle makes keeps its spelling, goals and their parts among it; so do the functions of
src/, exported names and strings. Where a law's new name is a definition's, the law's ends in _lem. In comments and in pages only what stands
between backticks is respelled, in must-fail edits also the label. Lines are not laid out again: rt fmt does that. A second run changes nothing.
"""

import os
import re
import sys

TOKEN = r"[^\W\d][\w']*(?:-\w[\w']*)*"
NAME = re.compile(r"(?<![\w'-])(?<!\bc\.)" + TOKEN + r"(?![\w'])")
DECLARED = re.compile(r"^\s*(?:(?:pub|abbrev|unfoldable|instance|opaque)\s+)*((?:" + TOKEN + r"\s+)*" + TOKEN + r")\s*:(?!:)\s*(\S*)", re.M)
LET = re.compile(r"\blet\s+(" + TOKEN + r")\s*[:=]")
GOAL = re.compile(r"(?<![\w'.-])(?:goal|goals|c|l)\.(" + TOKEN + r")")
TICKED = re.compile(r"`[^`\n]*`")


def files(top, *endings):
    for folder, dirs, names in os.walk(top):
        dirs[:] = sorted(d for d in dirs if d not in ("out", ".git", "target"))
        for name in sorted(names):
            if name.endswith(endings):
                yield os.path.join(folder, name)


def read(path):
    with open(path, encoding="utf-8") as f:
        return f.read()


def write(path, text):
    with open(path, "w", encoding="utf-8") as f:
        f.write(text)


def snake(name):
    return re.sub(r"(?<=[a-z0-9])([A-Z])", lambda m: "_" + m.group(1).lower(), name.replace("-", "_").replace("UInt", "Uint"))


def new_names(top):
    declared, local, made = set(), set(), set()
    for path in files(os.path.join(top, "crates"), ".antt"):
        text = re.sub(r"--.*", "", read(path))
        made.update(GOAL.findall(text))
        local.update(LET.findall(text))
        of_a_function = re.search(r"/proofs/.*/", path)
        for names, kind in DECLARED.findall(text):
            (made if kind.startswith(("goal.", "goals.")) else local if of_a_function else declared).update(names.split())
    declared |= local - made
    old = sorted(n for n in declared if snake(n) != n and not n[0].isupper())
    taken = {snake(n) for n in old if "-" not in n} | declared
    new = {n: snake(n) + ("_lem" if "-" in n and snake(n) in taken else "") for n in old}
    both = {n for n in new.values() if list(new.values()).count(n) > 1 or n in declared}
    if both:
        sys.exit("fall together: " + ", ".join(sorted(both)))
    return new


def give_back_dashes(top):
    """To laws that another script turned already, where a definition is to have that name."""
    texts = {path: read(path) for path in files(os.path.join(top, "crates"), ".antt")}
    declared = {path: {n for names, _ in DECLARED.findall(text) for n in names.split()} for path, text in texts.items()}
    wanted = {snake(n) for names in declared.values() for n in names if "-" not in n and snake(n) != n}
    laws = wanted & {n for path, names in declared.items() if os.sep + "proofs" + os.sep in path for n in names}
    for path, text in texts.items():
        for n in laws:
            text = re.sub(r"(?<![\w'.-])" + n + r"(?![\w'.-])", n.replace("_", "-"), text)
        if text != texts[path]:
            write(path, text)


def main(top):
    give_back_dashes(top)
    new = new_names(top)

    def names(text):
        return NAME.sub(lambda m: new.get(m.group(0), m.group(0)), text)

    def ticked(text):
        return TICKED.sub(lambda m: names(m.group(0)), text)

    def code(text, mark):
        apart = re.compile(r'"(?:[^"\\\n]|\\.)*"|' + mark + r".*")
        turned, at = [], 0
        for m in apart.finditer(text):
            turned += [names(text[at : m.start()]), ticked(m.group(0)) if m.group(0).startswith(mark) else m.group(0)]
            at = m.end()
        return "".join(turned) + names(text[at:])

    for path in list(files(os.path.join(top, "crates"), ".antt", ".rt", ".edit")) + list(files(top, ".md")):
        text = read(path)
        turned = ticked(text) if path.endswith(".md") else code(text, "//" if path.endswith(".rt") else "--")
        if turned != text:
            write(path, turned)
    print(f"{len(new)} names")


if __name__ == "__main__":
    main(os.path.abspath(sys.argv[1] if len(sys.argv) > 1 else os.path.join(os.path.dirname(os.path.abspath(__file__)), "..")))
