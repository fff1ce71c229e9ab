#!/usr/bin/env python3
"""Respells this repository's own definitions and lemmas, once, after the toolchain's own script.

usage: python3 tools/respell.py        at the top of the repository

Words of specs/ and proofs/ go to snake case, types and facts to camel case; `nth`, which copied the library's word, goes to
`slice_get`. Names of src/, of goals and of the library stay. It names each pair of names that fall together.
"""
import glob
import re
import sys

TOKEN = re.compile(r"[A-Za-z][A-Za-z0-9_'\-]*")
DEFINED = re.compile(r"\s*(?:(?:abbrev|unfoldable|pub|data|record|ruleset)\s+)*([A-Za-z][A-Za-z0-9_'\-]*)\s*(?:[:({]|$)")
FIELD = re.compile(r"\s+(?:pub\s+)?([A-Za-z][A-Za-z0-9_'\-]*)\s*:")
GOAL = re.compile(r"(?:abbrev\s+)?pub\s+([A-Za-z][A-Za-z0-9_'\-]*)\s*:\s*goal\.")
# a ghost member of src/, which is spelled as a definition is
MEMBERS = {"notBehind": "not_behind"}
# "most_bytes" and the like of a trait's ghost members stay
WORDS = {"pub", "use", "as", "where", "record", "data", "abbrev", "elim", "let", "in"}


def respelled(name):
    if name[0].isupper():
        return "".join(part[:1].upper() + part[1:] for part in name.split("-"))
    for old, new in MEMBERS.items():
        name = name.replace(old, new)
    return name.replace("-", "_")


def read(path):
    with open(path, encoding="utf-8") as f:
        return f.read()


def main():
    antt = sorted(glob.glob("crates/*/specs/**/*.antt", recursive=True) + glob.glob("crates/*/proofs/**/*.antt", recursive=True))
    rest = sorted(glob.glob("crates/*/src/**/*.rt", recursive=True) + glob.glob("crates/*/must-fail/*.edit"))
    texts = {path: read(path) for path in antt + rest}
    names, fields, goals, seen = set(MEMBERS), set(), set(), {}
    for path in antt:
        for line in texts[path].split("\n"):
            goal = GOAL.match(line)
            if goal:
                goals.add(goal.group(1))
                continue
            if line.lstrip().startswith(("--", "use ", "pub use ", "mod ", "pub mod ")):
                continue
            found = DEFINED.match(line)
            if found and found.group(1) not in WORDS:
                names.add(found.group(1))
            field = FIELD.match(line)
            if field and field.group(1) not in WORDS:
                fields.add(field.group(1))
    for text in texts.values():
        for token in TOKEN.findall(text):
            seen[token] = seen.get(token, 0) + 1
    renamed = {name: respelled(name) for name in names if name not in goals and respelled(name) != name}
    made = {}
    for old, new in sorted(renamed.items()):
        if new in seen:
            print("falls together with a name that stands: %s and %s" % (old, new))
        if new in made:
            print("fall together: %s and %s" % (old, made[new]))
        made[new] = old
    for goal in sorted(goals & names):
        if respelled(goal) != goal:
            print("both a goal and a name: " + goal)

    for path, text in texts.items():
        out, at = [], 0
        answers = path.endswith(("/Answers.antt", "/Invariants.antt"))
        for found in TOKEN.finditer(text):
            token = found.group(0)
            tail = len(token) - len(token.rstrip("-"))
            token = token.rstrip("-")
            if token not in renamed:
                continue
            before = text[found.start() - 1] if found.start() else ""
            after = text[found.end() - tail:found.end() - tail + 1]
            if before == "." and token not in fields and token not in MEMBERS:
                continue
            if before == "." and answers and step(text, found.start()):
                continue
            out.append(text[at:found.start()])
            out.append(renamed[token])
            at = found.start() + len(token)
        out.append(text[at:])
        texts[path] = "".join(out)
    library(texts)
    for path, text in texts.items():
        if text != read(path):
            with open(path, "w", encoding="utf-8") as f:
                f.write(text)
    print("%d names respelled" % len(renamed))
    return 0


def step(text, at):
    """Whether the name at this place follows `c.` or `goal.`, and so names a step or a goal."""
    return re.search(r"(?<![\w'.\-])(c|goal|w|l)\.$", text[max(0, at - 8):at]) is not None


def library(texts):
    """`nth` of crates/nodes was the library's `slice_get`."""
    for path, text in texts.items():
        lines = text.split("\n")
        own = path.endswith("nodes/specs/Holding.antt")
        if own:
            lines = without_nth(lines)
        touched = own
        for i, line in enumerate(lines):
            found = re.match(r"((?:ghost )?use )(Rattle\.nodes\.specs\.Holding)\.\{([^}]*)\}(;?)$", line)
            if not found:
                continue
            words = [w.strip() for w in found.group(3).split(",")]
            if "nth" not in words:
                continue
            touched = True
            words.remove("nth")
            new = found.group(1) + "Rattle.std.specs.List.{slice_get}" + found.group(4)
            lines[i] = new if not words else new + "\n" + found.group(1) + found.group(2) + ".{" + ", ".join(words) + "}" + found.group(4)
        if touched:
            if own:
                first = next(i for i, line in enumerate(lines) if line.startswith("use "))
                lines.insert(first, "use Rattle.std.specs.List.{slice_get}")
            texts[path] = re.sub(r"(?<![\w'\-.])nth(?![\w'\-])", "slice_get", "\n".join(lines))


def without_nth(lines):
    out, skip = [], False
    for line in lines:
        if line.startswith("abbrev pub nth "):
            skip = True
            while out and out[-1].startswith("--"):
                out.pop()
            continue
        if skip and (line.startswith("nth ") or not line):
            if not line:
                skip = False
            continue
        out.append(line)
    return out


if __name__ == "__main__":
    sys.exit(main())
