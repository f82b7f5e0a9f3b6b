#!/usr/bin/env python3
"""Spells the repository's own definitions and lemmas as today's Rattle spells its own: snake case, types in upper camel case.

usage: python3 tools/snake_names.py [--check]      at the top of the repository

What is declared with a dash, or with a capital inside, in crates/*/specs/ or in a lemma file right in crates/*/proofs/ is turned everywhere in the crates' .antt and .rt files,
and so is another name that a `ghost use` gives (`byte as byte-event`, `seen as seenOf`).
A type (a name that begins with a capital) becomes one word in upper camel case. Anything else is written with underscores, but in a lemma a dash stays
where it joins a definition's name to one of the library's (`redraw-length`). A name that would fall together with another one is shown and the script stops before it writes.
Names that Rattle makes (in proofs/F/) are not touched. In .rt files strings stay as they are. A second run writes nothing.
"""

import glob
import re
import sys

WORD = r"[^\s(){}.;,@\"«»:]+"
DECLARED = re.compile(
    r"^\s*(?:(?:pattern|unfoldable|abbrev|pub|axiom|data|record)\s+)*(" + WORD + r")(?:\s*\{[^}]*\})?(?:\s+\([^)]*\)|\s+\{[^}]*\})*\s*:(?!:)"
)
RECORD = re.compile(r"^\s*pub (?:record|data) (" + WORD + r")\s")
ALIAS = re.compile(r"\bas (" + WORD + r")[,}]")
LOCAL = re.compile(r"\blet (" + WORD + r") :")
LIBRARY = {"length", "append", "take", "drop", "map", "set", "get", "cond"}
TOKEN = re.compile(r"[^\s(){}.;,@\"«»\[\]`:&|]+")
STRING = re.compile(r'b?"(?:\\.|[^"\\])*"|//[^\n]*', re.S)


def old(name):
    """Whether a name is not in today's spelling."""
    return "-" in name or re.match(r"[a-z][a-z0-9_]*[A-Z]|[A-Z]\w*_", name) is not None


def declared():
    """Each declared name with whether it stands in specs/, and where."""
    found = {}
    specs = glob.glob("crates/*/specs/**/*.antt", recursive=True)
    lemmas = glob.glob("crates/*/proofs/*.antt")
    for path in sorted(specs) + sorted(lemmas):
        with open(path, encoding="utf-8") as f:
            for line in f:
                m = DECLARED.match(line) or RECORD.match(line)
                if m:
                    found.setdefault(m.group(1), []).append((path in specs, path))
                for name in LOCAL.findall(line):
                    if "-" in name:
                        found.setdefault(name, []).append((False, path))
    for path in sorted(glob.glob("crates/*/src/**/*.rt", recursive=True)):
        with open(path, encoding="utf-8") as f:
            for name in ALIAS.findall("".join(re.findall(r"ghost use [^;]*;", f.read()))):
                if old(name):
                    found.setdefault(name, []).append((True, path))
    return found


def camel(name):
    return "".join(part[:1].upper() + part[1:] for part in re.split("[-_]", name))


def spelled(name, lemma, words):
    if name[:1].isupper():
        return camel(name)
    parts = [re.sub(r"(?<=[a-z0-9])[A-Z]", lambda m: "_" + m.group(0), part).lower() for part in name.split("-")]
    out = parts[0]
    for i in range(1, len(parts)):
        left, right = "_".join(parts[:i]), "_".join(parts[i:])
        out += ("-" if lemma and left in words and right in LIBRARY else "_") + parts[i]
    return out


def table():
    found = declared()
    words = {n.replace("-", "_") for n, places in found.items() if any(s for s, _ in places)} | LIBRARY
    rows = {}
    for name, places in found.items():
        if old(name):
            rows[name] = spelled(name, not any(s for s, _ in places), words)
    together = {}
    for name in found:
        together.setdefault(rows.get(name, name), set()).add(name)
    clashes = {new: old for new, old in together.items() if len(old) > 1}
    return {o: n for o, n in rows.items() if o != n}, clashes


def turned(text, rows, rust):
    def one(m):
        return rows.get(m.group(0), m.group(0))

    if not rust:
        return TOKEN.sub(one, text)
    out, at = [], 0
    for quiet in STRING.finditer(text):
        out.append(TOKEN.sub(one, text[at : quiet.start()]))
        out.append(quiet.group(0))
        at = quiet.end()
    out.append(TOKEN.sub(one, text[at:]))
    return "".join(out)


def main():
    rows, clashes = table()
    for new, old in sorted(clashes.items()):
        print("fall together:", new, "from", ", ".join(sorted(old)))
    if clashes:
        raise SystemExit(1)
    for path in sorted(glob.glob("crates/*/**/*", recursive=True)):
        if "/out/" in path or not path.endswith((".antt", ".rt")):
            continue
        with open(path, encoding="utf-8") as f:
            text = f.read()
        new = turned(text, rows, path.endswith(".rt"))
        if new != text:
            print("turned:", path)
            if "--check" not in sys.argv:
                with open(path, "w", encoding="utf-8") as f:
                    f.write(new)


if __name__ == "__main__":
    main()
