#!/usr/bin/env python3
"""Counts the places in src/ that today's Rattle writes otherwise: tools/design_counts.py [TREE]."""
import pathlib
import re
import sys

# A point, what is counted, and the pattern of one place in the text of a file without its comments.
PATTERNS = [
    (1, "a kind or a refusal told by a method `number`", r"fn number\((?:self|window)\b"),
    (1, "a number for a kind in a field", r"pub (?:mark|window): u8\b"),
    (1, "a theorem's function with a number as its result", r"fn \w+_holds?(?:<[^>]*>)?\(\) -> u8"),
    (1, "an Option or Result rebuilt by a match", r"None => (?:None|0|true|false|WHOLE)\b|Ok\(\(\)\) => Ok\(|Err\((\w+)\) => Err\(\1\)|if let Some\(\w+\) = [^{]*\{\s*if let Ok\("),
    (1, "a test written as a match of true and false", r"=> true,\s*_ => false"),
    (2, "one constant stated again", r"const (?:UNUSED|NO_FAULT): Fault|const (?:PLACES|BLANK|ESC|US): \w+"),
    (3, "a loop that counts an index, a place or a number", r"for [a-z]\w* in \(?[\w.]+\.\.=?[^{]*\{"),
    (3, "a walk that the library has a method for", r"return i;|for \(i, byte\) in|\bn \+= 1;|\[1\.\.\]|words\[0\]|len\(\) (?:==|>|<) \d"),
    (4, "an equality written by hand", r"fn same_(?:cursor|area|window|bits|byte|mode|numbers|flags|modes|answer|said|read|cause|fault|faults)\("),
    (4, "a type without derives but for Clone and Copy", r"#\[derive\(Clone, Copy\)\]"),
    (4, "a text told by a method, not by Display", r"fn why\("),
    (5, "a column and a row as two parameters", r"\((?:[^()]*, )?column: u8, row: u8[^)]*\)"),
    (5, "what a panel means, by its three parts", r"P\.cells P\.puts P\.paints"),
    (5, "two clauses on one result, as a pair", r"ensures (?:answer|cells|next) \{[^\n]*\n\s*ensures (?:core|left|reached|item) \{"),
    (6, "a buffer with a length or a count beside it", r"\b(?:bytes|slots|places|input|buffer): [^\n]*(?:\[|Vec<|&)[^\n]*,\n\s*(?:pub\(crate\) )?(?:len|count|at):"),
    (6, "a struct written whole to change a field", r"\*self = \w+ \{"),
]


def code(path):
    text = path.read_text()
    return re.sub(r"(?m)^\s*//.*$", "", text)


def main():
    tree = pathlib.Path(sys.argv[1] if len(sys.argv) > 1 else ".")
    files = sorted(f for f in tree.glob("crates/*/src/**/*.rt"))
    texts = [(f.relative_to(tree / "crates"), code(f)) for f in files]
    for point, what, pattern in PATTERNS:
        found = {}
        for name, text in texts:
            n = len(re.findall(pattern, text))
            if n:
                found[str(name)] = n
        places = ", ".join(f"{name} {n}" for name, n in found.items())
        print(f"{point}  {sum(found.values()):3}  {what}" + (f"  ({places})" if "-v" in sys.argv else ""))


if __name__ == "__main__":
    main()
