#!/usr/bin/env python3
"""Lists the places in crates/*/src that docs/DESIGN-PASS.md counts: candidates by form, one line each, and their number by point.

Run it at the top of the repository. What it lists is read by hand: the page says of each whether it is a place of its point."""
import re
import sys
from pathlib import Path

# By point: patterns of single lines.
LINES = {
    "1 numbers for kinds, refusals and flags": r"\b(kind|number|book|tag): u(8|32)\b|^const [A-Z]+: u32 = [0-9]+;|fn number\(|NoMemory",
    "1 Option and Result taken apart by hand": r"^ *(Ok|Err|Some|None)(\([^)]*\))? =>|\blet (Ok|Err|Some)\(",
    "3 loops": r"^ *(for|while|loop)\b.*\{$",
    "4 conversion and printing by hand": r"fn (number|word|read|second|of|store|value|next|write_[a-z_]+)\b|\bb'|: u8 = [0-9]+;",
    "5 facts that callers owe": r"^ *requires\b",
    "5 the same long term in many contracts": r"whole C\.(Carrier\.)?lanes K\.(Kind\.)?book",
    "6 arrays and numbers beside them": r": \[[A-Za-z0-9]+; [A-Z_]+\],|^ *(pub(\(crate\))? )?(size|count|held|first): usize,",
    "7 values that say which step to run": r"enum (Action|Call|End)\b|match (action|call|end)\b",
}

KEYWORDS = set("fn let mut if else match for in while loop return self Self Ok Err Some None true false as impl".split())


def functions(text):
    """Each function of a file: its name and its body, without comments."""
    text = re.sub(r"//[^\n]*", "", text)
    for start in re.finditer(r"\bfn (\w+)", text):
        brace = re.search(r"\n *\{\n|\) (-> [^{;\n]*)?\{\n|;\n", text[start.end():])
        if not brace or brace.group().startswith(";"):
            continue
        at = start.end() + brace.end()
        depth, end = 1, at
        while depth and end < len(text):
            depth += {"{": 1, "}": -1}.get(text[end], 0)
            end += 1
        yield start.group(1), text[at:end - 1]


def shape(body):
    """A body with its names and numbers blotted out."""
    tokens = re.findall(r"[A-Za-z_]\w*|[0-9][0-9_a-fx]*|[^\s\w]", body)
    return " ".join(t if t in KEYWORDS or not re.match(r"\w", t) else "_" for t in tokens)


def main():
    files = sorted(Path("crates").glob("*/src/**/*.rt"))
    for point, pattern in LINES.items():
        found = [(f, n, line) for f in files for n, line in enumerate(f.read_text().splitlines(), 1)
                 if re.search(pattern, line) and not line.lstrip().startswith("//")]
        print(f"{point}: {len(found)}")
        for f, n, line in found:
            print(f"    {f}:{n}: {line.strip()}")
    shapes = {}
    for f in files:
        for name, body in functions(f.read_text()):
            s = shape(body)
            if len(s.split()) >= 12:
                shapes.setdefault(s, []).append(f"{f}: {name}")
    twins = [places for places in shapes.values() if len(places) > 1]
    print(f"2 functions of one shape: {sum(map(len, twins))} in {len(twins)} groups")
    for places in twins:
        print("    " + "; ".join(places))
    return 0


if __name__ == "__main__":
    sys.exit(main())
