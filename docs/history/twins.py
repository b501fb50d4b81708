"""Prints pairs of functions that read alike: python3 docs/history/twins.py [LEAST]

Names, numbers and texts count as one another, contracts and comments as nothing. A pair is as alike as the words that both have in the same order
are of all words; it is printed from LEAST (0.8) on. A function whose body has fewer than 20 words only passes a question on, and is not compared."""

import difflib
import pathlib
import re
import sys

WORD = re.compile(r"\"[^\"]*\"|'.'|[A-Za-z_][A-Za-z_0-9]*|\d+|[^\sA-Za-z_0-9]")
KEPT = set("fn for in if else match return let mut while loop break self Self Some None Ok Err true false as usize impl".split())


def functions(path):
    lines = path.read_text().splitlines()
    i = 0
    while i < len(lines):
        head = re.match(r"(\s*)(?:pub(?:\(crate\))? )?fn ([a-z_0-9]+)", lines[i])
        ends = (k for k in range(i, len(lines)) if lines[k].rstrip() == "" or lines[k].startswith(head[1] + "}") or lines[k].endswith("{}"))
        j = next(ends, i) if head else i
        if not head or not lines[j].endswith("}"):
            i += 1
            continue
        body = [x for x in lines[i : j + 1] if not re.match(r"\s*(requires|ensures|//)", x)]
        code = "\n".join(body)
        if len(WORD.findall(code[code.find("{") :])) >= 20:
            yield f"{path}:{i + 1} {head[2]}", [word(w) for w in WORD.findall(code)]
        i = j + 1


def word(w):
    if w in KEPT or not re.match(r"[A-Za-z_0-9\"']", w):
        return w
    return "0" if re.match(r"[0-9\"']", w) else "x"


def main():
    least = float(sys.argv[1]) if len(sys.argv) > 1 else 0.8
    all_of = [f for p in sorted(pathlib.Path("crates").glob("*/src/**/*.rt")) for f in functions(p)]
    found = 0
    for i, (a, xs) in enumerate(all_of):
        for b, ys in all_of[i + 1 :]:
            if 2 * min(len(xs), len(ys)) < least * (len(xs) + len(ys)):
                continue
            ratio = difflib.SequenceMatcher(None, xs, ys, autojunk=False).ratio()
            if ratio >= least:
                found += 1
                print(f"{ratio:.2f} {a} = {b}")
    print(f"{found} pairs of {len(all_of)} functions compared")


main()
