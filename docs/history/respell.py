#!/usr/bin/env python3
"""Brings the definitions and lemmas of an older commit to the spelling of today's Rattle: words in snake case.

Run it once at the top of that commit's tree, right after the kit's port.py, as python3 .../docs/history/respell.py. A name that a file of specs/ or proofs/ defines, and that begins in
lower case and goes on in camel case, gets underscores; a dash, which joins two names, stays. Names of src/ keep their
spelling. It stops where two names would fall together, but for those that ASIDE moves away first.
"""
import pathlib
import re
import sys

SIGNATURE = re.compile(r"^\s*(?:(?:abbrev|unfoldable|pub|opaque|ruleset|record|data)\s+)*([^\s:(){},.=|«»]+)(?:\s+[^=:]*)?\s*:(?:\s|$)")
TOKEN = re.compile(r"[^\s:(){},.;=|«»\[\]<>&`\"]+")
STRING = re.compile(r'"(?:\\.|[^"\\])*"')

# Three would get the name of a field; the fourth goes with them.
KEPT_APART = {
    "processesAt": "processes_from",
    "signalsAt": "signals_from",
    "edgesAt": "edges_from",
    "termsAt": "terms_from",
}
# Lemmas that stood under the name which a definition gets now, by the crate that has both.
ASIDE = {"rules": {"same_span": "same_span_lem"}}
# Words of std that stand inside names of this repository.
STD = {"getD": "get_or"}


def snake(part):
    if part in STD:
        return STD[part]
    if not re.match(r"[a-z]", part):
        return part
    return re.sub(r"(?<=[a-z0-9])([A-Z])", lambda m: "_" + m[1].lower(), part)


def files(*endings):
    for path in sorted(pathlib.Path("crates").rglob("*")):
        if path.suffix in endings and not {"out", "target"} & set(path.parts):
            yield path


def defined():
    """Each name that a specification or a proof defines, with the files where it does."""
    found = {}
    for path in files(".antt"):
        for line in path.read_text(encoding="utf-8").splitlines():
            if m := SIGNATURE.match(re.sub(r"--.*", "", line)):
                found.setdefault(m[1], set()).add(path)
    return found


def table(names):
    turned = {n: KEPT_APART.get(n) or "-".join(snake(p) for p in n.split("-")) for n in names}
    return {old: new for old, new in turned.items() if old != new}


def clashes(turned, names):
    aside = {old for of in ASIDE.values() for old in of}
    seen = {}
    for old, new in sorted(turned.items()):
        if new in seen:
            yield f"{old} and {seen[new]} both become {new}"
        if new in names and new not in aside:
            yield f"{old} becomes {new}, which is there already"
        seen[new] = old


def respelled(text, turned):
    return TOKEN.sub(lambda m: turned.get(m[0], m[0]), text)


def outside_strings(text, turned):
    out, at = [], 0
    for m in STRING.finditer(text):
        out += [respelled(text[at : m.start()], turned), m[0]]
        at = m.end()
    return "".join(out) + respelled(text[at:], turned)


def main():
    names = defined()
    turned = table(names)
    bad = list(clashes(turned, names))
    if bad:
        sys.exit("\n".join(bad))
    changed = 0
    for path in [*files(".antt", ".rt", ".edit"), *sorted(pathlib.Path("docs").glob("*.md")), pathlib.Path("README.md")]:
        old = path.read_text(encoding="utf-8")
        crate = path.parts[1] if path.parts[0] == "crates" else ""
        own = {**ASIDE.get(crate, {})} if path.suffix == ".antt" else {}
        new = respelled(old, own) if own else old
        new = outside_strings(new, turned) if path.suffix == ".rt" else respelled(new, turned)
        if new != old:
            path.write_text(new, encoding="utf-8")
            changed += 1
    print(f"{len(turned)} names in {changed} files")


main()
