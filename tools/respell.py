#!/usr/bin/env python3
"""Spells the repository's own definitions, lemmas, fields and variables of specs/, proofs/ and clauses in snake case.

usage: tools/respell.py [--dry]   at the top of the repository, once, after the toolchain's own respelling

A name of ours is one that a file of specs/ or proofs/ declares or binds. Types and facts keep their capital. A name that
Rattle makes (what follows `tie.`) and the functions of src/ keep their spelling. Where two names fall together, the
lemma gets `_lem`.
"""

import os
import re
import sys

NAME = re.compile(r"(?<![\w'⊎◌⌜-])[A-Za-zℕℤ_][\w']*(?:-[\w'*+]+)*")
SIGNATURE = re.compile(r"^\s*(?:(?:pub|abbrev|unfoldable|ruleset)\s+)*([a-z][\w'-]*)\s+:(?:\s|$)")
RULESET = re.compile(r"^\s*(?:pub\s+)?ruleset\s+(?:pub\s+)?([a-z][\w'-]*)")
MADE = re.compile(r":\s+(?:tie\.(?:Need|invariant|decreases)|\{M : Type 1\} → statement)")
BOUND = [
    re.compile(r"\blet\s+([a-z][\w'-]*)\s*[:=]"),
    re.compile(r"λ\s+([^.\n]*?)\."),
    re.compile(r"[({]([a-z][\w' -]*?)\s+:\s"),
]
# Where two names fall together and neither is a lemma of the other's name.
BY_HAND = {
    # fields beside a definition of the same words
    "as-it-is": "stays_as_it_is",
    "is-head": "begins_month",
    "is-kind": "of_kind",
    "leap-number": "leap_repeats",
    "moon-after": "next_moon",
    "not-above": "lies_not_above",
    "qi-before": "before_next_qi",
    "register-day": "is_register_day",
    "solstice-day": "solstice_in_register",
    # names of tests' records, and of what a proof assumes
    "byDate": "cited_by_date",
    "byDay": "cited_by_day",
    "byName": "cited_by_name",
    "byOrdinal": "cited_by_ordinal",
    "no-qi": "lacks_qi",
    "outside-years": "years_outside",
    "wrong-year": "bad_year",
}
# Lemmas under the name of a definition beside them.
IN_FILE = {
    "crates/calendar/proofs/LeapMonths.antt": {"leap-number": "leap_number_lem"},
    "crates/reckoning/proofs/RequestsEnd.antt": {"leap-number": "leap_number_lem"},
    "crates/reckoning/proofs/MonthsRight.antt": {"head_at": "head_at_lem"},
    "crates/lines/proofs/AllRecords.antt": {"no_record": "no_record_lem"},
    "crates/renewal/proofs/Renewing.antt": {"no_record": "no_record_lem"},
}


def files(root, *ends):
    for folder, dirs, names in os.walk(os.path.join(root, "crates")):
        dirs[:] = sorted(d for d in dirs if d != "out")
        for name in sorted(names):
            if name.endswith(ends):
                yield os.path.join(folder, name)


def code_of(line, mark):
    """A line's code and its comment."""
    at = 0
    while True:
        at = line.find(mark, at)
        if at < 0:
            return line, ""
        if line[:at].strip() == "" or line[at - 1] == " ":
            return line[:at], line[at:]
        at += 1


def is_spelled(name):
    return "-" not in name and name == name.lower()


def snake(name):
    name = re.sub(r"(?<=[a-z0-9])(?=[A-Z])", "_", name).lower()
    return name.replace("-", "_")


def declared(root):
    """The names that are declared, and those that are bound; of proofs of functions only what Rattle does not make."""
    top, local = set(), set()
    for path in files(root, ".antt"):
        with open(path, encoding="utf-8") as f:
            for line in f:
                code, _ = code_of(line.rstrip("\n"), "--")
                m = SIGNATURE.match(code) or RULESET.match(code)
                if m and not (path.endswith("Proof.antt") and MADE.search(code)):
                    top.add(m.group(1))
                for shape in BOUND:
                    for m in shape.finditer(code):
                        local.update(w for w in NAME.findall(m.group(1)))
    return top, local


def mapping(root):
    top, local = declared(root)
    names = {n for n in top | local if n[0].islower() and not is_spelled(n)}
    spelled = {n for n in top | local if is_spelled(n)}
    to, taken = {}, {}
    for name in sorted(names, key=lambda n: ("-" in n, n)):
        new = BY_HAND.get(name, snake(name))
        to[name] = new
        taken.setdefault(new, []).append(name)
    together = {}
    for new, olds in taken.items():
        if len(olds) > 1 or new in spelled:
            together[new] = olds
            for old in olds:
                if "-" in old and old not in BY_HAND:
                    to[old] = new + "_lem"
    return to, together, top, local


def turned(text, to):
    """What follows `tie.` is Rattle's. After another dot a name that falls together may be a step of the code."""

    def one(m):
        start, name = m.start(), m.group(0)
        if text[max(0, start - 4) : start] == "tie.":
            return name
        new = to.get(name, name)
        if (new.endswith("_lem") or name in BY_HAND) and text[max(0, start - 1) : start] == "." and to.get("in a proof of code"):
            return snake(name)
        return new

    return NAME.sub(one, text)


def in_comment(text, to):
    camel = {old: new for old, new in to.items() if "-" not in old}
    text = turned(text, camel)
    return re.sub(r"`[^`]*`", lambda m: turned(m.group(0), to), text)


STRING = re.compile(r'b?"(?:\\.|[^"\\])*"')


def turned_code(code, to):
    out, at = [], 0
    for m in STRING.finditer(code):
        out += [turned(code[at : m.start()], to), m.group(0)]
        at = m.end()
    return "".join(out) + turned(code[at:], to)


def turned_file(path, to):
    mark = "//" if path.endswith(".rt") else "--"
    with open(path, encoding="utf-8") as f:
        lines = f.read().split("\n")
    out = []
    for line in lines:
        if path.endswith(".edit"):
            head, colon, rest = line.partition(":")
            out.append(head + colon + turned_code(rest, to) if head in ("old", "new") else line)
            continue
        code, comment = code_of(line, mark)
        out.append(turned_code(code, to) + in_comment(comment, to))
    return "\n".join(out)


def main(argv):
    root = os.getcwd()
    to, together, top, local = mapping(root)
    for new, olds in sorted(together.items()):
        kinds = ", ".join(o + ("" if o in top else " (bound)") for o in olds)
        print(f"together: {new}: {kinds}" + (" and one that is so spelled" if len(olds) == 1 else ""))
    print(f"{len(to)} names, {len(together)} that fall together")
    if "--dry" in argv:
        return 0
    changed = 0
    for path in files(root, ".antt", ".rt", ".edit"):
        own = to | IN_FILE.get(os.path.relpath(path, root), {})
        text = turned_file(path, own | {"in a proof of code": "yes"} if path.endswith("Proof.antt") else own)
        with open(path, encoding="utf-8") as f:
            if f.read() == text:
                continue
        with open(path, "w", encoding="utf-8") as f:
            f.write(text)
        changed += 1
    print(f"{changed} files respelled")
    return 0


if __name__ == "__main__":
    raise SystemExit(main(sys.argv[1:]))
