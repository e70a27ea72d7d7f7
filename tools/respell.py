#!/usr/bin/env python3
"""Brings the names of our own definitions and lemmas to today's spelling.

usage: python3 tools/respell.py [FOLDER]     at the top of a repository as the kit's own port.py left it, once

Facts and types are written in upper camel case, all else in snake case. Functions of src/, strings,
inputs and outputs keep their names, and so do the names of goals, which the prover makes.
"""
import collections
import glob
import os
import re
import sys

TOKEN = re.compile(r"[^\s(){}\[\];,.⌜⌝∥«»\"`]+")
SIGNATURE = re.compile(r"^((?:(?:abbrev|unfoldable|pub)\s+)*)(?:(data|record|ruleset)\s+)?([^\s:(){}]+)\s*(.*)$")
MEMBER = re.compile(r"^\s+(?:pub\s+)?([^\s:(){}=λ|\[\]]+)\s*:\s")
SKIPPED = ("--", "use ", "pub mod", "pub use", "mod ", "unfolding")

# where the plain new name is taken already
OTHERWISE = {
    "choice-of": "choice_of_row",
    "getD-made": "get_or_made",
    "getD-padded": "get_or_padded",
    "getD-put": "get_or_put",
    "getD-truths": "get_or_truths",
    "in-range": "in_range_lem",
    "no-memory": "no_memory_left",
    "piece-at": "piece_at_lem",
    "put-at": "put_at_lem",
    "sameFlags": "is_same_flags",
    "sameSet": "is_same_set",
    "service-of": "service_of_choice",
    "step-place": "step_place_lem",
}

# declared beside another name or within a block, where the patterns above do not look
MORE = {
    "weak-next": "weak_next",
    "class-flag": "class_flag",
    "class-flags": "class_flags",
    "flagOf": "flag_of",
    "setOf": "set_of",
    "rowsFor": "rows_for",
    "true-on": "true_on",
    "prepend-all": "prepend_all",
    "by-set": "by_set",
    "by-table": "by_table",
    "q-in": "q_in",
    "found-determined": "found_determined",
    "Choices-read": "ChoicesRead",
    "Entry-read": "EntryRead",
    "Lists-occurring": "ListsOccurring",
    "Outcomes-read": "OutcomesRead",
    "Place-read": "PlaceRead",
    "Places-read": "PlacesRead",
    "Read-on": "ReadOn",
    "Reads-slot": "ReadsSlot",
    "Sheet-read": "SheetRead",
    "Sign-next": "SignNext",
    "Takes-slot": "TakesSlot",
}


def sources(root):
    for part in ("specs", "proofs"):
        for f in sorted(glob.glob(os.path.join(root, "crates", "*", part, "**", "*.antt"), recursive=True)):
            yield f


def declared(root):
    """The names that our files declare, each with whether it is a fact or a type."""
    names = {}
    for f in sources(root):
        for line in open(f, encoding="utf-8"):
            line = line.rstrip("\n")
            if re.match(r"^\S", line) and not line.startswith(SKIPPED):
                m = SIGNATURE.match(line)
                if m and (m.group(4).startswith(":") or m.group(2)) and not re.match(r":\s*goal\.", m.group(4)):
                    fact = m.group(2) in ("data", "record") or bool(re.search(r"Type\s+\d+\s*(where)?\s*$", m.group(4)))
                    names[m.group(3)] = names.get(m.group(3), False) or fact
            m = MEMBER.match(line)
            if m and not line.strip().startswith("--"):
                names.setdefault(m.group(1), False)
    return names


def words(name):
    spaced = re.sub(r"([a-z0-9])([A-Z])", r"\1 \2", name.replace("′", "'"))
    return [w for w in re.split(r"[\s_·-]+", spaced) if w]


def respelled(name, fact):
    if name in OTHERWISE:
        return OTHERWISE[name]
    if fact:
        return "".join(w[0].upper() + w[1:] for w in words(name))
    return "_".join(w[0].lower() + w[1:] for w in words(name))


def off(name):
    return "-" in name or "′" in name or "·" in name or bool(re.match(r"^[a-z]\w*[A-Z]", name)) or bool(re.match(r"^getD", name))


def mapping(root):
    found = {n: respelled(n, fact) for n, fact in declared(root).items() if off(n) and respelled(n, fact) != n}
    return found | MORE


def turned(text, names, comment):
    """The text with each name in its new spelling; comments and strings stay, but for names in backquotes."""
    out = []
    for line in text.split("\n"):
        m = re.search(r"(^|\s)" + re.escape(comment) + r"(\s|$)", line)
        code, rest = (line[: m.start()], line[m.start():]) if m else (line, "")
        parts = re.split(r'("(?:[^"\\]|\\.)*")', code)
        for i in range(0, len(parts), 2):
            parts[i] = TOKEN.sub(lambda t: names.get(t.group(0), t.group(0)), parts[i])
        rest = re.sub(r"`([^`]+)`", lambda t: "`" + names.get(t.group(1), t.group(1)) + "`", rest)
        out.append("".join(parts) + rest)
    return "\n".join(out)


def main(argv):
    root = argv[0] if argv else "."
    names = mapping(root)
    files = [(f, "--") for f in sources(root)]
    files += [(f, "//") for f in sorted(glob.glob(os.path.join(root, "crates", "*", "src", "**", "*.rt"), recursive=True))]
    files += [(f, "//") for f in sorted(glob.glob(os.path.join(root, "crates", "*", "must-fail", "*.edit")))]
    changed = 0
    for f, comment in files:
        with open(f, encoding="utf-8") as it:
            old = it.read()
        new = turned(old, names, comment)
        if new != old:
            with open(f, "w", encoding="utf-8") as it:
                it.write(new)
            changed += 1
    print(f"{len(names)} names respelled, {changed} files changed")


if __name__ == "__main__":
    main(sys.argv[1:])
