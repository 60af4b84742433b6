#!/usr/bin/env python3
"""Makes docs/REFUSED.md, the table of refused edits, from the first lines of crates/*/must-fail/*.edit.

tests/edits.py            writes the page anew
tests/edits.py --check    compares it with the one in the tree, and fails if an edit no longer fits the file that it changes

The first line of an edit is "# CONTRACT | WRONG PROGRAM | KIND", where KIND is code, definition or contract; a fourth part says why
it is refused, if that is not the false fact.
"""

import argparse
import re
import sys
from pathlib import Path

KINDS = ["code", "definition", "contract"]
# Where a clause of a contract begins, which may have a name: its text stands between this brace and the one that closes it.
CLAUSE = re.compile(r"\b(?:requires|ensures)\*?(?:\s+\w+)?\s*\{")

PAGE = """\
# Refused edits

A refused edit is a wrong program: a small change to a crate, kept in `crates/CRATE/must-fail/NAME.edit`. The gate makes each in a copy
of the crate, and passes only if the prover refuses what comes of it. *Code*: the code is changed, and what it promises
stays. *Definition*: a definition is changed, and the code or the theorem does not meet it. *Contract*: what a function promises, or asks of
its caller, is changed, and its code stays.

Each is refused at a fact that no longer holds: the first error of its log shows two values that differ, numbers at which a bound fails,
a condition that nothing gives any more, or, where the prover has to find the proof by itself, what it does not prove. {others}

Made by `tests/edits.py` from the first line of each edit: change those, not this page.

| contract | wrong program | kind | edit |
|---|---|---|---|
{rows}"""


class Malformed(Exception):
    """An edit that says nothing of itself, says it wrongly, or does not fit the files of its crate."""


def crates(root):
    """The names of the crates, from the leaves up."""
    lines = (root / "crates.txt").read_text(encoding="utf-8").splitlines()
    return [line.split(":")[0] for line in lines if line and not line.startswith("#")]


def edits(root):
    """The files of all edits, crate by crate; a folder of edits that no listed crate has is a mistake."""
    names = crates(root)
    for folder in sorted(root.glob("crates/*/must-fail")):
        if folder.parent.name not in names:
            raise Malformed(f"{folder.relative_to(root)}: crates.txt has no such crate")
    return [path for name in names for path in sorted(root.glob(f"crates/{name}/must-fail/*.edit"))]


def heading(first):
    """What the first line of an edit says: contract, wrong program, kind, and why it is refused if that is not the false fact."""
    parts = [part.strip() for part in first[1:].split(" | ")]
    if not first.startswith("# ") or len(parts) not in (3, 4) or not all(parts) or parts[2] not in KINDS:
        raise Malformed(f"the first line is not '# CONTRACT | WRONG PROGRAM | {' or '.join(KINDS)}': {first!r}")
    return (parts + [""])[:4]


def pairs(lines):
    """The file, the old text and the new one of each replacement, as rt reads them: any other line is passed over."""
    name = old = ""
    for line in lines:
        if line.startswith("file: "):
            name = line[len("file: "):]
        elif line.startswith("old: "):
            old = line[len("old: "):]
        elif line.startswith("new:"):
            new = line[len("new:"):]
            yield name, old, new[1:] if new.startswith(" ") else new
            old = ""


def clauses(text):
    """The start and the end of each clause of a file's contracts: from requires or ensures to the brace that closes it."""
    for found in CLAUSE.finditer(text):
        if "//" in text[text.rfind("\n", 0, found.start()) + 1 : found.start()]:
            continue
        depth, end = 1, found.end()
        while depth and end < len(text):
            depth += {"{": 1, "}": -1}.get(text[end], 0)
            end += 1
        yield found.start(), end


def changed_kind(name, text, old):
    """What a replacement of the old text in a file changes; nothing if that is an import of a contract's names."""
    parts = name.split("/")
    if parts[0] not in ("src", "specs") or ".." in parts:
        raise Malformed(f"it changes {name}, which is neither in src/ nor in specs/")
    if parts[0] == "specs":
        return "definition"
    if old.startswith("ghost use "):
        return None
    first = text.index(old)
    is_contract = any(start < first + len(old) and first < end for start, end in clauses(text))
    return "contract" if is_contract else "code"


def fitted(crate, lines):
    """The kinds of all that an edit changes, if each old text stands once in its file once the replacements before it are made."""
    texts, kinds = {}, set()
    for name, old, new in pairs(lines):
        path = crate / name
        if name not in texts and not path.is_file():
            raise Malformed(f"there is no file {name!r} in the crate")
        text = texts[name] if name in texts else path.read_text(encoding="utf-8")
        count = text.count(old) if old else 0
        if count != 1:
            raise Malformed(f"the old text is {count} times in {name}, and not once: {old!r}")
        kinds.add(changed_kind(name, text, old))
        texts[name] = text.replace(old, new)
    if not kinds:
        raise Malformed("it changes nothing: it has no 'old:' and 'new:'")
    return kinds - {None}


def row(path):
    """The contract, the wrong program, the kind, the edit's name, and why it is refused if that is not the false fact."""
    lines = path.read_text(encoding="utf-8").split("\n")
    contract, wrong, kind, why = heading(lines[0])
    crate = path.parent.parent
    kinds = fitted(crate, lines)
    if kinds != {kind}:
        raise Malformed(f"its first line says {kind}, and it changes {' and '.join(sorted(kinds))}")
    return contract, wrong, kind, f"{crate.name}/{path.stem}", why


def others(rows):
    """How many edits are refused at the false fact: all, or all but those that give another reason, one reason a line."""
    reasons = {}
    for _, _, _, name, why in rows:
        if why:
            reasons.setdefault(why, []).append(f"`{name}`")
    if not reasons:
        return f"That is so of all {len(rows)}."
    lines = [f"- {', '.join(names)}: {why}." for why, names in reasons.items()]
    return "\n".join([f"That is so of the {len(rows)} but for these:", "", *lines])


def page(rows):
    """The page of these edits: those on one contract stand together."""
    order = list(dict.fromkeys((name.split("/")[0], contract) for contract, _, _, name, _ in rows))
    together = sorted(rows, key=lambda row: order.index((row[3].split("/")[0], row[0])))
    lines = "".join(f"| {contract} | {wrong} | {kind} | `{name}` |\n" for contract, wrong, kind, name, _ in together)
    return PAGE.format(others=others(rows), rows=lines)


def all_rows(root):
    """The rows of all edits, and the messages on those that have none."""
    rows, problems = [], []
    for path in edits(root):
        try:
            rows.append(row(path))
        except (Malformed, OSError, UnicodeDecodeError) as problem:
            problems.append(f"{path.relative_to(root)}: {problem}")
    return rows, problems


def main():
    parser = argparse.ArgumentParser(description=__doc__, formatter_class=argparse.RawDescriptionHelpFormatter)
    parser.add_argument("--check", action="store_true", help="compare only")
    parser.add_argument("--root", type=Path, default=Path(__file__).resolve().parent.parent, metavar="FOLDER")
    arguments = parser.parse_args()
    path = arguments.root / "docs" / "REFUSED.md"
    try:
        rows, problems = all_rows(arguments.root)
    except (Malformed, OSError) as problem:
        rows, problems = [], [str(problem)]
    if problems:
        sys.exit("\n".join(problems))
    if not arguments.check:
        path.write_text(page(rows), encoding="utf-8")
    elif not path.is_file() or path.read_text(encoding="utf-8") != page(rows):
        sys.exit(f"{path}: not what the edits say: run tests/edits.py")


if __name__ == "__main__":
    main()
