#!/usr/bin/env python3
"""Brings the repository's own definitions and lemmas to the spelling of today's Rattle, once, after port.py: words in snake case, no
middle dot in a name. Functions of src/, exported names, strings, inputs and outputs keep their names.

tools/respell.py        at the top of the repository, right after the kit's port/port.py

It turns crates/*/src, specs, proofs and must-fail, and the names in backquotes in README.md and docs/. A name in lower camel case gets
underscores everywhere. A name that a file of specs/ declares, and a field of any record, gets underscores in place of its dashes; a lemma's
dashes stay as port.py left them. Edits get the library's new names too, which port.py does not give them.
"""

import re
from pathlib import Path

ROOT = Path(__file__).resolve().parent.parent

# Names that would fall together with another one, or that need more than the rule.
CHOSEN = {
    "in-range": "within_range",
    "in-turn": "as_taken_in_turn",
    "numberOr256": "number_or_256",
    "tooShort": "too_short",
    "score-most": "score_bounded",
    "within-limits": "stays_within_limits",
    "starts-after-end": "times_reversed",
    "outside-period": "times_outside",
    "refusedBy": "refused_by_number",
    "pot-most": "pot_bounded",
    "first-weight": "weight_of_first",
    "fullest-gas": "fullest_of_gas",
}

# The lemma that `tooShort` would fall together with.
LEMMAS = {"too_short": "too_short_lem"}

# An `as` with a middle dot: the definition's own name, or where a parameter has that name another one.
ALIASES = {
    "Share·share": "share",
    "Share·precedes": "precedes",
    "Sum·sum": "sum_of_all",
    "Sequence·thousandths": "thousandths_of_sums",
    "Indicator·scores": "scores_of_indicator",
    "Money·returns": "returns_of_pot",
    "Calls·apply": "apply",
    "Reader·read": "read",
}

# What port.py turned in crates, for the texts of edits.
LIBRARY = [
    (r"Rattle·(\w+)\.specs\b", r"Rattle.\1.specs"),
    (r"Rattle·(\w+)·specs\.specs\b", r"Rattle.\1.specs"),
    (r"(?<![\w'-])getD(?![\w'-])", "get_or"),
    (r"(?<![\w'◌])_(\+|-|\*|/|%|\^|≤|<|≡|∷|\+\+|&&|\|\||⊎|≢)_(?![\w'])", r"◌\1◌"),
]

TOKEN = re.compile(r"(?<![\w'·-])[a-z][\w'₀₁₂₃]*(?:-[\w'₀₁₂₃]+)*")
DECLARED = re.compile(r"^\s*(?:(?:unfoldable|abbrev|pub|data|record)\s+)*([^\s:(){}]+)(?: \([^)]*\)| \{[^}]*\})* :(?: |$)", re.M)


def files(pattern):
    return sorted(p for p in ROOT.glob(pattern) if p.is_file() and "out" not in p.relative_to(ROOT).parts)


def fields(text):
    """The fields of the records that a file declares."""
    found, within = set(), None
    for line in text.split("\n"):
        depth = len(line) - len(line.lstrip())
        if within is not None and line.strip() and depth <= within:
            within = None
        if re.match(r"\s*(?:pub )?record \w", line):
            within = depth
        elif within is not None:
            found |= set(re.findall(r"^\s*pub ([^\s:]+) :", line))
    return found


def dashed():
    """The names with a dash that the files of specs/ declare, and those of records' fields in proofs/."""
    found = set()
    for path in files("crates/*/specs/**/*.antt"):
        found |= set(DECLARED.findall(path.read_text(encoding="utf-8")))
    for path in files("crates/*/proofs/**/*.antt"):
        found |= fields(path.read_text(encoding="utf-8"))
    return {name for name in found if "-" in name}


def snake(part):
    """A part of a name between dashes, its lower camel case in snake case. A word that begins with a capital names a type, and stays."""
    if not part[:1].islower():
        return part
    return re.sub(r"(?<=[a-z0-9])[A-Z]", lambda m: "_" + m.group().lower(), part)


def respelled(name, stated):
    if name in CHOSEN:
        return CHOSEN[name]
    if name in LEMMAS:
        return LEMMAS[name]
    if name in stated:
        return snake(name.replace("-", "_"))
    return "-".join(CHOSEN.get(part) or snake(part) for part in name.split("-"))


def turned(text, stated):
    for old, new in ALIASES.items():
        text = re.sub(r"(?<![\w])" + re.escape(new) + " as " + re.escape(old) + r"(?!\w)", new, text)
        text = text.replace(old, new)
    return TOKEN.sub(lambda m: respelled(m.group(), stated), text)


def turned_code(text, stated, comment):
    """A file's text, its comments in words as they are but for names in lower camel case."""
    out = []
    for line in text.split("\n"):
        at = line.find(comment)
        if at >= 0 and not (at and comment == "--" and line[:at].strip() and not line[:at].endswith(" ")):
            out.append(turned(line[:at], stated) + turned(line[at:], set()))
        else:
            out.append(turned(line, stated))
    return "\n".join(out)


def turned_edit(text, stated):
    out = []
    for line in text.split("\n"):
        if line.startswith(("old: ", "new: ")):
            for old, new in LIBRARY:
                line = re.sub(old, new, line)
            line = line[:5] + turned(line[5:], stated)
        elif line.startswith("#"):
            line = turned_page(line, stated)
        out.append(line)
    return "\n".join(out)


def turned_page(text, stated):
    return re.sub(r"`[^`\n]+`", lambda m: turned(m.group(), stated), text)


def main():
    stated = dashed()
    for path in files("crates/*/specs/**/*.antt") + files("crates/*/proofs/**/*.antt"):
        path.write_text(turned_code(path.read_text(encoding="utf-8"), stated, "--"), encoding="utf-8")
    for path in files("crates/*/src/**/*.rt"):
        path.write_text(turned_code(path.read_text(encoding="utf-8"), stated, "//"), encoding="utf-8")
    for path in files("crates/*/must-fail/*.edit"):
        path.write_text(turned_edit(path.read_text(encoding="utf-8"), stated), encoding="utf-8")
    for path in [ROOT / "README.md", *files("docs/*.md")]:
        path.write_text(turned_page(path.read_text(encoding="utf-8"), stated), encoding="utf-8")


if __name__ == "__main__":
    main()
