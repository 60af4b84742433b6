#!/usr/bin/env python3
"""Turns the proofs of a crate's functions from the older form, one Proof.antt that lists every step, to Invariants.antt and Answers.antt.

tools/answers.py CRATE NAMES.json

NAMES.json is what `rt check --generated DIR --old-names` writes in the crate's folder: the older and today's name of each goal and each step.
An answer that a tactic finds by itself is left out. What it cannot turn it leaves as it stands, and the check tells of it. Used once, for the
port to today's Rattle.
"""

import json
import re
import sys
from pathlib import Path

ROOT = Path(__file__).resolve().parent.parent

NAME = r"[A-Za-z_][\w'₀₁₂₃]*(?:-[\w'₀₁₂₃]+)*"
FOUND_ALONE = {"omega arith", "search rules", "tt", "(cc)", "cc", "search needs", "refl", "λ κs. search rules", "lit< tt", "(lit< tt)"}


def dashed(name):
    return name.replace("_", "-")


class Function:
    """The steps of a function, as the older kit and as today's names them."""

    def __init__(self, entry):
        self.parent, self.step, self.arms, self.labels, self.lent = {}, {}, {}, {}, {}
        for place, arms in zip(entry["places"], entry["arms"]):
            name, parent, step = place[0], place[1], place[2]
            self.parent[name] = parent
            self.step[name] = step
            self.arms[name] = arms
            self.labels[name] = {old: new for old, new in place[4]}
            self.lent[name] = entry["params"].get(place[3], [])
        self.needs = [(old, new) for old, new in entry["needs"]]
        self.asked_at = [old for old, _ in entry["asked_at"]]
        self.loops = [(names[0], names[1], variables, changed) for (names, variables), changed in zip(entry["loops"], entry["changed"])]

        self.parameters = []

    def spelled(self, name):
        """A parameter as the source spells it."""
        return next((p for p in self.parameters if dashed(p) == dashed(name)), name)

    def told(self, place):
        """The place itself, or where the older kit had none for the length of an array behind a reference, the one before it."""
        while place is not None and self.step[place][0].startswith("way_told"):
            place = self.parent[place]
        return place

    def up(self, place, times):
        place = self.told(place)
        for _ in range(times):
            if place is None or self.parent.get(place) is None:
                return None
            place = self.told(self.parent[place])
        return place

    def field(self, place, name):
        """Today's path of a field of the record of a place; None if it is no step of it."""
        step = self.step.get(place)
        if step and step[0] and dashed(step[0]) in (dashed(name).lower(), dashed(name).lower().removesuffix("-lem")):
            return step[1]
        if name in ("args", "requires", "ranges", "well_formed", "utf8", "type_inv"):
            return name
        return None


def parameters(crate, parts):
    """The parameters of the function whose proof lies in a folder."""
    names = []
    for source in sorted((ROOT / "crates" / crate / "src").rglob("*.rt")):
        module = source.relative_to(ROOT / "crates" / crate / "src").with_suffix("").parts
        if module in (("lib",), ("main",)):
            module = ()
        if tuple(parts[: len(module)]) != module or len(parts) - len(module) not in (1, 2):
            continue
        m = re.search(r"\bfn " + parts[-1] + r"(?:<[^>]*>)?\(", source.read_text(encoding="utf-8"))
        if m:
            rest, depth, word, names = source.read_text(encoding="utf-8")[m.end():], 0, "", []
            for ch in rest:
                if ch == ")" and depth == 0:
                    break
                depth += (ch in "([<") - (ch in ")]>")
                if ch == "," and depth == 0:
                    names.append(word)
                    word = ""
                else:
                    word += ch
            names = [n.split(":")[0].replace("mut ", "").strip() for n in [*names, word] if n.strip()]
            if len(module) == len(parts) - 1:
                return names
    return names


def arm_paths(function, place):
    arms = function.arms.get(place)
    if not arms:
        return []
    name, _, paths = arms
    return [(dashed(old), list(fields), name, new) for new, old, fields in paths]


class Turned:
    """The text of one answer, its paths turned."""

    def __init__(self, function, place):
        self.function = function
        self.alias = {"c": place}

    def path(self, m):
        root, ups, rest = m.group(1), m.group(2).count(".before"), m.group(3) or ""
        if root not in self.alias:
            return m.group()
        place = self.function.up(self.alias[root], ups)
        if place is None:
            return m.group()
        fields = [f for f in rest.split(".") if f]
        if not fields:
            return m.group() if ups or root == "c" else m.group()
        new = self.function.field(place, fields[0])
        if new is None:
            # the older kit had fewer steps on the way: the nearest step of that name
            place = self.alias[root]
            while place is not None and self.function.field(place, fields[0]) is None:
                place = self.function.parent.get(place)
            if place is None:
                return m.group()
            new = self.function.field(place, fields[0])
        for old, path, arm, label in sorted(arm_paths(self.function, place), key=lambda it: -len(it[1])):
            if dashed(fields[0]) == old and [dashed(f) for f in fields[1:1 + len(path)]] == [dashed(p) for p in path] and len(fields) > 1:
                return ".".join(["c", arm, label, *fields[1 + len(path):]])
        after = fields[1:]
        if new == "args" and after and re.fullmatch(r"t\d+", after[0]):
            number = int(after[0][1:])
            if 0 < number <= len(self.function.parameters):
                after[0] = self.function.parameters[number - 1]
        if new == "args" and after:
            after[0] = self.function.spelled(after[0])
        lent = self.function.lent.get(place, [])
        if len(after) > 1 and after[0] in ("auto", "new", "kept", "last") and after[1].isdigit() and int(after[1]) < len(lent):
            after[1] = lent[int(after[1])]
        if after:
            after[0] = self.function.labels.get(place, {}).get(after[0], after[0])
        if after and new.startswith(("if-", "loop-")) and (new.startswith("if-") or new.endswith("-test")):
            after[0] = {"taken": "true", "left": "false"}.get(after[0], after[0])
        return ".".join(["c", new, *after])

    def turn(self, text):
        # `let here = c.before.before in` names a place: what follows says it in full
        while True:
            m = re.search(r"let (" + NAME + r") = (" + NAME + r")((?:\.before)*) in\s*", text)
            if not m or m.group(2) not in self.alias or m.group(1) in self.alias:
                break
            place = self.function.up(self.alias[m.group(2)], m.group(3).count(".before"))
            if place is None:
                break
            self.alias[m.group(1)] = place
            text = text[: m.start()] + text[m.end():]
        return re.sub(r"(?<![\w.'-])(" + NAME + r")((?:\.before)*)((?:\.(?!before(?![\w'-]))(?:" + NAME + r"|\d+))*)", self.path, text)


def declarations(text):
    """The text above the declarations, and each declaration: its comments, signature, unfolding line, and body."""
    blocks = re.split(r"\n\n+", text.strip("\n"))
    head, rest = blocks[0], blocks[1:]
    return head, rest


def turned_file(function, text, path):
    head, blocks = declarations(text)
    invariants, answers, extra = [], [], []
    order = []
    local = {}
    by_need = {dashed(old): i for i, (old, _) in enumerate(function.needs)}
    for block in blocks:
        lines = block.split("\n")
        comments = [l for l in lines if l.startswith("--")]
        body = [l for l in lines if not l.startswith("--")]
        if not body:
            extra.append(block)
            continue
        sig = body[0]
        m = re.match(r"(?:abbrev )?(?:pub )?(" + NAME + r") : tie\.(invariant|decreases)-(\S+)", sig)
        if m:
            name, kind, loop = m.groups()
            found = [l for l in function.loops if dashed(l[0]) == dashed(loop)]
            if not found:
                invariants.append("-- NOT TURNED\n" + block)
                continue
            _, new, variables, changed = found[0]
            text_of = "\n".join(body[1:])
            unfolding = ""
            if body[1].startswith("unfolding"):
                unfolding = body[1] + "\n"
                text_of = "\n".join(body[2:])
            left, _, right = text_of.partition("=")
            given = left.split()[1:]
            wanted = []
            for v, c in zip(variables, changed):
                wanted.append(f"l.initial.{v}" if c else f"l.{v}")
            wanted += [f"l.{v}" for v, c in zip(variables, changed) if c]
            right = right.strip()
            if len(given) == len(wanted):
                table = dict(zip(given, wanted))
                right = re.sub(r"(?<![\w.'-])(" + NAME + r")(?![\w'₀₁₂₃-])", lambda k: table.get(k.group(1), k.group(1)), right)
            else:
                comments.append(f"-- NOT TURNED: {given} {wanted}")
            invariants.append("\n".join([*comments, f"abbrev pub {kind}-{new} : goal.{kind}-{new}", f"{unfolding}{kind}-{new} l = {right}"]))
            continue
        m = re.match(r"(?:pub )?(" + NAME + r") : tie\.Need-(\S+)", sig)
        if m:
            name, need = m.groups()
            key = dashed(need)
            short = re.sub(r"^(overflow|nonzero)-", "", key)
            index = by_need.get(key, by_need.get(short, by_need.get(dashed(name))))
            rest = body[1:]
            unfolding = ""
            if rest and rest[0].startswith("unfolding"):
                unfolding = rest[0] + "\n"
                rest = rest[1:]
            text_of = "\n".join(rest)
            left, _, right = text_of.partition("=")
            if index is None:
                if right.strip() not in FOUND_ALONE:
                    extra.append("-- NOT TURNED\n" + block)
                continue
            new = function.needs[index][1]
            local[name] = new
            place = function.asked_at[index]
            if right.strip() in FOUND_ALONE and not unfolding:
                continue
            right = Turned(function, place).turn(right)
            answers.append(("\n".join([*comments, f"pub {new} : goal.{new}", f"{unfolding}{new} c ="]), right))
            continue
        if "tie.spec" in block or "-spec :" in sig or "_spec :" in sig:
            continue
        extra.append(block)
    # an answer that cites another one
    def cited(m):
        return local.get(m.group(1), m.group(1)) + " c"

    answers = [above + re.sub(r"(?<![\w.'-])(" + NAME + r") c(?![\w.'-])", cited, right) for above, right in answers]
    return head, invariants, extra, answers


def imports(head, path, module):
    lines = [l for l in head.split("\n") if "Statement.{" not in l and " as tie" not in l and "borrow.Author.Needs" not in l]
    return "\n".join(lines + [f"use {path}.{module} as goal"])


def main():
    crate, names = sys.argv[1], json.loads(Path(sys.argv[2]).read_text(encoding="utf-8"))
    only = sys.argv[3:]
    folder = ROOT / "crates" / crate / "proofs"
    for proof in sorted(folder.rglob("Proof.antt")):
        parts = proof.relative_to(folder).parts[:-1]
        if only and "/".join(parts) not in only:
            continue
        entry = names.get(".".join([f"Rattle-{crate}-proofs", *parts, "Lts"]))
        text = proof.read_text(encoding="utf-8")
        if entry is None or "Tie as tie" not in text:
            print(f"left: {proof.relative_to(ROOT)}")
            continue
        path = ".".join(["Rattle", crate, "proofs", *parts])
        function = Function(entry)
        function.parameters = parameters(crate, parts)
        head, invariants, extra, answers = turned_file(function, text, path)
        proof.unlink()
        if invariants:
            (proof.parent / "Invariants.antt").write_text("\n\n".join([imports(head, path, "Given"), *invariants]) + "\n", encoding="utf-8")
            head = "\n".join(l for l in head.split("\n"))
        if answers or extra:
            (proof.parent / "Answers.antt").write_text("\n\n".join([imports(head, path, "Goals"), *extra, *answers]) + "\n", encoding="utf-8")
        if not any(proof.parent.iterdir()):
            proof.parent.rmdir()


if __name__ == "__main__":
    main()
