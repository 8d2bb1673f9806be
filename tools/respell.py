#!/usr/bin/env python3
"""Brings the repository's own names in specs/, proofs/ and clauses to Rattle's spelling: words in snake case.

usage: tools/respell.py            in the repository, right after port.py: rewrites the files in place, and writes the names to tools/respelled.tsv
       tools/respell.py edits      turns the texts of the must-fail edits and the names in pages by tools/respelled.tsv

A name is one that a file of specs/ or a lemma file of proofs/ declares: a definition, a lemma, a field, a constructor. Types and modules begin with a capital
letter and stay. What Rattle makes of a function (its places, goals and steps, in proofs/F/Proof.antt) is not respelled.
"""
import os
import re
import sys

# Two names that would fall together, or one that would be a tactic's, get names that say which is which.
BY_HAND = {
    "firstOf": "first_vars",
    "has-first-of": "has_first_var",
    "has-firstOf": "has_first_vars",
    "all-can": "every_one_can",
    "all-rules": "every_rule",
    "amount-due": "amount_due_lem",
    "at-fault": "at_fault_lem",
    "fewerBranchings": "short_of_branchings",
    "fewerPlaces": "short_of_places",
    "free-options": "free_options_lem",
    "in-play": "in_play_row",
    "is-kept": "is_kept_one",
    "isForced": "forced_now",
    "is-zero": "is_zero_lem",
    "joint-rules": "joint_rules_lem",
    "list-total": "list_total_lem",
    "literal-of": "literal_of_lem",
    "no-wishes": "no_wishes_lem",
    "one-record": "one_record_lem",
    "options-of": "options_of_lem",
    "part-lengths": "part_lengths_lem",
    "read-rules": "read_rules_lem",
    "rule-lines": "rule_lines_lem",
    "rules-of": "rules_of_lem",
    "side-fault": "side_fault_lem",
    "some-can": "some_one_can",
    "stop-branchings": "stops_on_branchings",
    "tallies-left": "tallies_left_lem",
    "too-dear": "too_dear_lem",
    "tried-all": "tried_each",
    "with-places": "as_with_places",
    "with-setting": "as_with_setting",
}
# Lemmas that fall together with a respelled definition of their own crate, by crate.
BY_CRATE = {
    "turns": {"after_two": "after_two_lem", "in-turn": "in_turn_lem"},
    "cheapest": {"any_below": "any_below_lem"},
    "undecided": {"is_stop": "is_stop_lem"},
    "blocks": {"kept_in": "kept_in_lem"},
}
# Names that stand in the library too, and are its own where a file imports them.
OF_STD = {"not-not", "or-true"}
WORD = r"[^\s(){}\[\],;.«»:=λ→×|↦?`\"]"
TOKEN = re.compile(f"{WORD}+")


def snake(name):
    if name in BY_HAND:
        return BY_HAND[name]
    parts = []
    for part in name.split("-"):
        if part[:1].islower():
            part = re.sub(r"(?<=[a-z0-9'])([A-Z])", lambda m: "_" + m[1].lower(), part)
        parts.append(part)
    return "_".join(parts)


def files(ends, below="crates"):
    for folder, dirs, names in os.walk(below):
        dirs[:] = sorted(d for d in dirs if d != "out")
        for name in sorted(names):
            if name.endswith(ends):
                yield os.path.join(folder, name)


def text_of(path):
    with open(path, encoding="utf-8") as f:
        return f.read()


def is_walk(path):
    return path.endswith("/Proof.antt") or path.endswith("/Answers.antt") or path.endswith("/Invariants.antt")


DECLARED = [
    re.compile(rf"^\s*(?:(?:abbrev|unfoldable|pub|ghost|data|record) )*({WORD}+) *(?:\{{[^{{}}]*\}} *|\([^()]*\) *)*:(?: |$)", re.M),
    re.compile(rf"^\s*(?:(?:abbrev|unfoldable|pub) )*((?:{WORD}+ )+{WORD}+) *:(?: |$)", re.M),
]


def declared():
    names = set()
    for path in files((".antt",)):
        if is_walk(path):
            continue
        text = re.sub(r"--.*", "", text_of(path))
        for m in DECLARED[0].finditer(text):
            names.add(m[1])
        for m in DECLARED[1].finditer(text):
            names.update(m[1].split())
    return {n: snake(n) for n in names if n[0].islower() and snake(n) != n and re.fullmatch(r"[A-Za-z0-9_'₀-₉⁻¹-]+", n)}


def imported(text):
    """The names that a file takes from elsewhere than the repository's crates."""
    own = {l.split(":")[0] for l in text_of("crates.txt").splitlines() if ":" in l and l[0] != "#"}
    names = set()
    for m in re.finditer(r"^(?:pub |ghost )*use ([\w.'-]+)\.\{([^}]*)\}", text, re.M):
        if not re.match(r"Rattle\.(" + "|".join(own) + r")\.", m[1]):
            names.update(w.split()[0] for w in m[2].split(",") if w.strip())
    return names


def respelled(text, names):
    def code(part):
        return TOKEN.sub(lambda m: names.get(m[0], m[0]), part)

    def comment(part):
        return re.sub(r"`([^`]*)`", lambda m: "`" + code(m[1]) + "`", part)

    out = []
    for line in text.split("\n"):
        at = line.find("-- ") if not line.startswith("//") else -1
        mark = re.search(r"(?:^|\s)(--|//)(?:\s|$)", line)
        cut = mark.start(1) if mark else len(line)
        out.append(code(line[:cut]) + comment(line[cut:]))
    return "\n".join(out)


def walked_names(text):
    """In a proof that walks the code: what it declares itself, and what it names of Rattle's."""
    names = set(re.findall(rf"^(?:abbrev |pub )*({WORD}+) :", text, re.M))
    for m in re.finditer(r"tie\.[\w.'-]+", text):
        names.update(m[0].split(".")[1:])
    return names


def main(argv):
    if argv == ["edits"]:
        names = dict(l.split("\t") for l in text_of("tools/respelled.tsv").splitlines())
        for path in files((".edit",)):
            text = text_of(path)
            head, *rest = text.split("\n")
            new = "\n".join([head] + [respelled(l, names) if l.startswith(("old:", "new:")) else l for l in rest])
            if new != text:
                open(path, "w", encoding="utf-8").write(new)
        return 0
    names = declared()
    taken = {}
    for path in files((".antt",)):
        text = text_of(path)
        taken[path] = set(TOKEN.findall(re.sub(r"--.*", "", text)))
    for old, new in sorted(names.items()):
        for path, tokens in taken.items():
            if old in tokens and new in tokens:
                print(f"look: {path}: {old} and {new}")
    backwards = {}
    for old, new in sorted(names.items()):
        if new in backwards:
            print(f"look: {old} and {backwards[new]} are both {new}")
        backwards[new] = old
    for path in files((".antt", ".rt")):
        text = text_of(path)
        here = {o: n for o, n in names.items() if not (o in OF_STD and o in imported(text))}
        if not is_walk(path):
            here.update(BY_CRATE.get(path.split("/")[1], {}))
        if is_walk(path):
            kept = walked_names(text)
            brought = set()
            for m in re.finditer(r"^use Rattle\.[\w.'+-]+\.\{([^}]*)\}", text, re.M):
                brought.update(w for w in re.split(r"[,\s]+", m[1]) if w)
            for o in sorted(kept & set(here)):
                if o not in brought:
                    here.pop(o)
        new = respelled(text, here)
        if new != text:
            with open(path, "w", encoding="utf-8") as f:
                f.write(new)
    with open("tools/respelled.tsv", "w", encoding="utf-8") as f:
        f.write("".join(f"{o}\t{n}\n" for o, n in sorted(names.items())))
    print(f"{len(names)} names")
    return 0


if __name__ == "__main__":
    raise SystemExit(main(sys.argv[1:]))
