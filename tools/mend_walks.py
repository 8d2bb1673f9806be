#!/usr/bin/env python3
"""Brings the proofs that walk the code, crates/NAME/proofs/F/Proof.antt, to the names that today's Rattle gives a function's goals, places and steps.

usage: tools/mend_walks.py NAME..

It asks 'rt check --generated DIR --old-names' for each name with the one before, so the crates below NAME have to be proved. It rewrites the files in place.
A line that begins 'look:' names what it did not find.
"""
import json
import os
import re
import subprocess
import sys
import tempfile

WORD = r"[^\s(){}\[\],;.«»]"


RESPELLED = {}
if os.path.isfile("tools/respelled.tsv"):
    with open("tools/respelled.tsv", encoding="utf-8") as f:
        RESPELLED = {new: old for old, new in (l.split("\t") for l in f.read().splitlines())}


def norm(name):
    return name.replace("_", "-").lower()


def text_of(path):
    with open(path, encoding="utf-8") as f:
        return f.read()


def names_of(crate):
    folder = tempfile.mkdtemp(prefix="names-")
    said = subprocess.run(["rt", "check", "--generated", folder, "--old-names"], cwd=f"crates/{crate}", capture_output=True, text=True)
    path = os.path.join(folder, "names.json")
    if not os.path.isfile(path):
        print("\n".join(l for l in said.stdout.splitlines() + said.stderr.splitlines() if "rt: note" not in l)[-3000:])
        raise SystemExit(f"no names for {crate}")
    return json.loads(text_of(path))


PREFIXES = ["overflow-", "nonzero-", "bounds-"]
BEGIN = r"(?<![^\s(){}\[\],;])"


class Names:
    def __init__(self, lts):
        self.needs, self.places, self.steps, self.asked, self.above = {}, {}, {}, {}, {}
        self.params = {}
        for l in lts:
            renamed = {p[0]: n for p, n in zip(l["places"], l["places_by_name"])}
            for (old, new), (_, at) in zip(l["needs"], l["asked_at"]):
                self.needs.setdefault(norm(old), new)
                self.asked[new] = at
            for place, new in zip(l["places"], l["places_by_name"]):
                self.places.setdefault(norm(place[0]), new)
                self.above[new] = renamed.get(place[1])
                old_step, new_step = place[2]
                if old_step:
                    self.steps.setdefault(norm(old_step), set()).add(new_step)
                if place[3]:
                    self.params[new_step] = l["params"].get(place[3], [])
        # An arm's places before its last one: a later place is reached from what stood before the arm, and the last one has its parts.
        self.last = {}
        for l in lts:
            for arm, new in zip(l["arms"], l["places_by_name"]):
                if arm:
                    final = arm[0][0].upper() + arm[0][1:]
                    if new != final and final in l["places_by_name"]:
                        self.last[new] = final
        for new, final in self.last.items():
            if self.above.get(new) not in self.last:
                self.above[final] = self.above[new]
        self.arms = {}
        for l in lts:
            for arm in l["arms"]:
                for field, old, path in (arm[2] if arm else []):
                    if path:
                        self.arms.setdefault((norm(old), tuple(path)), set()).add(f"{arm[0]}.{field}")
        self.loops = {norm(l[0][0]): l[0][1] for it in lts for l in it["loops"]}
        self.new_needs = {norm(n): n for l in lts for _, n in l["needs"]}
        self.new_places = {norm(n): n for n in self.above}

    def need(self, token):
        t = norm(token)
        if t in self.needs:
            return self.needs[t]
        for p in PREFIXES:
            if t.startswith(p) and t[len(p):] in self.needs:
                return self.needs[t[len(p):]]
        t2 = re.sub(r"^(overflow|nonzero)-([a-z]+)-", r"\2-", t)
        if t2 in self.needs:
            return self.needs[t2]
        return self.new_needs.get(t)

    def place(self, token):
        return self.places.get(norm(token)) or self.new_places.get(norm(token))

    def depth(self, at, to):
        n = 0
        while at is not None:
            if at == to:
                return n
            at, n = self.above.get(at), n + 1
        return None


def blocks(text):
    """The text cut before each declaration, those of modules too."""
    out, at, inside = [], [], False
    for line in text.split("\n"):
        if line.startswith("module "):
            inside = True
        elif re.match(r"[^\s)\]}]", line) and not line.startswith(("unfolding ", "where")):
            inside = False
        starts = re.match(r"[^\s)\]}]", line) or (inside and re.match(r"  [^\s)\]}]", line))
        if starts and at and not at[-1].lstrip().startswith("--") and not line.lstrip().startswith(("unfolding ", "where")):
            out.append(at)
            at = []
        at.append(line)
    out.append(at)
    return ["\n".join(b) for b in out]


def joined(parts):
    """Blocks with a declaration's signature and clauses together."""
    out = []
    for b in parts:
        first = next((l for l in b.split("\n") if not l.lstrip().startswith("--") and l.strip()), "")
        name = re.match(rf" *(?:pub |abbrev |unfoldable )*({WORD}+)", first)
        if out and name and out[-1][0] == name[1] and not first.lstrip().startswith(("use ", "module ", "record ", "data ")):
            out[-1][1] += "\n" + b
        else:
            out.append([name[1] if name else "", b])
    return [b for _, b in out]


def mended(path, text, names, spec, tie_name="tie"):
    said, gone = [], []
    T = re.escape(tie_name)

    def tie(m):
        token = m[1]
        if token.startswith("Need-"):
            new = names.need(token[5:])
            if new is None:
                gone.append(token[5:])
                return m[0]
            return f"{tie_name}.Need-" + new
        for kind in ("invariant-", "decreases-"):
            if token.startswith(kind) and norm(token[len(kind):]) in names.loops:
                return f"{tie_name}.{kind}{names.loops[norm(token[len(kind):])]}"
        new = names.place(token)
        new = names.last.get(new, new)
        return f"{tie_name}." + new if new else m[0]

    text = re.sub(rf"\b{T}\.((?:Need|After|In|At|Then|Else|Start|Arm|Case|Join|Loop|Past|Before|Of|Not|Default|Last|Came|invariant|decreases){WORD}*)", tie, text)
    # what Rattle no longer asks
    for token in gone:
        m = re.search(rf"^( *)({WORD}+) : {T}\.Need-{re.escape(token)}(?!{WORD})[^\n]*\n(?:(?!\n)(?:.*\n))*?\n", text, re.M)
        if m and len(re.findall(rf"(?<!{WORD}){re.escape(m[2])}(?!{WORD})", text)) == 3:
            text = text.replace(m[0], "", 1)
            text = re.sub(rf"\s*\(?(?<!{WORD}){re.escape(m[2])}(?!{WORD})( t\))?(?=[\s)])", "", text)
        else:
            said.append(f"look: {path}: no goal for {token}")
    text = re.sub(r"\.type-inv\b", ".type_inv", text)
    text = re.sub(r"(\.(?:if\d+|[\w-]*-test|if-[\w-]+))\.taken\b", r"\1.true", text)
    text = re.sub(r"(\.(?:if\d+|[\w-]*-test|if-[\w-]+))\.left\b", r"\1.false", text)
    helpers = {}
    for m in re.finditer(rf"^ *(?:pub |abbrev )*({WORD}+) : (?:\({WORD}+ : [^()]*\) → )?{T}\.Need-({WORD}+)", text, re.M):
        helpers[m[1]] = names.asked.get(m[2])
    for m in re.finditer(rf"^ *(?:pub |abbrev )*({WORD}+) :(?:\s+\{{[^}}]*\}} →)*\s+\({WORD}+ : {T}\.({WORD}+)", text, re.M):
        helpers[m[1]] = m[2]
    for m in re.finditer(rf"^ *(?:pub |abbrev )*({WORD}+) : {T}\.((?!Need-|invariant-|decreases-){WORD}+)[^\n]*→", text, re.M):
        helpers.setdefault(m[1], m[2])
    declared = set(re.findall(rf"^(?:abbrev |pub )*({WORD}+) :", text, re.M))
    for m in re.finditer(rf"^(?:abbrev |pub )*({WORD}+) : {T}\.({WORD}+)((?: {WORD}+)*) → {T}\.({WORD}+)", text, re.M):
        helpers[m[1]] = m[2]
        n = names.depth(m[2], m[4])
        if n is not None:
            text = re.sub(rf"^{re.escape(m[1])} c = c(?:\.before)+$", f"{m[1]} c = c" + ".before" * n, text, flags=re.M)
    for m in re.finditer(rf"^( *)module _ \(({WORD}+) : {T}\.({WORD}+)[^\n]*where\n((?:(?:\1  .*)?\n)*)", text, re.M):
        m = {1: m[2], 2: m[3], 3: re.sub(rf"^{m[1]}", "", m[4], flags=re.M)}
        for inner in re.finditer(rf"^  (?:pub |abbrev )*({WORD}+) :", m[3], re.M):
            helpers[inner[1]] = m[2]
            at = re.search(rf": {T}\.({WORD}+)", m[3][inner.start():].split("\n")[0])
            if at and names.depth(m[2], at[1]) is not None:
                text = re.sub(rf"^  {re.escape(inner[1])} = {m[1]}(?:\.before)+$", f"  {inner[1]} = {m[1]}" + ".before" * names.depth(m[2], at[1]), text, flags=re.M)
    parts = joined(blocks(text))
    placed = set(re.findall(rf"^ *(?:pub |abbrev )*({WORD}+) :(?: \([^()]*\) →| {T}\.{WORD}+[^\n→]*→)* {T}\.(?!Need-|invariant-|decreases-){WORD}+(?: \([^()]*\)| [^\s()→]+)*$", text, re.M))
    result = {}
    for m in re.finditer(rf"^ *(?:pub |abbrev )*({WORD}+) :[^\n]*{T}\.((?!Need-|invariant-|decreases-){WORD}+)(?: \([^()]*\)| [^\s()→]+)*$", text, re.M):
        result[m[1]] = m[2]
    out = []
    module = None
    for b in parts:
        if tie_name != "tie" and f"{tie_name}." not in b:
            out.append(b)
            continue
        head = re.search(r"^module [^\n]*", b, re.M)
        if head:
            m = re.search(rf"\(({WORD}+) : {T}\.({WORD}+)", head[0])
            module = (m[1], m[2]) if m else None
        elif re.match(r"[^\s)\]}]", next((l for l in b.split("\n") if l.strip() and not l.startswith("--")), " ")):
            module = None
        m = re.search(rf"^ *(?:pub |abbrev )*({WORD}+) : (?:\({WORD}+ : [^()]*\) → )?{T}\.Need-({WORD}+)", b, re.M)
        place = names.asked.get(m[2]) if m else None
        m = re.search(rf"\(({WORD}+) : {T}\.({WORD}+)", b)
        var = "c"
        if place is None and not m:
            m = re.search(rf"^ *(?:pub |abbrev )*{WORD}+ : ()({T}\.)?((?!Need-|invariant-|decreases-){WORD}+)[^\n]*→", b, re.M)
            m = m and m[2] and re.match(r"()()", "") and {1: "c", 2: m[3]}
        if m and place is None:
            var, place = m[1], m[2]
        elif place is None and module:
            var, place = module
        lets = {}
        for _ in range(3):
            for m in re.finditer(rf"\blet ({WORD}+) =\s+({WORD}+) (?:{WORD}+(?:\.before)*|\([^()]*\)) in\b", b):
                if m[2] in placed:
                    lets[m[1]] = result.get(m[2])
        roots = {var: var, "c": "c", **{k: k for k in lets}}
        grown = True
        while grown:
            grown = False
            for m in re.finditer(rf"\blet ({WORD}+)(?: : [^=]*?)? =\s+({WORD}+)((?:\.before)*) in\b", b):
                if m[2] in roots and m[1] not in roots:
                    roots[m[1]] = roots[m[2]]
                    grown = True
        # what is bound to a place goes: every field of a place that is before stands in the later one too
        def bound(m):
            if m[2] not in roots or m[3] not in roots:
                return m[0]
            return "" if m[5].endswith("\n") and m[1] else m[1]

        b = re.sub(rf"([ \t]*)\blet ({WORD}+)(?: : [^=]*?)? =\s+({WORD}+)((?:\.before)*) in\b( ?\n?)", bound, b)
        for alias, to in roots.items():
            if alias != to:
                after = r"(?=\.)" if alias in helpers or alias in declared else r"(?=[.)\],;]|$| in\b)" if alias == "at" else r"(?=[.\s(){}\[\],;]|$)(?! [=:→])"
                b = re.sub(rf"{BEGIN}{re.escape(alias)}{after}", to, b, flags=re.M)
        b = re.sub(r"(?:\.before)+(?=\.(?!before\b)[^\s(){}\[\],;.0-9])", "", b)

        # what is bound to the parts of an arm goes too
        for m in re.finditer(rf"[ \t]*\blet ({WORD}+) =\s+((?:{WORD}+)(?:\.before)*\.{WORD}+\.given) in\b ?\n?", b):
            b = b.replace(m[0], "", 1)
            b = re.sub(rf"{BEGIN}{re.escape(m[1])}(?=\.[0-9])", m[2], b)

        def arm(m):
            head, token, path = m[1], norm(m[2]), m[3].strip(".").split(".")
            for n in range(len(path), 0, -1):
                news = names.arms.get((token, tuple(path[:n])))
                if news and place in names.last and any(n.startswith(names.last[place][0].lower() + names.last[place][1:] + ".") for n in news):
                    return m[0]
                if news and len(news) == 1:
                    return ".".join([head, next(iter(news)), *path[n:]])
            said.append(f"look: {path_of}: {m[0]}")
            return m[0]

        def step(m):
            head, token = m[1], m[2]
            news = names.steps.get(norm(token)) or names.steps.get(re.sub("-lem$", "", norm(token))) or names.steps.get(norm(RESPELLED.get(token, "")))
            if not news:
                return m[0]
            if len(news) > 1:
                said.append(f"look: {path}: {token} is one of {sorted(news)}")
                return m[0]
            return f"{head}.{next(iter(news))}"

        path_of = path
        b = re.sub(rf"{BEGIN}({WORD}+|\({WORD}+ {WORD}+(?:\.before)*\))\.({WORD}+)((?:\.given)(?:\.[0-9])+)", arm, b)
        root = "|".join(sorted(map(re.escape, {var, "c", "w", "e", "f"} | placed | set(lets)), key=len, reverse=True))
        whole = rf"{BEGIN}({root}|\({WORD}+ {WORD}+(?:\.before)*\))"
        b = re.sub(rf"{whole}\.pre\b", r"\1.requires", b)
        b = re.sub(rf"{whole}\.fits\.", r"\1.ranges.", b)
        b = re.sub(rf"{whole}\.({WORD}+)\.inv\b", r"\1.\2.invariant", b)
        b = re.sub(rf"{whole}\.({WORD}+)\.ok\b", r"\1.\2.type_inv", b)
        b = re.sub(rf"{whole}\.({WORD}+)\.kept\b", r"\1.\2.auto", b)
        b = re.sub(rf"{whole}\.({WORD}+)\.last\b", r"\1.\2.new", b)
        b = re.sub(rf"{BEGIN}({root}|\({WORD}+ {WORD}+(?:\.before)*\))\.({WORD}+)", step, b)

        def param(m):
            ones = m[3].count(".1")
            listed = names.params.get(m[1], [])
            if ones < len(listed):
                return f".{m[1]}.{m[2]}.{listed[ones]}"
            said.append(f"look: {path}: {m[0]}")
            return m[0]

        b = re.sub(rf"\.({WORD}+)\.(new|auto|kept|last)((?:\.1)*)\.0\b", param, b)

        b = re.sub(rf"(?<=[\s(\[,])({root})\.pre\b", r"\1.requires", b)
        for m in re.finditer(rf"([ \t]*)\blet ({WORD}+) =\s+((?:{WORD}+|\([^()]*\))\.({WORD}+)\.(?:new|auto))((?:\.1)*) in\b( ?\n?)", b):
            listed = names.params.get(m[4], [])
            if not listed:
                continue
            ones = m[5].count(".1")

            def part(k, listed=listed, ones=ones, m=m):
                n = ones + k[1].count(".1")
                return f"{m[3]}.{listed[n]}" if n < len(listed) else k[0]

            b = b.replace(m[0], "" if m[6].endswith("\n") and m[1] else m[1], 1)
            b = re.sub(rf"{BEGIN}{re.escape(m[2])}((?:\.1)*)\.0\b", part, b)
        for m in re.finditer(rf"\blet ({WORD}+)(?: : [^=]*?)? = c\.({WORD}+) in\b", b):
            if m[2] in names.params:
                listed = names.params[m[2]]

                def of_alias(k, listed=listed):
                    ones = k[2].count(".1")
                    return f"{k[1]}.{listed[ones]}" if ones < len(listed) else k[0]

                b = re.sub(rf"({BEGIN}{re.escape(m[1])}\.(?:new|auto|kept|last))((?:\.1)*)\.0\b", of_alias, b)

        def last(m):
            listed = names.params.get(m[1], [])
            return f".{m[1]}.{m[2]}.{listed[-1]}" if listed and m[3].count(".1") == len(listed) - 1 else m[0]

        b = re.sub(rf"\.({WORD}+)\.(new|auto|kept|last)((?:\.1)+)(?![.0-9])", last, b)
        b = re.sub(r"\(?\bnot-(?:true|false) _ (c\.if-not-[\w-]+\.(?:true|false))\b", lambda m: ("(" if m[0][0] == "(" else "") + m[1], b)

        def call(m):
            to = helpers.get(m[1])
            at = place if m[2] == var else lets.get(m[2])
            if not to or at is None:
                return m[0]
            n = names.depth(at, to)
            if n is None:
                said.append(f"look: {path}: {m[0]} at {at}, which is not after {to}")
                return m[0]
            return f"{m[1]} {m[2]}" + ".before" * n

        listed = "|".join(sorted(map(re.escape, helpers), key=len, reverse=True)) or "(?!)"
        b = re.sub(rf"{BEGIN}({listed}) ({WORD}+)((?:\.before)*)(?=[\s(){{}}\[\],;]|$|\.(?!before))(?! =)(?! κs =)", call, b)
        out.append(b)
    text = "\n".join(out)
    text = re.sub(rf"^(pub )?{WORD}+[-_]spec( : \{{M : Type 1\}} → statement)", rf"pub {spec}_spec\2", text, flags=re.M)
    text = re.sub(rf"^{WORD}+[-_]spec =(\s+tie\.close)", rf"{spec}_spec =\1", text, flags=re.M)
    text = re.sub(rf"^{WORD}+[-_]spec =(\s+close\b)", rf"{spec}_spec =\1", text, flags=re.M)
    return text, said


def main(argv):
    for crate in argv:
        names = names_of(crate)
        top = f"crates/{crate}/proofs"
        for folder, dirs, files in os.walk(top):
            dirs.sort()
            if "Proof.antt" not in files:
                continue
            path = os.path.join(folder, "Proof.antt")
            module = os.path.relpath(folder, top).replace("/", ".")
            key = f"Rattle-{crate}-proofs.{module}."
            text = new = text_of(path)
            said = []
            spec = folder.split("/")[-1]
            aliases = re.findall(rf"^use [\w.+'-]+\.(Lts-[\w+'-]+) as ({WORD}+)$", text, re.M)
            if aliases:
                for lts, alias in aliases:
                    new, more = mended(path, new, Names([names[key + lts]]), spec, alias)
                    said += more
            else:
                lts = [v for k, v in names.items() if k == key + "Lts"]
                if not lts:
                    print(f"look: {path}: no names under {key}")
                    continue
                new, said = mended(path, text, Names(lts), spec)
            for line in dict.fromkeys(said):
                print(line)
            if new != text:
                with open(path, "w", encoding="utf-8") as f:
                    f.write(new)
        subprocess.run(["rt", "fmt"], cwd=f"crates/{crate}", capture_output=True)


if __name__ == "__main__":
    main(sys.argv[1:])
