#!/usr/bin/env python3
"""Brings the repository's own names of antt to snake case, once, after port.py: definitions, lemmas, fields and constructors of specs/ and proofs/.

usage: python3 tools/snake_names.py            at the top of the repository: rewrites crates/*.antt and crates/*.rt, and prints names that fall together
       python3 tools/snake_names.py --list     prints each old name and its new one, and changes nothing

A name such as `blockAddress` or `bare-next` becomes `block_address` or `bare_next`. Types and modules keep their camel case, a name with a
type in it keeps its dash (`product-Inv-loop`), and names of std, of Rattle's generated modules and of src/ stay. Where a file imports a name
of the same spelling from outside the repository, that file's uses are left.
"""
import collections
import os
import re
import sys

ROOT = "crates"
NAME = r"[^\s(){}\[\],;.:\"`]+"
DECLARED = re.compile(r"^\s*(?:(?:abbrev|unfoldable|pub|data|record|ruleset) )*((?:" + NAME + r" )*" + NAME + r")((?: \([^)]*\)| \{[^}]*\})*) : (.*)$")
USE = re.compile(r"^\s*(?:pub )?(?:ghost )?use ([^;{]+)\.\{([^}]*)\}", re.M)
TOKEN = re.compile(NAME)
MADE = re.compile(r"^(?:tie|goal|[\w-]+-lts)\.")
# Lemmas whose name in snake case is that of the function that they speak of, and which port.py had turned already: with `_lem`, as the guide says.
LEMMAS = {
    "Rattle.checker.proofs.Walking": ["all_small"],
    "Rattle.grammar.specs.Held": ["due_in"],
    "Rattle.promises.specs.MapPromised": ["has_result"],
    "Rattle.format.proofs.Rows": ["header_of"],
    "Rattle.runs.proofs.Final": ["heap_of"],
    "Rattle.grammar.specs.Steps": ["is_digit"],
    "Rattle.state.proofs.Families": ["is_pointer"],
    "Rattle.soundness.specs.Cutting": ["labels_at"],
    "Rattle.rows.proofs.Opening": ["map_rows"],
    "Rattle.heap.proofs.Collected": ["room_of"],
    "Rattle.promises.specs.Promised": ["with_value"],
}
# Names that fall together with another and are no lemmas.
OWN = {"is-nan": "is_nan_lem", "record-differs": "record_differs_number", "zero-divide": "zero_divide_end", "operand-bytes": "operand_byte_list", "payload-of": "payload_of_slot"}
# Tactics of today's antt, which no clause and no definition may name.
TACTICS = {"ground": "ground_level"}
WORDS = {"abbrev", "unfoldable", "pub", "data", "record", "ruleset", "module", "use", "unfolding", "where", "let", "in", "open", "elim", "rw", "λ"}


def files(*ends):
    for folder, dirs, names in os.walk(ROOT):
        dirs[:] = sorted(d for d in dirs if d != "out")
        for name in sorted(names):
            if name.endswith(ends):
                yield os.path.join(folder, name)


def snake(name):
    """The name in snake case, or the name itself where it has no need."""
    parts = name.split("-")
    if any(p == "" for p in parts):
        return name
    if any(p[0].isupper() for p in parts):
        return name
    parts = [re.sub(r"(?<=[a-z0-9])([A-Z])", lambda m: "_" + m.group(1).lower(), p) if p[0].islower() else p for p in parts]
    return "_".join(parts).replace("get_d_", "get_or_")


def declared(text, is_proof):
    """The names that a file declares, and which of them are fields."""
    names, fields = set(), set()
    inside = False
    for line in text.splitlines():
        if line.strip() and not line.startswith(" "):
            inside = bool(re.match(r"^(?:abbrev |unfoldable |pub )*record ", line))
        m = DECLARED.match(line)
        if not m:
            continue
        if is_proof and MADE.match(m.group(3)):
            continue
        found = [w for w in m.group(1).split(" ") if w not in WORDS]
        if any("◌" in w or "=" in w for w in found):
            continue
        if line.startswith(" ") and len(found) > 1 and "pub" not in line.split():
            continue
        names |= set(found)
        if inside and line.startswith(" "):
            fields |= set(found)
    return names, fields


def gather():
    own, fields = set(), set()
    for path in files(".antt"):
        with open(path, encoding="utf-8") as it:
            a, b = declared(it.read(), os.path.basename(path) == "Proof.antt")
        own |= a
        fields |= b
    new = {n: OWN.get(n, snake(n)) for n in own}
    back = collections.Counter(new.values())
    for n in new:
        if "-" in n and n != new[n] and (new[n] in own or back[new[n]] > 1):
            new[n] += "_lem"
    new |= {n: m for n, m in TACTICS.items() if n in own}
    return {n: m for n, m in new.items() if n != m}, fields


def foreign(text):
    """The names that a file imports from outside the repository's own specs and proofs."""
    found = set()
    for place, names in USE.findall(text):
        if not re.match(r"Rattle\.(" + "|".join(CRATES) + r")\.", place.strip() + "."):
            found |= {n.strip().split(" as ")[0] for n in names.split(",")}
    return found


def lemmas_of(text, path):
    """The lemmas of LEMMAS that the file declares or imports, each with `_lem`."""
    found = set(LEMMAS.get("Rattle." + path[len(ROOT) + 1 : -len(".antt")].replace("/", "."), []))
    for place, names in USE.findall(text):
        found |= {n.strip() for n in names.split(",")} & set(LEMMAS.get(place.strip(), []))
    return found


def turned(text, path, new, fields, fell):
    is_proof = os.path.basename(path) == "Proof.antt"
    is_code = path.endswith(".rt")
    for n in sorted(lemmas_of(text, path)):
        text = re.sub(r"(?<![\w'.-])(?:(?<=\.\{))?" + n + r"(?![\w'-])", n + "_lem", text)
        text = re.sub(r"(?<=\.\{)" + n + r"(?![\w'-])", n + "_lem", text)
        if n in fields and "/specs/" in path:
            text = re.sub(r"(?<=\.)" + n + r"(?![\w'-])", n + "_lem", text)
    kept = foreign(text)
    made = {n for n in re.findall(r"(?m)^(" + NAME + r") : (?:tie|[\w-]+-lts)\.", text)} if is_proof else set()
    there = set(TOKEN.findall(text))
    clash = {n for n in there if n in new and n not in kept and new[n] in there}
    for n in sorted(clash):
        fell.append(f"{path}: {n} and {new[n]}")

    def one(m):
        n = m.group(0)
        if n not in new or n in kept or n in made:
            return n
        before = text[m.start() - 1 : m.start()]
        if before == "." and is_proof and n not in fields:
            return n
        return new[n]

    if not is_code:
        return TOKEN.sub(one, text)
    out, at = [], 0
    for m in re.finditer(r'b?"(?:[^"\\\n]|\\.)*"', text):
        out.append((text[at : m.start()], True))
        out.append((m.group(0), False))
        at = m.end()
    out.append((text[at:], True))
    return "".join(re.sub(NAME, lambda m: new[m.group(0)] if m.group(0) in new and m.group(0) not in kept else m.group(0), t) if turns else t for t, turns in out)


CRATES = sorted(d for d in os.listdir(ROOT) if os.path.isdir(os.path.join(ROOT, d)))


def main(argv):
    new, fields = gather()
    if argv == ["--list"]:
        for n in sorted(new):
            print(n, new[n])
        return 0
    fell = []
    for path in files(".antt", ".rt"):
        with open(path, encoding="utf-8") as it:
            text = it.read()
        after = turned(text, path, new, fields, fell)
        if after != text:
            with open(path, "w", encoding="utf-8") as it:
                it.write(after)
    back = collections.defaultdict(list)
    for n, m in new.items():
        back[m].append(n)
    for m in sorted(back):
        if len(back[m]) > 1:
            print("two names become one:", m, back[m])
    for line in fell:
        print("falls together in", line)
    return 0


if __name__ == "__main__":
    sys.exit(main(sys.argv[1:]))
