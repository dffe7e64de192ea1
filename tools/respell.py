#!/usr/bin/env python3
"""Respells the repository's own definitions and lemmas: words in snake case, types and modules in camel case.

usage: python3 tools/respell.py [--list]     at the top of the repository, once, after the toolchain's own script of spelling

It collects what specs/ and proofs/ declare (definitions, lemmas, fields, constructors) and writes each of those names as
`down_of` where it stood as `downOf` or `down-of`. What the library declares keeps its spelling, as do the functions, types
and constants of src/, operators, strings and the files that programs read. --list prints the names and changes nothing.
"""
import os
import re
import sys

IDENT = r"[^\s(){}\[\].,;:@\"`|]+"
OWN = re.compile(r"^(?:(?:unfoldable|abbrev|pub|record|data|ruleset) +)*(" + IDENT + r")(?: [^:]*)? :(?: |$)")
USE = re.compile(r"(?:^|\s)use ([A-Za-z0-9_.·+']+)\.\{([^}]*)\}|(?:^|\s)use ([A-Za-z0-9_.·+']+)(?: as ([a-z_]+))?", re.M)
# a lemma or field that falls together with a definition, and names that begin with an operator's
EXPLICIT = {"cut_short": "cut_short_lem", "out_of_range": "out_of_range_lem", "-ℤ-law": "-ℤ_law", "≤S-or": "≤S_or", "≤S-trans": "≤S_trans", "in-range": "ranged", "both-flags": "both_flags_kept"}
# names declared in a module within a file, names of imports, and local names
EXPLICIT |= {n: snake_of for n, snake_of in (line.split() for line in """
givenBy given_by_command
jobText job_text
printedOf printed_of
settingsGiven settings_given
ofResistances of_resistances
ofCap of_cap
acceptedText accepted_text
pageAfter page_after
setsInRange sets_in_range
columnPlus column_plus
columnMinus column_minus
alongL along_l
alongB along_b
outsideOf outside_of
knownByte known_byte_of
kindKnown kind_known
formsInRange forms_in_range
eccentricOf eccentric_of
beamShears beam_shears
allIn all_in
""".strip().split("\n"))}
KEYWORDS = {"let", "in", "where", "use", "mod", "elim", "as", "unfolding", "unfold", "infix", "infixl", "infixr", "module", "open"}


def lemma_files(root):
    for crate in sorted(os.listdir(os.path.join(root, "crates"))):
        for part in ("specs", "proofs"):
            top = os.path.join(root, "crates", crate, part)
            for folder, dirs, files in os.walk(top):
                dirs[:] = sorted(d for d in dirs if d != "out")
                for name in sorted(files):
                    if name.endswith(".antt") and name != "Proof.antt":
                        yield os.path.join(folder, name)


def all_files(root):
    for folder, dirs, files in os.walk(os.path.join(root, "crates")):
        dirs[:] = sorted(d for d in dirs if d not in ("out", "data"))
        for name in sorted(files):
            if name.endswith((".antt", ".rt", ".edit")):
                yield os.path.join(folder, name)


def declared(text):
    names, block = set(), None
    for line in text.split("\n"):
        if line[:1] not in ("", " ", "-"):
            block = "record" if re.match(r"(pub )?(record|data)\b", line) else None
            m = OWN.match(line)
            if m and m[1] not in KEYWORDS:
                names.add(m[1])
        elif block and line.startswith("  "):
            m = re.match(r"^  +(?:pub )?([^:]*?) : ", line)
            if m:
                names |= {w for w in m[1].split() if not w.startswith(("(", "{"))}
            for w in re.findall(r"^  +\| *(" + IDENT + r")", line):
                names.add(w)
        m = re.match(r"^ +(?:(?:pub|abbrev|unfoldable) )*([a-z0-9ℤℕ≤<]+(?:-[a-z0-9ℤℕ]+)+) :(?: |$)", line)
        if m:
            names.add(m[1])
    return names


def lent(text):
    names = set()
    for m in USE.finditer(text):
        if m[1] and not m[1].startswith("Rattle.") or m[1] and m[1].startswith(("Rattle.std.", "Rattle.core.")):
            for part in m[2].split(","):
                names |= {w for w in part.split() if w != "as"}
    return names


def snake(name):
    if "◌" in name or not re.search(r"[A-Za-z]", name):
        return name
    if re.match(r"[A-Z]", name):
        return name
    out = name.replace("-", "_")
    out = re.sub(r"(?<=[a-z0-9])([A-Zℤℕ])(?=$|[^a-z])", lambda m: "_" + m[1], out)
    out = re.sub(r"(?<=[a-zℤℕ0-9])([A-Z])", lambda m: "_" + m[1], out)
    out = "".join(c.lower() if "A" <= c <= "Z" else c for c in out)
    return re.sub(r"__+", "_", out)


def mapping(root):
    own, library = set(), set()
    for path in lemma_files(root):
        with open(path, encoding="utf-8") as f:
            own |= declared(f.read())
    for path in all_files(root):
        if not path.endswith(".edit"):
            with open(path, encoding="utf-8") as f:
                library |= lent(f.read())
    names = {n: snake(n) for n in sorted(own - library) if snake(n) != n}
    # a lemma that would have its definition's name gets `_lem`
    terms = {names.get(n, n) for n in own if "-" not in n} | set(EXPLICIT.values())
    for n in names:
        if "-" in n and names[n] in terms:
            names[n] += "_lem"
    names.update(EXPLICIT)
    return names, own, library


WORD = re.compile(r"[^\s(){}\[\].,;:@\"`|⌜⌝]+")


def turned(text, names):
    return WORD.sub(lambda m: names.get(m[0], m[0]), text)


def edited(text, names, known):
    """A must-fail edit: names as above, those too that the toolchain's script respelled elsewhere, and projections written tight."""

    def word(m):
        w = m[0]
        if w in names:
            return names[w]
        return snake(w) if snake(w) in known else w

    lines = []
    for line in text.split("\n"):
        if line.startswith(("old: ", "new: ")):
            line = line[:5] + WORD.sub(word, re.sub(r"(?<=[\w)']) \.(?=[a-z])", ".", line[5:]))
        lines.append(line)
    return "\n".join(lines)


def main(argv):
    root = os.getcwd()
    names, own, library = mapping(root)
    falls = {}
    for old in sorted(own | set(names)):
        falls.setdefault(names.get(old, old), []).append(old)
    for new, olds in sorted(falls.items()):
        if len(olds) > 1:
            print(f"fall together: {' '.join(olds)} -> {new}")
    for new in sorted(set(names.values()) & library):
        print(f"the library has: {new}")
    if argv == ["--list"]:
        for old, new in names.items():
            print(f"{old} {new}")
        return 0
    known = own | library | set(names.values())
    changed = 0
    for path in all_files(root):
        with open(path, encoding="utf-8") as f:
            old = f.read()
        new = edited(old, names, known) if path.endswith(".edit") else turned(old, names)
        if new != old:
            changed += 1
            with open(path, "w", encoding="utf-8") as f:
                f.write(new)
    print(f"{len(names)} names, {changed} files")
    return 0


if __name__ == "__main__":
    raise SystemExit(main(sys.argv[1:]))
