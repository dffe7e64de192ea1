#!/usr/bin/env python3
"""Counts the places in the crates' code that docs/DESIGN-PASS.md speaks of, by their text.

usage: python3 tools/places.py [-v] [FOLDER]    at the top of a checkout, or for the checkout in FOLDER

It prints a line for each point and kind of place, with the count; with -v each place too, as CRATE/FILE:LINE and its text.
Comments and tests' code do not count. It reads text alone: a row is a place to look at, and docs/DESIGN-PASS.md says of each what became
of it. Point 8 is about proofs: lines of proofs/ and files of answers and invariants.
"""
import glob
import os
import re
import sys
from collections import defaultdict

NUMBERS = r"\b(number|command|byte|kind|place|governs|early|named|refusal)\s*:\s*(?:&\s*)?u(?:8|32|64)\b"
BY_HAND = (r"fn (?:larger|smaller|lesser|magnitude|long|wide|bits|signed|counted|ran|taken|paged|answered|not_run|flagged|told"
           r"|value_or_zero|page_length|row_failed|with_settings|with_wall|with_ground|excess|between|signed_between"
           r"|ceil_div_unsigned|floor_div|ceil_div)\b")


def sources(top):
    for path in sorted(glob.glob(f"{top}/crates/*/src/**/*.rt", recursive=True)):
        lines = []
        for line in open(path, encoding="utf-8"):
            lines.append(re.sub(r"(^|\s)//.*$", "", line.rstrip("\n")))
        crate = os.path.relpath(path, f"{top}/crates").replace("/src/", "/")
        yield crate, lines


def functions(lines):
    """(first line, name, signature with clauses, body lines) of each function."""
    at = 0
    while at < len(lines):
        m = re.match(r"\s*(?:#\[.*\]\s*)?(?:pub(?:\(crate\))? )?(?:extern \"C\" )?(?:final )?fn (\w+)", lines[at])
        if not m:
            at += 1
            continue
        indent = re.match(r"\s*", lines[at]).group()
        end = at
        head = []
        while end < len(lines) and not re.match(indent + r"\{", lines[end]) and not lines[end].rstrip().endswith("{") \
                and not lines[end].rstrip().endswith(";"):
            head.append(lines[end])
            end += 1
        if end < len(lines):
            head.append(lines[end])
        body = []
        if end < len(lines) and not lines[end].rstrip().endswith(";"):
            k = end + 1
            while k < len(lines) and not lines[k].startswith(indent + "}"):
                body.append(lines[k])
                k += 1
            yield at + 1, m.group(1), "\n".join(head), body
            at = k + 1
        else:
            yield at + 1, m.group(1), "\n".join(head), []
            at = end + 1


def shape(body):
    """A body with each name and number as one sign, so that bodies alike but for these are equal."""
    text = " ".join(line.strip() for line in body if line.strip())
    text = re.sub(r"\b0x[0-9a-fA-F_]+\b|\b\d[\d_]*\w*\b", "9", text)
    return re.sub(r"\b[A-Za-z_]\w*(?:::\w+)*\b", "x", text)


def parameters(head):
    inside = re.search(r"\((.*?)\)\s*(?:->|requires|ensures|\{|$)", head.replace("\n", " "), re.S)
    if not inside:
        return []
    return re.findall(r"(?:mut )?(\w+)\s*:\s*([^,]+?)\s*(?:,|$)", inside.group(1).strip())


def main():
    words = [w for w in sys.argv[1:] if w != "-v"]
    top = words[0] if words else "."
    found = defaultdict(list)
    results, enums, shapes, facts, pairs = set(), [], defaultdict(list), defaultdict(set), defaultdict(set)
    for crate, lines in sources(top):
        for n, line in enumerate(lines, 1):
            spot = (f"{crate}:{n}", line.strip())
            if m := re.match(r"\s*(?:pub )?enum (\w+)", line):
                enums.append((m.group(1), spot))
            if re.match(r"\s+(?:pub )?\w+: bool,$", line):
                found["1 a flag in a struct"].append(spot)
            if re.search(NUMBERS, line):
                found["1 a number for a kind or a refusal (parameter, field)"].append(spot)
            if re.search(r"Refused\((?:\w+::)?\d|return [1-9]\d*;|^\s+[1-9]$|\bnumber: [1-9]|_refused\(out, [1-9]", line):
                found["1 a refusal's number written out"].append(spot)
            if re.search(r"\bwhile\b|\bloop \{", line):
                found["3 loops that are no `for`"].append(spot)
            if re.search(BY_HAND, line):
                found["4 a conversion, comparison or copy as a function by hand"].append(spot)
        for n, name, head, body in functions(lines):
            spot = f"{crate}:{n}"
            if m := re.search(r"->\s*(\w+)\s*$", re.split(r"\n\s*(?:requires|ensures)|\n\s*where", head)[0].rstrip(" {").rstrip()):
                results.add(m.group(1))
            text = shape(body)
            if len(text) > 12:
                shapes[text].append((spot, name))
            for clause in re.findall(r"requires(?: \w+)? \{ (.*) \}", head):
                for fact in clause.split(" × "):
                    facts[re.sub(r"\.(?:now|old)", "", fact.strip("() "))].add(f"{spot} {name}")
            params = sorted(set(f"{a}: {b}" for a, b in parameters(head)))
            for i, a in enumerate(params):
                for b in params[i + 1:]:
                    pairs[(a, b)].add(f"{spot} {name}")
            if re.search(r"&(?:mut )?\[", head) and any(b == "usize" for _, b in parameters(head)):
                found["6 a slice with a position or a length beside it"].append((spot, name))
            for a, b in parameters(head):
                if b == "bool":
                    found["7 a parameter that switches (bool)"].append((spot, f"{name}: {a}"))
    for name, spot in enums:
        if name in results or re.search(r"Walked|Read|Failure", name):
            found["1 an own enum that a function answers"].append(spot)
    for text, spots in shapes.items():
        if len(spots) > 1:
            found["2 bodies alike but for names and numbers (groups)"].append((spots[0][0], ", ".join(f"{s.split('/')[0]}::{n}" for s, n in spots)))
    for fact, where in sorted(facts.items()):
        if len(where) > 2:
            found["5 a fact in the requires of three or more functions"].append((str(len(where)), fact))
    groups = defaultdict(set)
    for pair, where in pairs.items():
        if len(where) > 2:
            groups[frozenset(where)].add(pair)
    for where, many in groups.items():
        names = sorted({w for pair in many for w in pair})
        found["5 parameters together in three or more functions"].append((str(len(where)), ", ".join(names)))
    proofs = [p for p in glob.glob(f"{top}/crates/*/proofs/**/*.antt", recursive=True)]
    found_lines = sum(len(open(p, encoding="utf-8").read().splitlines()) for p in proofs)
    for key in sorted(found):
        print(f"{key}: {len(found[key])}")
        if "-v" in sys.argv:
            for spot, text in found[key]:
                print(f"    {spot}  {text}")
    print(f"8 lines of proofs: {found_lines}")
    print(f"8 files of answers, of invariants: {sum(p.endswith('/Answers.antt') for p in proofs)}, {sum(p.endswith('/Invariants.antt') for p in proofs)}")


main()
