#!/usr/bin/env python3
"""Spells the repository's own definitions, constructors, fields and lemmas as Rattle spells them: words in snake case.

usage: python3 tools/respell_names.py       at the top of the repository, once, after Rattle's own port.py

A name is respelled where an .antt file declares it and it has a capital after a small letter, in a part that begins with a small
letter: beAt-be becomes be_at-be. The setters with-x of specs/ become with_x. Types, modules, functions of src/ and text in strings stay.
Where the new name would be that of a field or a parameter beside it, APART has another. .antt, .rt and .edit files are rewritten.
"""

import os
import re
import sys

# names that would fall together with a field, a parameter, a clause or a lemma in the same file
APART = {
    "adcCount": "adc_count_place",
    "filterEnable": "filter_enable_place",
    "ddcPhase": "ddc_phase_place",
    "ducPhase": "duc_phase_place",
    "rateKhz": "rate_khz_place",
    "runStart": "run_start_of",
    "highPriority": "high_priority_of",
    "lastReading": "last_reading_of",
    "phaseWord": "phase_word_of",
    "quietSince": "quiet_since_of",
    "rxSpecific": "rx_specific_of",
    "txSpecific": "tx_specific_of",
    "tableAfter": "table_noted",
    "oneMore": "with_one_more",
    "handedOut": "all_handed_out",
}
UNITS = {"kHz": "khz", "mHz": "mhz", "getD": "get_or"}
DECLARED = re.compile(r"^\s*(?:(?:abbrev|unfoldable|pub) )*((?:[^\s:(){}«»=]+ )*[^\s:(){}«»=]+) :(?: |$)")
WORD = re.compile(r"[^\s(){}\[\].,;:«»λ\"&*!<>=+/|@#%^`~$\\]+")
STRING = re.compile(r'"(?:[^"\\]|\\.)*"', re.S)


def files(endings):
    for folder, folders, names in os.walk("crates"):
        folders[:] = sorted(d for d in folders if d != "out")
        for name in sorted(names):
            if name.endswith(endings):
                yield os.path.join(folder, name)


def text_of(path):
    with open(path, encoding="utf-8", newline="") as f:
        return f.read()


def declared():
    names = {}
    for path in files((".antt",)):
        for line in text_of(path).splitlines():
            found = DECLARED.match(line)
            if found and not line.lstrip().startswith("--"):
                for name in found.group(1).split():
                    names.setdefault(name, set()).add(path)
    return names


def snake(part):
    if not part[:1].islower():
        return part
    for unit, small in UNITS.items():
        part = part.replace(unit, small)
    part = re.sub(r"(?<=[a-z0-9])([A-Z])", lambda m: "_" + m.group(1).lower(), part)
    return re.sub(r"([A-Z])", lambda m: "_" + m.group(1).lower(), part)


def renamings(names):
    to = {}
    for name, paths in names.items():
        new = APART.get(name) or "-".join(snake(part) for part in name.split("-"))
        if name.startswith("with-") and any("/specs/" in p for p in paths):
            new = new.replace("-", "_")
        if new != name:
            to[name] = new
    return to


def respelled(text, to):
    return WORD.sub(lambda m: to.get(m.group(0), m.group(0)), text)


def outside_strings(text, to):
    out, at = [], 0
    for found in STRING.finditer(text):
        out += [respelled(text[at : found.start()], to), found.group(0)]
        at = found.end()
    return "".join(out) + respelled(text[at:], to)


def main():
    names = declared()
    to = renamings(names)
    seen = {}
    for name, new in to.items():
        seen.setdefault(new, []).append(name)
    together = {n: o for n, o in seen.items() if len(o) > 1}
    if together:
        sys.exit(f"names that would fall together: {together}")
    changed = 0
    for path in files((".antt", ".rt", ".edit")):
        old = text_of(path)
        new = outside_strings(old, to) if path.endswith(".rt") else respelled(old, to)
        if new != old:
            with open(path, "w", encoding="utf-8", newline="") as f:
                f.write(new)
            changed += 1
    beside = sorted(f"{to[n]} ({n})" for n in to if to[n] in names)
    print(f"{len(to)} names in {changed} files; new names that an .antt file declared before: {', '.join(beside) or 'none'}")


main()
