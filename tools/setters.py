"""Writes model's specs/Parts: the parts of a session with one of them changed. python3 tools/setters.py > crates/model/specs/Parts.antt

A setter is made for each field that a definition changes; add a field here when a definition changes one more.
"""
import re

CHANGED = [
    ("receiver", "Reading", "wait_entered entered"),
    ("receiver", "Pending", "missing discontinuity"),
    ("receiver", "Receiver", "tracker queue_pos reading parked pending last_valid_iq last_accepted_iq read_returned stall"),
    ("session", "Clocks", "high_priority rx_tx_specific general"),
    ("session", "Common", "seq clocks attenuation health consecutive_malformed last_reading closed"),
    ("session", "Session", "common receiver"),
]

# Where the types come from that a setter names beside the structs of CHANGED.
ELSEWHERE = {
    "SeqTracker": "Rattle.sequence.specs.declared.SeqTracker",
    "StallEpisode": "Rattle.stall.specs.declared.StallEpisode",
    "Controller": "Rattle.attenuator.specs.declared.Controller",
    "InputHealthCounters": "Rattle.health.specs.declared.InputHealthCounters",
}


def fields(module, struct):
    text = open(f"crates/model/src/{module}.rt", encoding="utf-8").read()
    body = re.search(r"pub struct %s \{(.*?)\n\}" % struct, text, re.S).group(1)
    return re.findall(r"pub (\w+): ([^\n]*),", body)


def kind(of):
    if of == "bool":
        return "Bool"
    if re.fullmatch(r"u\d+|usize", of):
        return "ℕ"
    if re.fullmatch(r"\[u\d+; \d+\]", of):
        return "List ℕ"
    inner = re.fullmatch(r"Option<(\w+)>", of)
    if inner:
        return f"Option {kind(inner.group(1))}"
    return of


def main():
    setters, types = [], {}
    for module, struct, names in CHANGED:
        of = fields(module, struct)
        types[struct] = module
        for name in names.split():
            value = kind(dict(of)[name])
            named = value.removeprefix("Option ")
            if named not in ("ℕ", "Bool", "List ℕ") and named not in ELSEWHERE:
                types.setdefault(named, module)
            parts = "; ".join(f"{n} = {'x' if n == name else 's.' + n}" for n, _ in of)
            setters.append(f"abbrev pub with_{name} : {struct} → {value} → {struct}\nwith_{name} s x =\n    record {{ {parts} }}\n")
    print("-- The parts of a session with one of them changed: made by tools/setters.py. Definitions only.")
    print("use Rattle.std.specs.Prelude.{ℕ, Bool, List, Option}")
    for name, path in ELSEWHERE.items():
        print(f"use {path}.{{{name}}}")
    for name, module in types.items():
        print(f"use Rattle.model.specs.declared.{module}.{name}.{{{name}}}")
    print()
    print("\n".join(setters), end="")


main()
