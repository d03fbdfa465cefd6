#!/usr/bin/env python3
"""Brings the repository's own names to Rattle's spelling: run once, at the top, over what the kit's port.py wrote.

Definitions, lemmas, fields and constructors are in snake case; a name that begins with a capital (a type, a fact) keeps its capitals. A
dash stays in the name of a lemma where it joins two names, as in rows_in-append; a plain word is joined by an underscore. What Rattle
makes (goals, steps, records of proofs/F/) and what stands in src/ keeps its name.

    python3 tools/respell.py            rewrites crates/
    python3 tools/respell.py --list     only prints the table of names
"""

import os
import re
import sys

# Names of the library's that ours are joined to.
LIBRARY = set("length append take drop map set replicate filter reverse sum get_or cond count add mul max min eqb leb ltb snoc".split())
# Names that would fall together with another: a lemma that would have its function's name ends in _lem, and the bytes of a file in _file.
CHOSEN = {
    "all-map-of": "all_map_of",
    "judged-weights": "judged_weights_lem",
    "longest-file": "longest_file_lem",
    "longest-list": "longest_list_lem",
    "most-states": "most_states_lem",
    "no-machines": "no_machines_lem",
    "one-row": "one_row_lem",
    "plant-in": "plant_in_lem",
    "row-bytes": "row_bytes_lem",
    "state-potential": "state_potential_lem",
    "with-machine": "with_machine_lem",
    "with-row": "with_row_lem",
    "oneState": "one_state_file",
    "oneRow": "one_row_file",
    "twoClients": "two_clients_file",
    "twoClientsInTurn": "two_clients_in_turn_file",
}
# The same, where the lemma's name stands already in the new spelling.
CHOSEN_IN = {"plant_lists/proofs/NumberLaws.antt": {"in-range": "in_range_lem"}, "plant_lists/proofs/ListSays.antt": {"in-range": "in_range_lem"}, "worked_examples/proofs/AnswerLaws.antt": {"figures-of": "figures_of_lem"}, "plant_files/proofs/PlantParts.antt": {"rows_in": "rows_in_lem"}, "plant_files/proofs/Readers.antt": {"rows_in": "rows_in_lem"}}
# A module that Rattle now makes itself: the crate, its old name and its new one.
MODULES = [("watched_runs", "Contracts", "Owed")]

TOKEN = re.compile(r"(?<![A-Za-z0-9_'₀-₉\\-])[A-Za-zμ_][A-Za-z0-9_'₀-₉-]*")
DECLARED = re.compile(r"^ *(?:abbrev |unfoldable |data |record |ruleset )*(?:pub )?(?:abbrev |unfoldable |data |record |ruleset )*(?:pub )?([A-Za-z][A-Za-z0-9_'₀-₉-]*)(?: [^:=\n]*)? :(?= |$)", re.M)


def snake(word):
    """readRow to read_row, plantA to plant_a; a capital at the front stays."""
    word = re.sub(r"(?<=[a-z0-9])([A-Z])", lambda m: "_" + m.group(1).lower(), word)
    return word


def files(root, ends):
    for folder, dirs, names in os.walk(os.path.join(root, "crates")):
        dirs[:] = sorted(d for d in dirs if d != "out")
        for name in sorted(names):
            if name.endswith(ends):
                yield os.path.join(folder, name)


def read(path):
    with open(path, encoding="utf-8") as f:
        return f.read()


def declared(root):
    """The names that the repository's specs and lemma files declare, and those that are functions or types."""
    names = set()
    for path in files(root, (".antt",)):
        text = read(path)
        for match in DECLARED.finditer(text):
            name = match.group(1)
            line = text[text.rfind("\n", 0, match.start(1)) + 1 : text.find("\n", match.start(1))]
            # An answer to a goal of Rattle's keeps the goal's name.
            if re.search(r"(?:tie|lts|goal)\.|[-\w]+-lts\.(?:Need|InvT|MeasureT)", line) and "(c : " not in line:
                continue
            names.add(name)
    return names


def table(root):
    names = declared(root)
    plain = {snake(n) for n in names if "-" not in n} | LIBRARY
    made = {}
    for name in sorted(names):
        if name[0].isupper() and "-" not in name:
            continue
        parts = [snake(p) if p[:1].islower() else p for p in name.split("-")]
        new = parts[0]
        for before, part in zip(parts, parts[1:]):
            joined = new in plain and part in LIBRARY
            new += ("-" if joined else "_") + part
        new = CHOSEN.get(name, new)
        if new != name:
            made[name] = new
    # Variables of definitions and lemmas.
    for path in files(root, (".antt",)):
        for token in TOKEN.findall(read(path)):
            if token not in made and re.fullmatch(r"[a-z][a-z0-9]*(?:[A-Z][a-z0-9]*)+", token):
                made[token] = snake(token)
    return made


def main():
    root = os.path.dirname(os.path.dirname(os.path.abspath(__file__)))
    if "--root" in sys.argv:
        root = sys.argv[sys.argv.index("--root") + 1]
    made = table(root)
    if "--list" in sys.argv:
        for old, new in sorted(made.items()):
            print(old, new)
        return
    for path in list(files(root, (".antt", ".rt", ".edit"))):
        text = read(path)
        here = made | CHOSEN_IN.get(os.path.relpath(path, os.path.join(root, "crates")), {})
        new = TOKEN.sub(lambda m: here.get(m.group(0), m.group(0)), text)
        for crate, old, name in MODULES:
            new = new.replace(f"Rattle.{crate}.specs.{old}", f"Rattle.{crate}.specs.{name}")
            if path.startswith(os.path.join(root, "crates", crate, "")):
                new = new.replace(f"pub mod {old}\n", f"pub mod {name}\n").replace(f"file: specs/{old}.antt", f"file: specs/{name}.antt")
        if new != text:
            with open(path, "w", encoding="utf-8") as f:
                f.write(new)
    for crate, old, name in MODULES:
        folder = os.path.join(root, "crates", crate, "specs")
        if os.path.exists(os.path.join(folder, old + ".antt")):
            os.rename(os.path.join(folder, old + ".antt"), os.path.join(folder, name + ".antt"))


if __name__ == "__main__":
    main()
