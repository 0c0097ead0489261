#!/usr/bin/env python3
"""Brings the repository's own definitions and lemmas to the spelling of today's Rattle: words in snake case.

usage: tools/spell.py [ROOT]      run once, right after port.py, at the top of the repository (or in ROOT)
       tools/spell.py --map       prints the old and new names, and changes nothing

Of every .antt file below crates/ it takes the names that are declared there. A name in lower camel case (`firstOf`) or
with dashes (`chunks-step`) becomes one in snake case (`first_of`, `chunks_step`), at each place where it stands as a
whole word: in .antt files, in the clauses and imports of .rt files, and in must-fail edits. Functions of src/, exported
names and strings have no such names, and stay. In must-fail edits, which port.py does not turn, names that port.py
respelled are turned too.
"""

import os
import re
import sys

# What a word of antt is made of: all but blanks and these.
WORD = r"[^\s(){}\[\],;.:\"`|\\/<>≡≤≢×→↔λ+*=⊢]+"
DECLARED = re.compile(
    r"^ *(?:(?:unfoldable|abbrev|pub|opaque|private) +)*(?:record +|data +)?"
    r"((?:" + WORD + r" +)*?" + WORD + r")"
    r" *(?:(?:\([^()]*(?:\([^()]*\)[^()]*)*\)|\{[^{}]*\}) *)*:(?= |$)")
SECTION = {"module", "use", "open", "where", "let", "in", "elim", "--", "infixl", "infixr", "infix", "record", "data"}

# Two names that would fall together with another, and what they are called in place of that.
# A lemma that would have its function's name gets `_lem`.
APART = {
    "zero_in": "zero_in_lem",
    "joined_back": "joined_back_lem",
    "getD-chunks": "get_or_chunks",
    "getD-margins": "get_or_margins",
    "get_d_any": "get_or_any",
    "get_d_at": "get_or_at",
}

# In one file alone: there port.py gave a lemma the name of a definition.
IN_FILE = {
    "crates/blocks/proofs/MovedBack.antt": {"form_of": "form_of_lem"},
    "crates/spreads/proofs/BoxKinds.antt": {"one_of": "one_of_lem"},
}

# Names that port.py respelled itself: an edit still has the old one.
RESPELLED = {
    "allBelow": "all_below", "allOf": "all_of", "blockOf": "block_of", "blocksFrom": "blocks_from",
    "bodyOf": "body_of", "bytesOf": "bytes_of", "claimOf": "claim_of", "claimsOf": "claims_of", "classOf": "class_of",
    "closedIn": "closed_in", "countOf": "count_of", "endOf": "end_of", "fieldsOf": "fields_of", "firstOf": "first_of",
    "formOf": "form_of", "frameFor": "frame_for", "groupOf": "group_of", "halfOf": "half_of", "headOf": "head_of",
    "heldOf": "held_of", "inRange": "in_range", "isCall": "is_call", "isRow": "is_row", "isZero": "is_zero",
    "keptTo": "kept_to", "kindOf": "kind_of", "leBytes": "le_bytes", "leftOf": "left_of", "lineAt": "line_at",
    "linesOf": "lines_of", "linesRead": "lines_read", "listOf": "list_of", "movedTo": "moved_to", "nameOf": "name_of",
    "numberIn": "number_in", "numberOf": "number_of", "oneOf": "one_of", "orElse": "or_else", "originOf": "origin_of",
    "partsOf": "parts_of", "piecesOf": "pieces_of", "placeIn": "place_in", "placeOf": "place_of",
    "placesOf": "places_of", "plainOf": "plain_of", "putAt": "put_at", "readTables": "read_tables",
    "restOf": "rest_of", "resultOf": "result_of", "rowAt": "row_at", "rowIn": "row_in", "rowOf": "row_of",
    "rowsFrom": "rows_from", "rowsOf": "rows_of", "rowsTo": "rows_to", "shortAt": "short_at", "soFar": "so_far",
    "startOf": "start_of", "sumOf": "sum_of", "tableOf": "table_of", "tablesOf": "tables_of", "textOf": "text_of",
    "valueOf": "value_of", "valuesOf": "values_of",
}


def files(root, endings):
    for folder, dirs, names in os.walk(os.path.join(root, "crates")):
        dirs[:] = sorted(d for d in dirs if d != "out")
        for name in sorted(names):
            if name.endswith(endings):
                yield os.path.join(folder, name)


def of_a_function(path):
    """A file of one function's proof: its names are those of goals, which Rattle gives."""
    return "/proofs/" in path and os.path.basename(path) in ("Proof.antt", "Answers.antt", "Invariants.antt")


def read(path):
    with open(path, encoding="utf-8") as f:
        return f.read()


def declared(root):
    found = {}
    for path in files(root, (".antt",)):
        if of_a_function(path):
            continue
        for line in read(path).split("\n"):
            m = DECLARED.match(line)
            if not m:
                continue
            words = m.group(1).split()
            if words[0] in SECTION or words[0].startswith("--"):
                continue
            for word in words:
                found.setdefault(word, set()).add(path)
    return found


def snake(name):
    name = re.sub(r"(?<=[a-z0-9'₀-₉])(?=[A-Z])", "_", name)
    name = re.sub(r"(?<=[A-Z])(?=[A-Z][a-z])", "_", name)
    return name.replace("-", "_").lower()


def is_own(name):
    return bool(re.fullmatch(r"[a-z][\w'-]*", name)) and snake(name) != name


def spelling(root):
    every = declared(root)
    names = {n: snake(n) for n in sorted(every) if is_own(n)}
    clean = set(every) | {new for old, new in names.items() if "-" not in old}
    for old, new in names.items():
        if "-" in old and new in clean:
            names[old] = new + "_lem"
    names.update((old, new) for old, new in APART.items() if old in every)
    return names, every


TOKEN = re.compile(r"[A-Za-z_À-ͯͰ-Ͽ'◌][\w'◌-]*")


def turned(text, names):
    def new(m):
        old = m.group(0)
        name = names.get(old, old)
        # After a dot it is a step of a function's proof, which has the name of what is called.
        if name.endswith("_lem") and not old.endswith("_lem") and text[m.start() - 1:m.start()] == ".":
            return snake(old)
        return name

    return TOKEN.sub(new, text)


def main():
    args = sys.argv[1:]
    root = next((a for a in args if not a.startswith("--")), ".")
    names, every = spelling(root)
    by_new = {}
    for old, new in names.items():
        by_new.setdefault(new, []).append(old)
    for new, olds in sorted(by_new.items()):
        if len(olds) > 1 or (new in every and new not in names):
            print(f"falls together: {new}: {' '.join(olds)}{' and ' + new if new in every else ''}")
    if "--map" in args:
        for old, new in names.items():
            print(old, new)
        return
    edits = dict(RESPELLED)
    edits.update(names)
    for path in files(root, (".antt", ".rt", ".edit")):
        text = read(path)
        here = IN_FILE.get(os.path.relpath(path, root), {})
        new = turned(text, edits if path.endswith(".edit") else names | here)
        if new != text:
            with open(path, "w", encoding="utf-8") as f:
                f.write(new)


if __name__ == "__main__":
    main()
