#!/usr/bin/env python3
"""Brings the repository's own definitions and lemmas to snake case, and the few facts that began in lower case to camel case.

usage: python3 tools/respell.py    at the top of the repository, once, after the kit's script has turned its spelling

Functions of src/, exported names, strings, inputs and outputs keep their names. A word is renamed wherever it stands: in specs/, in proofs/, in clauses, in
must-fail edits and in the pages. Lemmas that would fall together with a definition get another name first. It stops if two names would still fall together.
"""

import glob
import re
import sys

WORD = re.compile(r"[A-Za-z0-9_]+")
# the name of a whole lemma, with its dashes and primes
NAME = re.compile(r"(?<![\w.'-])[A-Za-z_][\w'-]*")

# lemmas whose names the definitions allIn, asRead, inOrder, .. need
LEMMAS = {
    "all_in": "all_in_tidied",
    "as_read": "read_as_known",
    "in_all": "in_all_words",
    "in_order": "in_order_at",
    "inputs_in": "inputs_in_map",
    "rows_in": "rows_in_window",
    "raised_all": "raised_all_twice",
    "past_word": "past_word_is",
    "no_room": "no_room_left",
    "none_free": "none_free_is",
    "none_out": "none_out_absurd",
    "is_open": "is_open_next",
    "is_word": "is_word_next",
}

# facts, which begin with a capital
FACTS = {"ofSubmit": "OfSubmit", "everySubmission": "EverySubmission", "entriesStand": "EntriesStand", "boxesStand": "BoxesStand"}

# one of std's words, in names of lemmas
STD = {"getD": "get_or"}


def is_camel(word):
    return re.match(r"[a-z_]", word) and re.search(r"[a-z0-9][A-Z]", word)


def snake(word):
    return re.sub(r"(?<=[a-z0-9])([A-Z])", lambda m: "_" + m.group(1).lower(), word)


def files(*patterns):
    found = []
    for pattern in patterns:
        found += [p for p in glob.glob(pattern, recursive=True) if "/out/" not in p and "/target/" not in p]
    return sorted(found)


def read(path):
    with open(path, encoding="utf-8") as f:
        return f.read()


def turn_lemmas(path, text):
    """The lemmas of LEMMAS, where the file states them or imports them from specs/."""
    if "/specs/" in path:
        taken = set(LEMMAS)
    else:
        taken = set()
        for line in text.splitlines():
            m = re.match(r"\s*use Rattle\.\w+\.specs\.\w+\.\{(.*)\}", line)
            if m:
                taken |= {it.strip() for it in m.group(1).split(",")} & set(LEMMAS)
    if not taken:
        return text
    return NAME.sub(lambda m: LEMMAS[m.group(0)] if m.group(0) in taken else m.group(0), text)


def main():
    sources = files("crates/*/specs/**/*.antt", "crates/*/proofs/**/*.antt", "crates/*/src/**/*.rt")
    texts = {p: turn_lemmas(p, read(p)) if p.endswith(".antt") else read(p) for p in sources}
    words, stated = set(), set()
    for p, text in texts.items():
        words |= set(WORD.findall(text))
        if "/specs/" in p:
            stated |= set(NAME.findall(re.sub(r"--.*", "", text)))
    turned = {w: FACTS.get(w) or STD.get(w) or snake(w) for w in words if is_camel(w)}
    turned.update(STD)
    fields = {"validation_cost", "last_checked", "height_key", "get_or", "ids_of"}
    clashes = [(old, new) for old, new in sorted(turned.items()) if new in stated - fields]
    for old, new in clashes:
        print(f"respell: {old} and {new} would fall together")
    if clashes:
        return 1
    of = {}
    for old, new in turned.items():
        if of.setdefault(new, old) != old:
            print(f"respell: {old} and {of[new]} would fall together")
            return 1
    pages = files("crates/*/must-fail/*.edit", "edits/**/*.edit", "README.md", "CHANGELOG.md", "docs/**/*.md", "crates/*/README.md")
    for p in pages:
        texts[p] = read(p)
        # words that the kit's script turned in crates/ alone
        for w in set(WORD.findall(texts[p])):
            if is_camel(w) and snake(w) in words:
                turned.setdefault(w, snake(w))
    count = 0
    for p, text in texts.items():
        new = WORD.sub(lambda m: turned.get(m.group(0), m.group(0)), text)
        if new != read(p):
            with open(p, "w", encoding="utf-8") as f:
                f.write(new)
            count += 1
    print(f"respell: {len(turned)} words in {count} files")
    return 0


if __name__ == "__main__":
    sys.exit(main())
