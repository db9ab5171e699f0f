#!/usr/bin/env python3
"""Respells the repository's own definitions and lemmas as today's Rattle spells words: in snake case.

usage: tools/respell.py [--try]     at the top of the repository, once, after the kit's own script

What was written in camel case with a small first letter (isBid), and what has a hyphen for a space (same-card),
gets underscores. Types, modules, functions of src/, strings, inputs and outputs keep their names, and so do the names
that the check makes (goals and steps, as returns-in-Some). Names that would fall together are listed in OTHER.
With --try nothing is written, and what falls together in a file is printed.
"""
import glob
import re
import sys

TOKEN = re.compile(r"[^\s(){}\[\];,.λ:⌜⌝\"`|«»]+")
DEFINED = re.compile(r"^\s*(?:(?:abbrev|unfoldable|pub)\s+)*([^\s(){}:;.]+) : (.*)$")
CAMEL = re.compile(r"^[a-z][a-z0-9]*([A-Z][a-z0-9]*)+$")

# Own names that would fall together with another one, or whose words are an older library's.
# A lemma that would have its function's name gets _lem.
OTHER = {
    "bid-when": "bid_when_lem",
    "cards-of": "cards_of_lem",
    "eyes-of": "eyes_of_lem",
    "fresh-board": "fresh_board_lem",
    "games-field": "games_field_lem",
    "getD-gathered": "get_gathered",
    "is-card": "is_card_lem",
    "is-none": "is_none_lem",
    "length-field": "length_field_lem",
    "may-play": "may_play_lem",
    "rows-field": "rows_field_lem",
    "suit-at": "suit_at_lem",
    "taken-up": "taken_up_lem",
}

# The same, for lemmas that the kit's script gave their function's name.
OTHER_IN = {
    "crates/cards/proofs/Cardinals.antt": {"place_at": "place_at_lem"},
    "crates/series/proofs/Filing.antt": {"rows_in": "rows_in_lem"},
}


def snake(word):
    return re.sub(r"([A-Z])", lambda m: "_" + m.group(1).lower(), word)


def respelled(name):
    if name in OTHER:
        return OTHER[name]
    parts = name.split("-")
    if CAMEL.match(parts[0]) and len(parts) > 1:
        return "-".join(snake(p) if CAMEL.match(p) else p for p in parts)
    return "_".join(snake(p) if CAMEL.match(p) else p for p in parts)


def files(*patterns):
    return sorted(f for p in patterns for f in glob.glob(p, recursive=True) if "/out/" not in f)


def own_names():
    """What specs/ and proofs/ define, but for the goals that answers answer."""
    found = set()
    for path in files("crates/*/specs/**/*.antt", "crates/*/proofs/**/*.antt"):
        with open(path, encoding="utf-8") as f:
            for line in f:
                m = DEFINED.match(line)
                if m and not line.lstrip().startswith(("--", "let ")) and not re.match(r"(goal|need|rule)s?\.", m.group(2).lstrip("λ ")):
                    found.add(m.group(1))
    return {n for n in found if re.match(r"^[a-z]", n) and (CAMEL.match(n) or "-" in n)}


def turn(text, names, source, other):
    def one(m):
        word = m.group(0)
        if word in other:
            return other[word]
        if word in names:
            return respelled(word)
        if CAMEL.match(word):
            return respelled(word)
        return word

    if not source:
        return TOKEN.sub(one, text)
    # source text: strings and comments keep their words
    out = []
    for line in text.splitlines(keepends=True):
        code, mark, rest = line.partition("//")
        pieces = re.split(r'("(?:[^"\\]|\\.)*")', code)
        out.append("".join(p if p.startswith('"') else TOKEN.sub(one, p) for p in pieces) + mark + rest)
    return "".join(out)


def main():
    trying = "--try" in sys.argv[1:]
    names = own_names()
    for path in files("crates/*/specs/**/*.antt", "crates/*/proofs/**/*.antt", "crates/*/src/**/*.rt", "crates/*/must-fail/*.edit"):
        with open(path, encoding="utf-8") as f:
            text = f.read()
        source = not path.endswith(".antt")
        other = OTHER_IN.get(path, {})
        turned = turn(text, names, source, other)
        if trying:
            meet = {}
            for word in set(TOKEN.findall(text)):
                new = turn(word, names, False, other)
                meet.setdefault(new, set()).add(word)
            for new, old in sorted(meet.items()):
                if len(old) > 1:
                    print(f"{path}: {new}: {', '.join(sorted(old))}")
        elif turned != text:
            with open(path, "w", encoding="utf-8") as f:
                f.write(turned)
    if trying:
        seen = {}
        for n in names:
            seen.setdefault(respelled(n), set()).add(n)
        for new, old in sorted(seen.items()):
            if len(old) > 1:
                print(f"everywhere: {new}: {', '.join(sorted(old))}")


main()
