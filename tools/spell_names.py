#!/usr/bin/env python3
"""Brings the names of this repository's own definitions and lemmas to today's spelling, in every .antt, .rt and .edit file of crates/.

usage: python3 tools/spell_names.py [FOLDER]     once, right after port.py, in the folder that has crates/

A word that begins small and goes on in capitals (`childOf`) becomes snake case (`child_of`), and a dash becomes an underscore
(`over-before`, `over_before`). A lemma that would then have the name of a definition gets `_lem`. Functions of src/, strings, inputs and outputs keep their names, and so do the names that
Rattle makes (goals, steps, variants).
"""

import collections
import glob
import re
import sys

ROOT = sys.argv[1] if len(sys.argv) > 1 else "."
CAMEL = re.compile(r"^[a-z][a-z0-9]*(?:[A-Z][A-Za-z0-9]*)+'?$")
NAME = re.compile(r"[A-Za-z_][\w'-]*")
DECLARED = re.compile(
    r"^(\s*)(?:abbrev |unfoldable )?(?:pub )?(?:abbrev |unfoldable |data |record )?([^\s:(){}=,]+)(?: (?:\([^=]*?\)|\{[^=]*?\}))* :(?!=)"
)
# Lemmas whose new name is a definition's.
LEMMAS = "back_count back_found back_passes back_step in_reach is_leaf kept_in no_room of_map one_more rows_in too_far".split()


def snake(word):
    if not CAMEL.match(word):
        return word
    return re.sub(r"[A-Z]", lambda m: "_" + m.group().lower(), word)


def made(path):
    """Whether the file is the proof of a function, whose own names are goals."""
    return path.endswith(("/Proof.antt", "/Answers.antt", "/Invariants.antt")) and path.count("/proofs/") and path.rsplit("/", 2)[1] != "proofs"


def files():
    for kind in ("antt", "rt", "edit"):
        for path in sorted(glob.glob(ROOT + "/crates/*/**/*." + kind, recursive=True)):
            if "/out/" not in path:
                yield path


def imported_from_others(text):
    """Names that a file takes from outside the repository."""
    names = set()
    for line in re.findall(r"^(?:ghost )?use (.*?);?$", text, re.M):
        own = re.match(r"Rattle[.·](\w+)", line)
        if (own and own.group(1) not in OWN) or not own:
            inside = re.search(r"\{(.*)\}", line)
            names.update(n.strip() for n in inside.group(1).split(",")) if inside else None
    return names


OWN = {p.split("/")[-2] for p in glob.glob(ROOT + "/crates/*/")}


def main():
    texts = {p: open(p, encoding="utf-8").read() for p in files()}
    declared, fields, foreign, lemmas = collections.Counter(), set(), set(), set()
    for path, text in texts.items():
        if path.endswith(".edit"):
            continue
        foreign |= imported_from_others(text)
        if not path.endswith(".antt") or made(path):
            continue
        inside = False
        for line in text.splitlines():
            if re.match(r"\s*(?:pub )?record ", line):
                inside = True
            elif inside and not re.match(r"\s*(?:pub )?\S+ :", line):
                inside = False
            m = DECLARED.match(line)
            if m:
                declared[m.group(2)] += 1
                if inside and not re.match(r"\s*(?:pub )?record ", line):
                    fields.add(m.group(2))
    new = {}
    for name in declared:
        named = re.sub(r"(^|-)getD(?=-|$)", r"\1get_or", name)
        out = "_".join(snake(p) for p in named.split("-")).replace("get_d_", "get_or_")
        if out != name and name not in foreign:
            new[name] = out
    for text in texts.values():
        for word in re.findall(r"[A-Za-z_][\w']*", text):
            if CAMEL.match(word) and word not in new and word not in foreign:
                new[word] = snake(word)
    for name in LEMMAS:
        new.setdefault(name, name + "_lem")
    taken = set(declared) - set(new) | {to for old, to in new.items() if CAMEL.match(old)}
    for old in [o for o in new if "-" in o and (new[o] in LEMMAS or new[o] in taken)]:
        new[old] += "_lem"
    new["getD"] = "get_or"
    back = collections.defaultdict(set)
    for old, to in new.items():
        back[to].add(old)
    for to, olds in back.items():
        if len(olds) > 1:
            print("fall together:", to, sorted(olds))
    for path, text in texts.items():
        turned = turn(path, text, new, fields)
        if turned != text:
            with open(path, "w", encoding="utf-8") as f:
                f.write(turned)
    print(len(new), "names")


def turn(path, text, new, fields):
    aliases = set(re.findall(r" as ([\w'-]+)", text)) | {"E", "A"}
    lemma_file = path.endswith(".antt")

    def one(m):
        name = m.group()
        before = text[: m.start()]
        to = new.get(name)
        if to is None and "-" in name:
            to = "-".join(new.get(p, p) if CAMEL.match(p) else p for p in name.split("-"))
        if to is None or to == name:
            return name
        if name in LEMMAS and not lemma_file:
            return name
        if before.endswith(".") and not CAMEL.match(name):
            owner = re.search(r"([\w'-]+)\.$", before)
            if name in fields or (owner and owner.group(1) in aliases):
                return to
            return name
        return to

    if path.endswith(".rt"):
        pieces = re.split(r'(b?"(?:\\.|[^"\\])*")', text)
        out = []
        for i, piece in enumerate(pieces):
            if i % 2:
                out.append(piece)
            else:
                out.append(NAME.sub(lambda m: snake(m.group()) if CAMEL.match(m.group()) and m.group() in new else m.group(), piece))
        return "".join(out)
    return NAME.sub(one, text)


main()
