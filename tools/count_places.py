#!/usr/bin/env python3
"""Counts the places of docs/DESIGN-PASS.md in the sources of a checkout: count_places.py [FOLDER] [-v]. With -v it lists them."""
import collections
import pathlib
import re
import sys

FUNCTION = re.compile(r"^( *)(?:pub )?fn (\w+)(.*?)\{\n(.*?)\n\1\}$", re.M | re.S)
KEYWORDS = set("let mut if else while loop for in return match fn pub as true false self Self break continue Some None Ok Err".split())


def sources(folder):
    return {str(p.relative_to(folder)): p.read_text() for p in sorted(pathlib.Path(folder).glob("crates/*/src/**/*.rt"))}


def lines_with(files, pattern):
    found = []
    for name, text in files.items():
        for number, line in enumerate(text.split("\n"), 1):
            if re.search(pattern, line.split("//")[0]):
                found.append(f"{name}:{number}: {line.strip()}")
    return found


def functions(files):
    for name, text in files.items():
        for m in FUNCTION.finditer(text):
            body = re.sub(r"//[^\n]*", "", m[4])
            head = re.sub(r"//[^\n]*", "", m[3])
            yield name, m[2], head, body


def shape(head, body):
    """The function with every name and number replaced by its turn of appearing: equal for twins."""
    names = {}

    def turn(m):
        word = m[0]
        if word in KEYWORDS:
            return word
        return names.setdefault(word, f"n{len(names)}")

    signature = re.split(r"\n *(?:requires|ensures)\b", head)[0]
    return re.sub(r"b'.'|b\"[^\"]*\"|\w+", turn, re.sub(r"\s+", " ", signature + "{" + body + "}"))


def twins(files):
    groups = collections.defaultdict(list)
    for name, function, head, body in functions(files):
        if len(body.strip().split("\n")) >= 4:
            groups[shape(head, body)].append(f"{name}: {function}")
    return [" = ".join(g) for g in groups.values() if len(g) > 1]


def parameters(head):
    inside = head[head.index("(") + 1 :] if "(" in head else ""
    inside = re.split(r"\)\s*(?:->|$|\n|\{)", inside)[0]
    return re.findall(r"(\w+): ", inside)


def travelling(files):
    """Pairs of parameters of one name each that stand side by side in three functions or more."""
    pairs = collections.Counter()
    for name, function, head, body in functions(files):
        given = parameters(head)
        pairs.update({(a, b) for a, b in zip(given, given[1:])})
    return [f"{a}, {b}: {n} functions" for (a, b), n in pairs.most_common() if n >= 3]


def facts(files):
    """Parts of `requires` that stand in three functions or more."""
    parts = collections.Counter()
    for name, function, head, body in functions(files):
        for clause in re.findall(r"requires \{(.*?)\}\n", head + "\n", re.S):
            parts.update({re.sub(r"[()\s]+", " ", part).strip() for part in clause.split("×")})
    return [f"{part}: {n} functions" for part, n in parts.most_common() if n >= 3]


def structs(files):
    for name, text in files.items():
        for m in re.finditer(r"^(?:pub )?struct (\w+)[^{;]*\{\n(.*?)\n\}", text, re.M | re.S):
            yield name, m[1], re.findall(r"^ +(?:pub )?(\w+): ([^,\n]+)", m[2], re.M)


def flagged(files):
    """Structs in which an answer or a flag stands beside the value that it speaks of."""
    flags = {"answer", "next", "more", "known", "emitted"}
    return [f"{name}: {struct}" for name, struct, fields in structs(files) if flags & {field for field, _ in fields}]


def numbered(files):
    """Functions that take or give the number of a refusal, or one of kinds, as a u8."""
    found = []
    for name, function, head, body in functions(files):
        signature = re.split(r"\n *(?:requires|ensures)\b", head)[0]
        if re.search(r"\b(number|why|refusal|label): u8", signature) or ("fault" in function and "-> u8" in signature):
            found.append(f"{name}: {function}")
    return found


def points(files):
    return [
        ("1  enums of the project's own", lines_with(files, r"^(pub )?enum \w+")),
        ("1  structs with an answer or a flag beside a value", flagged(files)),
        ("1  variants that hold a refusal's number", lines_with(files, r"Refused\(u8\)|Refused \{ number: u8|^ +number: u8,|No\(u8\)")),
        ("1  functions of a refusal's number", numbered(files)),
        ("1  constants that number refusals and kinds", lines_with(files, r"^ *(pub )?const [A-Z_0-9]+: u8 = (0x)?[0-9a-f]+;")),
        ("2  twins: functions of one shape", twins(files)),
        ("3  loops that are no `for`", lines_with(files, r"^ *(while|loop)\b")),
        ("4  equality, order, copying, filling by hand", [f"{n}: {f}" for n, f, _, b in functions(files) if re.match(r"(is_)?same|lesser|greater|copy|clear$|fill$|wide$|is_all$|is_list_all|is_work_all|is_equal", f)]),
        ("4  numbers and answers printed by hand", [f"{n}: {f}" for n, f, _, b in functions(files) if re.match(r"(print|say)(_|$)", f)]),
        ("5  facts in three contracts or more", facts(files)),
        ("5  parameters that travel together", travelling(files)),
        ("6  structs with parallel arrays", [f"{n}: {s}" for n, s, fields in structs(files) if sum(t.startswith("[") for _, t in fields) > 1]),
        ("6  buffers with a length beside them", [f"{n}: {f}" for n, f, h, _ in functions(files) if re.search(r"&mut \[(u8|i64)\],\s+(at|from|length|begin|end): usize|(at|from|length|begin|end): usize,\s+\w+: &mut \[(u8|i64)\]", h)]),
        ("7  a switch on which step to run", lines_with(files, r"match (operation|op|kind|command|which|question|little::u8_at)\b")),
    ]


def main():
    arguments = [a for a in sys.argv[1:] if a != "-v"]
    files = sources(arguments[0] if arguments else ".")
    for title, found in points(files):
        print(f"{len(found):5}  {title}")
        if "-v" in sys.argv:
            for place in found:
                print(f"         {place}")


main()
