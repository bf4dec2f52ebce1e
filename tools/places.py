#!/usr/bin/env python3
"""Counts the places that docs/DESIGN-PASS.md speaks of: python3 tools/places.py [COMMIT] [-l]

Without COMMIT the files as they stand; -l lists each place. By text alone: a count is of lines, functions or groups that look like the old form, and what of
it is one is for a reader to say."""

import collections
import re
import subprocess
import sys

LINES = [
    ("1 numbers for refusals, kinds and failures", r"Refused\(|-> u8( \{)?$|\bop: (u8|usize)|\bversion: u8|return 6553[67]|[=!]= 6553[67]"),
    ("1 own enums of Option's or Result's shape", r"^pub enum (Outcome|Soundness|Counted|Picked|Measured|Placed|Priced|Compared|Withdrawal|Tally|Written|Spot|Chosen|Reading|Conversion)\b"),
    ("1 flags beside values", r"^\s*(pub )?(full|over|marked|plain): bool,$"),
    ("3 loops by hand", r"^\s*(while\b|loop\b)"),
    ("4 conversions by own functions", r"base::(wide|word|widened)\(|fn (wide|wide32|widen|long|index|narrow|number_of)\("),
    ("4 comparisons by own functions", r"fn (same\w*|least|lesser|larger|blank|is_mark|wrapping_mul)\("),
    ("4 printing piece by piece", r"write_all\(|\brt\.print\(|\bprint\(rt, b\""),
    ("6 words by threes or sevens", r"\b[37] \* "),
    ("7 a switch on a number or a flag", r"(match|if) \(?(op|kind|holding|q\.kind|c\.call|c\.table)\b"),
]
FN = re.compile(r"^( *)(?:pub )?(?:extern \"C\" )?fn (\w+)", re.M)


def files(commit, suffix):
    if not commit:
        names = subprocess.check_output(["git", "ls-files", "crates"], text=True).split("\n")
        return {n: open(n, encoding="utf-8").read() for n in names if n.endswith(suffix)}
    names = subprocess.check_output(["git", "ls-tree", "-r", "--name-only", commit, "crates"], text=True).split("\n")
    return {n: subprocess.check_output(["git", "show", f"{commit}:{n}"], text=True) for n in names if n.endswith(suffix)}


def functions(text):
    """Each function: its line, its name, its head and its body."""
    for m in FN.finditer(text):
        end = text.find("\n" + m[1] + "}", m.end())
        whole = text[m.start():end if end > 0 else len(text)]
        cut = re.search(r"\) *(->[^{\n]*)?\{\n|\n" + m[1] + r"\{\n", whole)
        head, body = (whole[:cut.end()], whole[cut.end():]) if cut else (whole, "")
        yield text.count("\n", 0, m.start()) + 1, m[2], head, body


def alike(body):
    """The body with its numbers, strings and names of callees blanked."""
    body = re.sub(r"//.*", "", body)
    body = re.sub(r'b?"[^"]*"', "S", body)
    body = re.sub(r"\b\w+(::\w+)*\(", "f(", body)
    body = re.sub(r"\b[A-Z]\w*(::\w+)*", "T", body)
    body = re.sub(r"\b\d+\w*", "N", body)
    return re.sub(r"\s+", " ", body)


def main():
    commit = next((a for a in sys.argv[1:] if a != "-l"), None)
    listed = "-l" in sys.argv
    code = {n: t for n, t in files(commit, ".rt").items() if "/src/" in n}
    answers = files(commit, "/Answers.antt")
    found = collections.OrderedDict()
    for point, pattern in LINES:
        found[point] = [f"{n}:{i + 1}: {l.strip()}" for n, t in code.items() for i, l in enumerate(t.split("\n")) if re.search(pattern, l)]
    twins, travel, triples, facts = collections.defaultdict(list), [], [], collections.defaultdict(set)
    for n, t in code.items():
        for line, name, head, body in functions(t):
            if body.count("\n") >= 4:
                twins[alike(body)].append(f"{n}:{line}: {name}")
            if all(re.search(rf"\b{p}:", head) for p in ("packages", "optional", "order")):
                travel.append(f"{n}:{line}: {name}")
            if all(re.search(rf"\b{p}: u32", head) for p in ("label", "lo", "hi")):
                triples.append(f"{n}:{line}: {name}")
            for fact in re.findall(r"requires(?: \w+)? \{ (.*) \}", head):
                facts[(n.split("/")[1], fact)].add(name)
    found["2 groups of functions with one body"] = [" = ".join(g) for g in twins.values() if len(g) > 1]
    found["5 functions lent packages, optional set and order"] = travel
    found["5 functions lent a label, lo and hi"] = triples
    found["5 facts that three functions of a crate ask"] = [f"{c}: {f}: {', '.join(sorted(s))}" for (c, f), s in facts.items() if len(s) >= 3]
    found["8 answer lines over 200 bytes"] = [f"{n}:{i + 1}" for n, t in answers.items() for i, l in enumerate(t.split("\n")) if len(l.encode()) > 200]
    lets = [(n, l) for n, t in answers.items() for l in re.findall(r"\blet (\w+ (?::[^=]*)?= .*?) in\b", t)]
    found["8 lets that stand in three answers of a file"] = [f"{n}: {l}" for (n, l), k in collections.Counter(lets).items() if k >= 3]
    for point in sorted(found):
        print(f"{len(found[point]):5}  {point}")
        if listed:
            for place in found[point]:
                print(f"         {place}")
    print(f"{len(answers):5}  answer files, {sum(len(t.encode()) for t in answers.values())} bytes; {sum(t.count(chr(10)) for t in code.values())} lines of code")


main()
