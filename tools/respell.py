#!/usr/bin/env python3
"""Brings the names of this repository's definitions and lemmas to today's spelling, once, after port.py: words in snake case; a dash only where it joins
two names, a plain word is added with `_`.

usage: python3 tools/respell.py [--dry]     at the top of the repository

Names that specs/ and the lemma files of proofs/ declare are respelled there, in the proofs of functions, in the clauses of src/, in the edits of must-fail/
and between backticks in README.md and docs/. Functions of src/, exported names, strings, inputs and outputs keep theirs. A new name that is in use already
is reported, and the old one kept.
"""
import os
import re
import sys

# names of the library that lemmas are about
LIBRARY = set("length map filter take drop append set get_or any all reverse sum min max suc zero cons nil replicate not and or flat elem cond".split())
# names whose words only look like two names: sentences, and plain words that are functions elsewhere
WHOLE = {w.replace("_", "-"): w for w in (
    "all_of_it closest_of_member fork_not_one got_none_lo hi_set_in in_any_order join_refused_alike joins_left_one made_at_most no_spare_node none_of_one "
    "rows_of_seven same_or_later same_or_moved second_of_five second_of_public second_of_reversed split_join_left withdraw_not_admitted turn_pass "
    "onward_pass each_pass gather_pass opened_rest priced_rest rest_inside"
).split()}
WHOLE["in-plain-order"] = "in_plain_order_lem"
WORD = r"(?<![\w'\-◌])%s(?![\w'\-◌])"


def read(path):
    with open(path, encoding="utf-8") as f:
        return f.read()


def files(ending, part):
    for folder, dirs, names in os.walk("crates"):
        dirs[:] = sorted(d for d in dirs if d != "out")
        for n in sorted(names):
            path = os.path.join(folder, n)
            if n.endswith(ending) and part(path.split(os.sep)):
                yield path


def declares(path):
    """The names that a file declares, each with its kind."""
    inside = None
    for line in read(path).split("\n"):
        if not line.strip() or line.lstrip().startswith("--"):
            continue
        indent = len(line) - len(line.lstrip())
        if inside is not None and indent <= inside:
            inside = None
        m = re.match(r"^\s*((?:pub |abbrev |unfoldable )*)(record|data) (\S+)", line)
        if m:
            inside = indent
            yield m.group(3), "type"
            continue
        m = re.match(r"^\s*((?:pub |abbrev |unfoldable )*)([^\s:(){},.]+) : ", line) or re.match(r"^\s*((?:pub |abbrev |unfoldable )*)([^\s:(){},.]+) :$", line)
        if m and m.group(2) not in ("let", "λ", "→", "in"):
            words = m.group(1)
            kind = "field" if inside is not None else "function" if "abbrev" in words or "unfoldable" in words else "lemma"
            yield m.group(2), kind


def snake(part):
    part = re.sub(r"getD", "get_or", part)
    if not re.match(r"[a-z]", part):
        return part
    return re.sub(r"(?<=[a-z0-9])([A-Z])(?=[a-z0-9]|$)", lambda m: "_" + m.group(1).lower(), part)


def respelled(name, known):
    parts = [snake(p) for p in name.split("-")]
    out = parts[0]
    for i in range(1, len(parts)):
        joined = parts[i] in known and (parts[i - 1] in known or "-".join(parts[:i]) in known)
        out += ("-" if joined else "_") + parts[i]
    return out


def main():
    dry = "--dry" in sys.argv[1:]
    own = lambda p: ("specs" in p or "proofs" in p) and not (len(p) > 4 and p[2] == "proofs")
    kinds = {}
    for path in files(".antt", own):
        for name, kind in declares(path):
            kinds.setdefault(name, set()).add(kind)
    functions = {snake(n) for n, k in kinds.items() if "function" in k and "-" not in n}
    for path in files(".rt", lambda p: "src" in p):
        functions |= set(re.findall(r"\bfn (\w+)", read(path)))
    known = functions | LIBRARY
    wanted = {n: respelled(n, known) for n in kinds if re.match(r"[a-z]", n)}
    wanted |= {n: WHOLE[n.replace("_", "-")] for n in wanted if "-" in n and n.replace("_", "-") in WHOLE}
    wanted |= {"short-page": "a_short_page", "unknown-package": "an_unknown_package"}
    wanted = {n: to for n, to in wanted.items() if n != to}
    # a definition may share the name of a function of src/, and a field that of anything that is no field; a lemma that would have a definition's name gets `_lem`
    fields = {n for n, k in kinds.items() if k == {"field"}}
    taken = {}
    for n, to in sorted(wanted.items(), key=lambda e: ("function" not in kinds[e[0]], e[0])):
        if n not in fields and "function" in kinds[n] and "lemma" in kinds.get(to, ()):
            print(f"another name: the lemma {to}, since {n} gets it")
            taken[to] = to + "_lem"
        elif n not in fields and (to in taken.values() or to in kinds and to not in fields):
            print(f"another name: {n}, since {to} is in use")
            to += "_lem"
        taken[n] = to
    print(f"{len(taken)} names of {len(kinds)}")
    if dry:
        for n, to in sorted(taken.items()):
            print(n, to)
        return
    token = re.compile(r"(\.?)" + WORD % r"([a-z][\w'\-]*)")

    plain = {n for n, to in taken.items() if to == n + "_lem"}

    def library(text):
        """The names that a file takes from the library."""
        lines = [u for u in re.findall(r"^use ([^;\n]+)", text, re.M) if not re.match(r"Rattle\.(%s)\." % "|".join(own_crates), u)]
        return {w for u in lines for w in re.findall(r"[\w'\-]+", u)}

    own_crates = sorted(os.listdir("crates"))

    def turn(text, lemmas=False):
        outside = library(text)

        def one(m):
            name = m.group(2)
            if name in outside:
                return m.group(0)
            # a plain name that gets `_lem` is a lemma's only where a lemma is cited: not in a path, nor outside proofs
            if name in plain and (m.group(1) or not lemmas):
                return m.group(0)
            return m.group(1) + taken.get(name, name)
        return token.sub(one, text)

    def write(path, text):
        if text != read(path):
            with open(path, "w", encoding="utf-8") as f:
                f.write(text)

    for path in files(".antt", lambda p: True):
        write(path, turn(read(path), True))
    for path in files(".rt", lambda p: "src" in p):
        # strings stay
        parts = re.split(r'("(?:[^"\\\n]|\\.)*")', read(path))
        write(path, "".join(p if p.startswith('"') else turn(p) for p in parts))
    for path in files(".edit", lambda p: "must-fail" in p):
        write(path, turn(read(path)))
    pages = ["README.md"] + [os.path.join(f, n) for f, _, ns in os.walk("docs") for n in ns if n.endswith(".md")]
    for path in pages:
        write(path, re.sub(r"`[^`\n]+`", lambda m: turn(m.group(0)), read(path)))


main()
