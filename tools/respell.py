#!/usr/bin/env python3
"""Spells the repository's own names as today's Rattle does: words in snake case, types and modules in camel case.

usage: python3 tools/respell.py [--table]      at the top of the repository, once, right after port.py

port.py respells the names that the library has too; this does the rest: definitions, fields and constructors in camelCase become
snake_case, and in the name of a lemma a dash stays only between two names of definitions, as in `length-sets`, and is an underscore before
or after a plain word, as in `slots_more`. It turns specs/, proofs/ and the `ghost use` lines and clauses of src/. Functions of
src/ keep their names, and so does what Rattle makes of the code, behind `c.`, `tie.` and `goal.`. Must-fail edits were turned by hand.
--table prints the names, old and new, and changes nothing.
"""

import glob
import os
import re
import sys

# Names of the library of which lemmas are made.
LIBRARY = """add and append cond drop eqb get_or leb length ltb map max min mul not or replicate set sets suc sub take zero odd even pow ones
count_ones leading_zeros trailing_zeros bit_and bit_or shift""".split()
# Numbers as names of theorems: a name can't begin with a digit and go on with an underscore.
DIGITS = dict(enumerate("zero one two three four five six seven eight nine ten eleven twelve thirteen".split()))
NAME = re.compile(r"[^\s(){}\[\],;.:⌜⌝`\"λ‹›⟦⟧]+")
DECLARED = re.compile(r"^\s*(?:abbrev |unfoldable |pub |data |record )*([^\s:(){}.,;]+) :(?=\s|$)")
CAMEL = re.compile(r"[a-z][A-Za-z0-9₀-₉']*")
DASHED = re.compile(r"[a-z0-9][A-Za-z0-9₀-₉'_]*(?:-[A-Za-z0-9₀-₉'_]+)+")


def antt_files():
    return sorted(glob.glob("crates/*/specs/**/*.antt", recursive=True) + glob.glob("crates/*/proofs/**/*.antt", recursive=True))


def of_a_function(path):
    return os.path.basename(path) in ("Proof.antt", "Invariants.antt", "Answers.antt")


def code_of(line):
    """The line without its comment."""
    return re.split(r"(?:^|\s)--(?:\s|$)", line, 1)[0]


def words_of(name):
    return re.sub(r"(?<=[a-z0-9])(?=[A-Z])|(?<=[A-Z])(?=[A-Z][a-z])", "_", name).lower()


def is_camel(name):
    return bool(CAMEL.fullmatch(name)) and any(x.isupper() for x in name)


def declared():
    """The names that specs/ and the files of laws declare: definitions and others, and which are fields or constructors."""
    found, definitions = set(), set()
    for path in antt_files():
        if of_a_function(path):
            continue
        for line in open(path, encoding="utf-8"):
            m = DECLARED.match(code_of(line))
            if m:
                found.add(m[1])
                if "/specs/" in path and "-" not in m[1]:
                    definitions.add(m[1])
    return found, definitions


def all_names():
    found = set()
    for path in antt_files():
        for line in open(path, encoding="utf-8"):
            found.update(NAME.findall(code_of(line)))
    return found


def lemma(name, definitions):
    """The new name of a lemma: its parts, with a dash between two names of definitions."""
    if name[0].isdigit():
        parts = [DIGITS[int(p)] if p.isdigit() else p for p in name.split("-")]
        return "_".join(words_of(p) for p in parts)
    parts = [words_of(p) for p in name.split("-")]
    segments, i = [], 0
    while i < len(parts):
        for j in range(len(parts), i, -1):
            word = "_".join(parts[i:j])
            if word in definitions:
                segments.append((word, True))
                i = j
                break
        else:
            segments.append((parts[i], False))
            i += 1
    text = segments[0][0]
    for (_, before), (word, here) in zip(segments, segments[1:]):
        text += ("-" if before and here else "_") + word
    return text


def table():
    found, definitions = declared()
    snakes = {words_of(d) for d in definitions if d[0].islower()} | set(LIBRARY)
    names = all_names()
    turned = {}
    for name in sorted(names):
        if is_camel(name) and name not in KEPT:
            turned[name] = words_of(name)
        elif name in found and name not in KEPT and DASHED.fullmatch(name):
            new = lemma(name, snakes)
            if new != name:
                turned[name] = new
    # A lemma that would have a definition's name ends in _lem.
    taken = {b for a, b in turned.items() if is_camel(a)} | definitions | {"bit_and", "bit_or"}
    for name in found:
        new = turned.get(name, name)
        if new in taken and not is_camel(name) and (name not in definitions or new in turned.values() and "-" not in name and name in lemmas_of(found, definitions)):
            turned[name] = new + "_lem"
    turned.update((name, name.replace("-", "_")) for name in FIELDS if name in names)
    return turned, names


# Fields of records that have names of definitions in theirs: labels, in which no dash stays.
FIELDS = """lowest-next needs-made clock-few known-held held-known held-made cell-stamp cell-site none-lacking needs-met each-answer
beyond-answers here-taken there-taken first-row so-row middle-row object-row from-length from-once""".split()


def lemmas_of(found, definitions):
    return found - definitions


# Names that are Rattle's own or the source's.
KEPT = {"decLt", "decEq", "decLe", "or-false"}


def together(turned, names):
    """Names that would fall together."""
    new = {}
    for a, b in turned.items():
        new.setdefault(b, []).append(a)
    return sorted((b, a + ([b] if b in names and b not in turned else [])) for b, a in new.items() if len(a) > 1 or (b in names and b not in turned))


def turn(text, turned):
    """The text with each name turned, but what Rattle makes of the code."""
    def one(m):
        name = m[0]
        if name not in turned:
            return name
        before = text[: m.start()]
        if before.endswith(".") and not before.endswith(".."):
            owner = re.search(r"([\w'₀-₉-]+(?:\.[\w'₀-₉-]+)*)\.$", before)
            top = owner[1].split(".")[0] if owner else ""
            if top in ("tie", "goal", "reads", "lts", "Rattle") or (top == "c" and "-" in name):
                return name
        return turned[name]

    return NAME.sub(one, text)


def turn_antt(text, turned):
    return "".join(turn(line, turned) for line in text.splitlines(keepends=True))


CLAUSE = re.compile(r"(ghost use [^;]*;)|((?:requires|ensures|ghost)\*?(?: \w+)? \{)")


def turn_source(text, turned):
    """src/: the ghost use lines and the clauses alone."""
    out, at = [], 0
    for m in CLAUSE.finditer(text):
        if m.start() < at:
            continue
        out.append(text[at : m.start()])
        end = m.end()
        if m[2]:
            depth = 1
            while depth:
                depth += {"{": 1, "}": -1}.get(text[end], 0)
                end += 1
        label = text[m.start() : m.end()] if m[2] else ""
        out.append(label + turn(text[m.start() + len(label) : end], turned))
        at = end
    out.append(text[at:])
    return "".join(out)


def main(words):
    turned, names = table()
    clash = together(turned, names)
    if words == ["--table"]:
        for a, b in sorted(turned.items()):
            print(f"{a}\t{b}")
        for b, a in clash:
            print("together:", b, a, file=sys.stderr)
        return 0
    n = 0
    for path in antt_files() + sorted(glob.glob("crates/*/src/**/*.rt", recursive=True)):
        with open(path, encoding="utf-8") as f:
            old = f.read()
        new = turn_antt(old, turned) if path.endswith(".antt") else turn_source(old, turned)
        if new != old:
            n += 1
            with open(path, "w", encoding="utf-8") as f:
                f.write(new)
    print(f"respell: {len(turned)} names in {n} files; {len(clash)} fall together")
    return 0


if __name__ == "__main__":
    raise SystemExit(main(sys.argv[1:]))
