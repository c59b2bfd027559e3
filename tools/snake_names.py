#!/usr/bin/env python3
"""Spells the repository's own names as Rattle does: definitions, lemmas, fields and variables in snake case, types in camel case.

usage: python3 tools/snake_names.py [--check]    at the top, once, right after the kit's port.py

It reads every .antt and .rt file below crates/, the must-fail edits beside them, and the code spans of the pages. A name keeps its
spelling where the file has it from a library, where it is a goal or a step that Rattle made (behind `tie.`, or a step of `c`), and
where it stands in a string. It prints the names that would fall together, and then writes nothing.
"""
import collections
import glob
import os
import re
import sys

WORD = re.compile(r"[^\s(){}.;,@\"«»\[\]]+")
KEBAB = re.compile(r"^[A-Za-z\u0370-\u03ff][\w'₀-₉≡≤≢]*(?:-[\w'₀-₉≡≤≢]+)+$")
CAMEL = re.compile(r"^[a-z][a-z0-9_']*(?:[A-Z][A-Za-z0-9_'₀-₉]*)+$")
RESERVED = set("data record deriving module where use mod pub package open as unfoldable abbrev axiom unfold unfolding ruleset mutual infix infixl infixr elim let in do Type coe hcom com ground assumption search cc rw simp omega grind tt absurd".split())
# names that would meet another of their file: a definition then ends in `_of`, a lemma in `_lem`
OTHERWISE = {"attributeListsOf": "attribute_lists_for", "labelListsOf": "label_lists_for", "leadOf": "lead_in_row", "pathLineOf": "path_line_for", "sizesOf": "sizes_for"}


def snake(name):
    if name in OTHERWISE:
        return OTHERWISE[name]
    if KEBAB.match(name) and name[0].isupper():
        return "".join(p[:1].upper() + p[1:] for p in name.split("-"))
    name = name.replace("-", "_")
    if CAMEL.match(name):
        name = re.sub(r"(?<=[a-z0-9'])([A-Z])", lambda m: "_" + m.group(1).lower(), name)
        name = re.sub(r"([A-Z])", lambda m: m.group(1).lower(), name)
    return name


def turns(name):
    return bool(KEBAB.match(name) or CAMEL.match(name))


def code_and_comments(text, mark):
    """The text in pieces: (is it code, piece). A comment goes to its line's end; a string is no code."""
    at, out = 0, []
    quiet = re.compile(r"\"(?:[^\"\\\n]|\\.)*\"|(?<![^\s(){}.;,@\"«»])" + re.escape(mark) + r"[^\n]*")
    for m in quiet.finditer(text):
        out.append((True, text[at : m.start()]))
        out.append((False, m.group()))
        at = m.end()
    out.append((True, text[at:]))
    return out


def uses(text):
    """The names that a file has from libraries, and its heads: alias -> is it ours."""
    lib, heads = set(), {}
    for m in re.finditer(r"\buse ([^\s;{]+?)(?:\.?\{([^}]*)\})?(?: as (\S+?))?(?=[;\s]|$)", text):
        path, items, alias = m.group(1).rstrip("."), m.group(2), m.group(3)
        ours = path.startswith("Rattle.") and path.split(".")[1] in CRATES
        made = ours and re.search(r"\.(Statement|Tie|Goals|Given|Lts|Code)$", path) is not None
        if items is None:
            heads[alias or path.split(".")[-1]] = ours and not made
            continue
        for item in items.split(","):
            item = item.strip()
            if not item:
                continue
            name, _, other = item.partition(" as ")
            if not ours:
                lib.add((other or name).strip())
    return lib, heads


CRATES = set(os.path.basename(os.path.dirname(p)) for p in glob.glob("crates/*/src"))
FILES = sorted(f for f in glob.glob("crates/*/**/*.antt", recursive=True) + glob.glob("crates/*/src/**/*.rt", recursive=True) if "/out/" not in f)


def fields():
    """The fields of our records, and of the structs of src/."""
    out = set()
    for f in FILES:
        text = open(f, encoding="utf-8").read()
        if f.endswith(".antt"):
            for m in re.finditer(r"(?m)^( +)(?:pub )?([^\s:(){}]+) :(?!=)", text):
                out.add(m.group(2))
    return out


FIELDS = None


def turned(text, path, renames):
    antt = path.endswith(".antt")
    lib, heads = uses(text)
    proof = os.path.basename(path) == "Proof.antt"
    made = set()
    if proof:
        # an answer's own name is Rattle's: the goal's
        for m in re.finditer(r"(?m)^(?:abbrev )?(?:pub )?([^\s:(){}]+) :\s+(?:\{M : Type 1\} → )?(?:tie\.|statement)", text):
            made.add(m.group(1))
    out = []
    for code, piece in code_and_comments(text, "--" if antt else "//"):
        if not code:
            if piece.startswith('"'):
                out.append(piece)
            else:
                out.append(re.sub(r"`[^`\n]*`", lambda m: WORD.sub(lambda w: prose(w.group()), m.group()), piece))
            continue
        def word(m):
            name = m.group()
            if not turns(name):
                return name
            before = piece[: m.start()]
            if before.endswith("."):
                head = re.search(r"([^\s(){};,@\"«»\[\]]*)\.$", before).group(1)
                first = head.split(".")[0]
                if first == "tie" or first == "goal" or first == "code":
                    return name
                if first.startswith("Rattle") or head in heads:
                    if first.startswith("Rattle") and first == head.split(".")[0]:
                        parts = head.split(".")
                        if len(parts) > 1 and parts[1] not in CRATES:
                            return name
                    elif not heads[head]:
                        return name
                elif first in ("Prim", "lib", "mathlib", "native", "borrow", "base", "types", "denote", "contract", "prog", "mir"):
                    return name
                elif name not in FIELDS:
                    return name
                elif proof and re.match(r"\.(result|ensures|new|requires|true|false|invariant)\b", piece[m.end():]) and name.replace("-", "_") in STEPS:
                    return name
            elif "{" in before[-4000:] and in_use(before):
                path_ = in_use(before)
                ours = path_.startswith("Rattle.") and path_.split(".")[1] in CRATES
                if not ours:
                    return name
                if re.search(r"\.(Statement|Tie|Goals|Given|Lts|Code)\.?$", path_):
                    return name
            elif name in lib or name in made:
                return name
            new = snake(name)
            renames[path][name] = new
            ALL[name] = new
            return new
        out.append(WORD.sub(word, piece))
    return "".join(out)


def in_use(before):
    m = re.search(r"\buse ([^\s;{]+?)\.?\{[^}]*$", before)
    return m.group(1) if m else None


ALL, STEPS = {}, set()


def prose(word):
    return ALL.get(word, snake(word) if word in DECLARED else word)


DECLARED = set()


def meetings(renames):
    """Where names fall together: the file, the new name, and those of the old ones that have to give way."""
    met = []
    for f in FILES:
        words = set()
        for code, piece in code_and_comments(open(f, encoding="utf-8").read(), "--" if f.endswith(".antt") else "//"):
            if code:
                words.update(WORD.findall(piece))
        to = collections.defaultdict(set)
        for a, b in renames[f].items():
            to[b].add(a)
        for b, a in sorted(to.items()):
            if b in words or b in RESERVED:
                met.append((f, b, sorted(a)))
            elif len(a) > 1:
                # a field keeps the plain name, else the definition does, and the others give way
                plain = [n for n in a if n in FIELDS] or [n for n in a if CAMEL.match(n)] or sorted(a)
                met.append((f, b, sorted(n for n in a if n != plain[0])))
    return met


def main(check):
    global FIELDS
    FIELDS = fields()
    for f in FILES:
        text = open(f, encoding="utf-8").read()
        if f.endswith(".rt"):
            STEPS.update(re.findall(r"\bfn (\w+)", text))
        else:
            for m in re.finditer(r"(?m)^(?: *)(?:abbrev |unfoldable |pub |record |data )*([^\s:(){}]+) :(?!=)", text):
                if turns(m.group(1)):
                    DECLARED.add(m.group(1))
    for _ in range(4):
        renames, new = collections.defaultdict(dict), {}
        for f in FILES:
            new[f] = turned(open(f, encoding="utf-8").read(), f, renames)
        met = meetings(renames)
        for name in sorted(set(n for _, _, names in met for n in names)):
            base = OTHERWISE.get(name, snake(name))
            OTHERWISE[name] = base + ("_of" if CAMEL.match(name) else "_lem")
        if not met:
            break
    for f, b, names in met:
        print(f"falls together: {f}: {' '.join(names)} -> {b}")
    bad = len(met)
    if check:
        for a, b in sorted(OTHERWISE.items()):
            print(f"gives way: {a} -> {b}")
    print(f"{len(ALL)} names, {sum(len(r) for r in renames.values())} in files, {bad} fall together")
    if check or bad and "--force" not in sys.argv:
        return 1 if bad else 0
    for f, text in new.items():
        with open(f, "w", encoding="utf-8") as o:
            o.write(text)
    for f in sorted(glob.glob("crates/*/must-fail/*.edit")):
        text = open(f, encoding="utf-8").read()
        with open(f, "w", encoding="utf-8") as o:
            o.write(WORD.sub(lambda m: ALL.get(m.group(), m.group()) if CAMEL.match(m.group()) or m.group() in DECLARED else m.group(), text))
    for f in ["README.md", "CONTRIBUTING.md"] + sorted(glob.glob("docs/*.md") + glob.glob("docs/requests/*.md")):
        text = open(f, encoding="utf-8").read()
        with open(f, "w", encoding="utf-8") as o:
            o.write(re.sub(r"`[^`\n]*`", lambda m: WORD.sub(lambda w: prose(w.group()), m.group()), text))
    return 0


raise SystemExit(main("--check" in sys.argv))
