#!/usr/bin/env python3
"""Counts the places of docs/DESIGN-PASS.md in crates/*/src: at a commit, or as the files stand.

    python3 tools/design_places.py [COMMIT] [--list]
"""
import re
import subprocess
import sys

PATTERNS = [
    ("1a own enums", r"^\s*(?:pub(?:\(crate\))? )?enum \w+"),
    ("1b own refusals returned by hand", r"return \w+::Refused\("),
    ("1c an answer so far, handed on as a parameter", r"^(?!\s*fn from).*\b(?:answer|input|head|bounds|room|length|next): (?:Checked|Result<\(\), Refusal>)"),
    ("1d numbers for kinds, refusals, places that may be none", r"^\s*(?:pub )?(?:number|variant|long): (?:u32|usize),|^pub const (?:STATE|TRANSITION|LAST_VARIANT)\b"),
    ("1e flags with a value beside them", r"^\s*pub (?:finite|has_lead|point|minus|slashed|field|within): (?:bool|u32)"),
    ("3 loops by hand", r"^\s*while "),
    ("4a conversions by hand", r"^\s*(?:pub )?(?:pub\(crate\) )?fn (?:wide|widened|byte|bits|float|special|numbers_of_\w+|digit|hex|decimal|smaller|half_at|word_at|byte_at|bits_at|number_at|is_finite_pattern|sizes_of|sizes_in|trainer_of|settings_of)\b"),
    ("4b a field named by itself", r"^\s*(\w+): \1,?$"),
    ("5a clauses that name a model by its nine tables", r"model_(?:at|was) labels counts kinds destinations sources"),
    ("7 a choice of what to run by number", r"match operation"),
]


def sources(commit):
    if commit:
        names = subprocess.run(["git", "ls-tree", "-r", "--name-only", commit, "crates"], capture_output=True, text=True, check=True).stdout.split()
    else:
        names = subprocess.run(["git", "ls-files", "crates"], capture_output=True, text=True, check=True).stdout.split()
    for name in names:
        if re.match(r"crates/\w+/src/.*\.rt$", name):
            if commit:
                text = subprocess.run(["git", "show", f"{commit}:{name}"], capture_output=True, text=True, check=True).stdout
            else:
                text = open(name).read()
            yield name, text


def parameters(text):
    """Each function with the number of its parameters."""
    for m in re.finditer(r"\bfn (\w+)(?:<[^>]*>)?\(([^)]*)\)", text):
        yield m.group(1), len([p for p in m.group(2).split(",") if p.strip()])


def main():
    arguments = [a for a in sys.argv[1:] if a != "--list"]
    listed = "--list" in sys.argv
    texts = list(sources(arguments[0] if arguments else None))
    for title, pattern in PATTERNS:
        found = [(n, i + 1, l.strip()) for n, t in texts for i, l in enumerate(t.split("\n")) if re.search(pattern, l)]
        print(f"{title}: {len(found)}")
        if listed:
            for n, i, l in found:
                print(f"    {n}:{i}: {l}")
    for least in (8, 15):
        long = [(n, f, k) for n, t in texts for f, k in parameters(t) if k >= least]
        print(f"5b functions of {least} parameters and more: {len(long)}")
        if listed and least == 15:
            for n, f, k in long:
                print(f"    {n}: {f}: {k}")
    functions = sum(1 for _, t in texts for _ in parameters(t))
    print(f"functions: {functions}")


main()
