#!/usr/bin/env python3
"""Brings the repository's own names and root files to today's spelling: the second half of the port, after the toolchain's port.py.

usage: python3 tools/respell.py [--dry]     at the top of the repository, once, right after port.py and before any edit by hand

1. Names. What specs/ and proofs/ declare (definitions, lemmas, fields, constructors, rule sets), what a clause is called and what an import is
   renamed to: types and facts are written in upper camel case, all else in snake case. `meaning-of` becomes `meaning_of`, `Without-gap`
   becomes `WithoutGap`. Each name is turned as a whole word only, in .antt, .rt and .edit files, and in the documents between backquotes
   (there also the names that port.py itself turned). Strings and functions of src/ keep theirs, as do the names of the library and those that
   Rattle makes (`loop-i-preserved`). Names that fall together are said, and `--dry` says them alone.
2. Goals. A goal or step that Rattle makes from a name of the source keeps the underscores of that name: `row-of-requires` is now
   `row_of-requires`. Turned in Answers.antt and Invariants.antt.
3. Roots. Each root file has the line #![tactic(auto)] above its first item.
4. Layout. `rt fmt` in each crate.
"""
import collections
import glob
import os
import re
import subprocess
import sys

WORD = r"[\w'⊕⊞▸∙⋆-]"
MARKS = r"(?:(?:abbrev|unfoldable|opaque|private|lemma|pub)\s+)*"
SIGNED = re.compile(r"^\s*" + MARKS + r"((?:[A-Za-z]" + WORD + r"*)(?:\s+[A-Za-z]" + WORD + r"*)*)\s+:(?=\s|$)")
TYPED = re.compile(r"^\s*(?:pub\s+)?(?:data|record|ruleset)\s+(?:pub\s+)?([A-Za-z]" + WORD + r"*)")
CLAUSE_NAMES = re.compile(r"\b(?:ensures|requires)\*? ([A-Za-z]" + WORD + r"*) \{")
RENAMED = re.compile(r"\bas ([A-Za-z]" + WORD + "*)")
TEXT = re.compile(r'"(?:[^"\\\n]|\\.)*"|' + WORD + "+")

# Words of goals that come from Rattle and not from the source, yet have an underscore.
MADE = ["type_inv", "overflow_add", "overflow_sub", "overflow_mul", "overflow_shl", "overflow_shr", "overflow_cast", "overflow_step", "nonzero_div", "nonzero_rem",
        "slice_bounds", "offset_bounds", "invariant_of", "in_err", "in_ok", "in_default", "from_residual", "zero_fill"]


def files(*endings):
    """The repository's files with these endings: in crates/ and docs/, and README.md."""
    for top in ("crates", "docs"):
        for folder, inside, found in os.walk(top):
            inside[:] = sorted(d for d in inside if d != "out")
            yield from (os.path.join(folder, f) for f in sorted(found) if f.endswith(endings))
    if "README.md".endswith(endings) and os.path.isfile("README.md"):
        yield "README.md"


def read(path):
    with open(path, encoding="utf-8") as f:
        return f.read()


def write(path, text):
    with open(path, "w", encoding="utf-8") as f:
        f.write(text)


def declared():
    """Each name that the repository declares, with the files that declare it; the names of goals, which Rattle makes, left out."""
    names, made = collections.defaultdict(set), set()
    for path in files(".antt", ".rt"):
        for line in read(path).split("\n"):
            if re.match(r"\s*(ghost )?use ", line):
                found = RENAMED.findall(line)
            elif path.endswith(".rt"):
                found = CLAUSE_NAMES.findall(line)
            elif line.lstrip().startswith("--"):
                continue
            elif typed := TYPED.match(line):
                found = [typed[1]]
            elif (signed := SIGNED.match(line)) and re.match(r"\s*goal\.", line[signed.end():]):
                made.update(signed[1].split())
                continue
            else:
                found = signed[1].split() if signed and "=" not in line[: signed.end()] else []
            for name in found:
                names[name].add(path)
    return {name: where for name, where in names.items() if name not in made}


def today(name):
    if "-" not in name:
        return name
    if name[0].isupper():
        return "".join(part[:1].upper() + part[1:] for part in name.split("-"))
    return name.replace("-", "_")


def say_what_falls_together(names, turned):
    """Two names that become one: declared so, or standing in one file, where one could hide the other."""
    by_new = collections.defaultdict(set)
    for name in names:
        by_new[today(name)].add(name)
    for new, olds in sorted(by_new.items()):
        if len(olds) > 1:
            print(f"falls together: {', '.join(sorted(olds))} (declared in {', '.join(sorted(set().union(*(names[o] for o in olds))))})")
    for path in files(".antt", ".rt"):
        text = re.sub(r"(?m)^\s*(--|//).*$", "", read(path))
        words = set(TEXT.findall(text))
        for old in sorted(words & turned.keys()):
            if turned[old] in words:
                print(f"side by side: {old} and {turned[old]} in {path}")


def turn_names(names, turned):
    # port.py turned some names in the crates and left the documents: what is declared now tells which.
    in_documents = {name.replace("_", "-"): name for name in names if "_" in name} | turned
    count = 0
    for path in files(".antt", ".rt", ".edit", ".md"):
        text = read(path)
        if path.endswith(".md"):
            new = re.sub(r"`[^`\n]*`", lambda m: re.sub(WORD + "+", lambda w: in_documents.get(w[0], w[0]), m[0]), text)
        else:
            new = TEXT.sub(lambda w: turned.get(w[0], w[0]), text)
        if new != text:
            count += 1
            write(path, new)
    print(f"{len(turned)} names turned in {count} files")


def turn_goals():
    for crate in sorted(os.listdir("crates")):
        words = set(MADE)
        for path in glob.glob(f"crates/{crate}/src/**/*.rt", recursive=True):
            words.update(w for w in re.findall(r"[A-Za-z]\w*", read(path)) if "_" in w.strip("_"))
        words = sorted(words, key=lambda w: (-len(w), w))

        def kept(name):
            for w in words:
                name = re.sub(r"(?<![A-Za-z0-9_])" + re.escape(w.replace("_", "-")) + r"(?![A-Za-z0-9_])", w, name)
            return name

        for path in sorted(glob.glob(f"crates/{crate}/proofs/**/*.antt", recursive=True)):
            if os.path.basename(path) not in ("Answers.antt", "Invariants.antt"):
                continue
            text = read(path)
            goals = {g: kept(g) for g in re.findall(r"goal\.([\w-]+)", text)}
            new = re.sub(r"[\w'-]+", lambda m: goals.get(m[0], m[0]), text)
            new = re.sub(r"(?<=\.)[A-Za-z_][\w-]*-[\w-]*", lambda m: kept(m[0]), new)
            if new != text:
                write(path, new)


def try_tactics():
    for path in sorted(glob.glob("crates/*/src/lib.rt") + glob.glob("crates/*/src/main.rt")):
        lines = read(path).split("\n")
        if any(re.match(r"#!\[tactic\(", line) for line in lines):
            continue
        at = 0
        while at < len(lines) and lines[at].startswith("//!"):
            at += 1
        lines[at:at] = ["", "#![tactic(auto)]"] + ([] if lines[at:at + 1] == [""] else [""])
        write(path, "\n".join(lines).lstrip("\n"))


def lay_out():
    for crate in sorted(os.listdir("crates")):
        if subprocess.run(["rt", "fmt"], cwd=os.path.join("crates", crate), stdout=subprocess.DEVNULL).returncode:
            print(f"rt fmt: see crates/{crate}")


def main():
    names = declared()
    turned = {name: today(name) for name in names if today(name) != name}
    say_what_falls_together(names, turned)
    if "--dry" in sys.argv:
        return
    turn_names(names, turned)
    turn_goals()
    try_tactics()
    lay_out()


main()
