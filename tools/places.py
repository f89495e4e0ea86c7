#!/usr/bin/env python3
"""Lists the places in crates/*/src where an older form may stand, for docs/DESIGN-PASS.md.

usage: python3 tools/places.py [POINT] [--count] [--in FOLDER]

   POINT      1 to 8: only that point; else all of them
   --count    one line a search, with how many places it finds, and not the places
   --in       another checkout of the repository; else the one that this script lies in

A search finds lines by their words: it says where to look. Which of them are places of a point, and what became of them, docs/DESIGN-PASS.md says.
"""
import collections
import os
import re
import sys

# point, letter, what is sought, and the words by which a line is found
SEARCHES = [
    (1, "a", "a contract that speaks by our own copy of Result", r"\bverdict result|\boutcome \w+ result"),
    (1, "b", "an enum of our own", r"^\s*(pub(\([a-z]+\))? )?enum \w+"),
    (1, "c", "a flag in a struct", r"^\s+(pub )?\w+: bool,$"),
    (1, "d", "a Result or Option taken apart by hand and handed on", r"Err\(_\) =>|None => (Err|None|Ok\(None)|=> Ok\(Some|Ok\((\w+)\) => (Some|Ok)\(\w+\)|let (Some|Ok)\(.*\) = .* else \{$|\bbad_command\(rt\)|=> Err\((Fault|Code|Reason)"),
    (1, "e", "a number or word that stands for a case", r"\b(fn \w+\(.*\b(number|code|kind): (u8|u16|&str)\b|0 for |fn number\()|return Reply::refused|const NO_ROW"),
    (2, "a", "methods that every kind of its sort has again: twins, or one generic function", r"^\s*(pub(\([a-z]+\))? )?fn (write_text|write|shaped|text_shaped|may_send|in_range|fill|put_line|read|put16|put32|number16|number32|put|same|agrees|reflexive|symmetric|transitive|board_\w+|ledger_\w+|perform_board|perform_ledger|refused|print_refusal|bad_command|check_\w+)\b"),
    (3, "a", "a loop", r"^\s*(for|while|loop)\b.*\{$"),
    (4, "a", "an impl of a trait of the library by hand", r"^\s*impl(<.*>)? (fmt::Display|Display|PartialEq|Eq|Ord|PartialOrd|Clone|Copy|Debug|From|TryFrom|FromStr|Error)\b"),
    (4, "b", "equality or conversion by a function of our own", r"\bfn (same|difference|of|named|number|to_bytes|body_of|text_of|array|array_of|bytes|told|byte|digit|body|row_of|party_at)\b"),
    (5, "a", "what a function asks of its caller", r"\brequires\b"),
    (5, "b", "a parameter that travels with others", r"fn .*\b(pit: &Pit, at: usize|first: &\[u8\], second: &\[u8\]|out: &mut \[u8\], at: usize|session: &mut Session)"),
    (6, "a", "memory of a fixed size, or a list", r"\[(0|\[0[^\]]*\]|NO_ROW|GATE|None); |Vec<|Vec::|vec!\["),
    (6, "b", "a length, count or place beside what it measures", r"\b(count|listed|len|size|from|end): (usize|u16)\b|while from"),
    (7, "a", "a switch on words or numbers that chooses what to run", r"^\s*(match (command|name|words|subject|verb|code|kind|\(verb|\(words).*\{|.*const \w+: \[&str)"),
]


def files(top, ending):
    for crate in sorted(os.listdir(os.path.join(top, "crates"))):
        for below in ("src", "specs", "proofs"):
            for folder, inside, found in os.walk(os.path.join(top, "crates", crate, below)):
                inside.sort()
                for name in sorted(found):
                    path = os.path.join(folder, name)
                    if name.endswith(ending):
                        with open(path, encoding="utf-8") as f:
                            yield os.path.relpath(path, top), below, f.read().split("\n")


def code(lines):
    """The lines of a source file before its tests, with their numbers; comments are not counted."""
    for number, line in enumerate(lines, 1):
        if line.startswith("#[cfg(test)]"):
            return
        if not line.lstrip().startswith("//"):
            yield number, line


def proofs(top):
    """Point 8: files of answers, and files of lemmas, a line each."""
    for path, below, lines in files(top, ".antt"):
        if below != "proofs":
            continue
        if os.path.basename(path) in ("Answers.antt", "Invariants.antt"):
            answers = {line.split()[0] for line in lines if re.match(r"[a-z][\w'-]* .*=", line) and not line.startswith(("use ", "let "))}
            yield "8a", f"{path}: {len(answers)}: {' '.join(sorted(answers))}"
        elif os.path.basename(path) != "Lib.antt":
            lemmas = [line for line in lines if re.match(r"\s*((private|lemma|abbrev|pub|unfoldable|opaque) )*[a-zA-Z][\w'-]*( :|$)(?!:)", line) and " : " in line + " " and "=" not in line.split(" : ")[0]]
            yield "8b", f"{path}: {len(lemmas)} lemmas, {len(lines) - 1} lines"


def main():
    words = sys.argv[1:]
    top = words.pop(words.index("--in") + 1) if "--in" in words else os.path.dirname(os.path.dirname(os.path.abspath(__file__)))
    only = [int(w) for w in words if w.isdigit()]
    found = collections.defaultdict(list)
    for path, below, lines in files(top, ".rt"):
        for number, line in code(lines):
            for point, letter, what, sought in SEARCHES:
                if re.search(sought, line):
                    found[f"{point}{letter}"].append(f"{path}:{number}: {line.strip()}")
    titles = {f"{p}{l}": w for p, l, w, s in SEARCHES}
    titles.update({"8a": "a file of answers or invariants", "8b": "a file of lemmas in proofs/"})
    for key, line in proofs(top):
        found[key].append(line)
    for key, title in sorted(titles.items()):
        if only and int(key[0]) not in only:
            continue
        print(f"{key}  {len(found[key])}  {title}")
        if "--count" not in words:
            for line in found[key]:
                print("    " + line)


main()
