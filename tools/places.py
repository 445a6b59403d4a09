#!/usr/bin/env python3
"""Counts, in the sources of a commit, the places that docs/DESIGN-PASS.md speaks of.

    tools/places.py COMMIT [--list]

For each heading of that page it searches crates/*/src/ of the commit for the patterns below, and prints how many lines each finds; with --list the
lines too. The patterns find more than the places: which lines are places, the page says. It also prints the pairs of parameters that three functions
or more take together, the functions of five parameters and more, each requires that stands three times or more, and how many files and lines of
proofs there are.
"""
import collections
import re
import subprocess
import sys

POINTS = {
    "1 enums with a case for nothing or for failure": r"^\s+(Nothing|Wrong|Bad|NotInclude|Withdrawn|Unknown),$",
    "1 a Result or an Option rebuilt or passed on by hand": r"None => (Err\(|None,|false,|return)|Err\(_?[a-z_]*\) => Err\(|Ok\(\(\)\) => Ok\(|Some\([a-z]+\) => Ok\(|if let (Some|Err)\([a-z]+\) = .*\{$",
    "1 numbers for kinds, rules and refusals": r"from_number|fn number\(|\.number\(\)|\[self as usize\]",
    "1 a flag or a number in place of an Option or a bool": r"broken: Option<Rule>|\bline: 0,|line == 0|return 1;|\{ 0 \} else \{ 1 \}|\bbound: bool|let mut [a-z_]+ = false;",
    "2 functions and types that differ in a type, a size or a constant": r"fn (count_(event|node|alias|document|merge_key|bytes|anchor|expansion)|deepen|judge_(depth|bytes|events|aliases)|charge_replayed|weigh|collect_marks|marks_fit|events_fit|numbers_run|aliases_point_back|word_len|gap_len|has_path|has_number|is_withdrawn|put_mark|put_event|same|same_bytes|empty|is_document_start|is_start|from_number|number|standard|standard_limits|wrong_length|wrong_number)\(|struct (OpenContainers|Cut|Field)\b",
    "3 loops over an index, and counters": r"for [a-z_]+ in [^{]*\.\.[^{]*\{|^\s+while |\bloop \{|^\s+[a-z_.]+ \+= 1;$",
    "4 equality by hand": r"fn (is|same|same_bytes|is_plain|is_alias|is_one_of|empty)\(|=> (true|false),$|\bsame\(|[^_.]\bempty\(",
    "4 conversion and printing by hand": r"fn [a-z]+_words\b|fn write_(breach|count|passage)\b|impl fmt::Display|fn (standard|standard_limits)\(|impl(<T: Drop>)? From<",
    "6 arrays in structs": r"^\s+(pub(\(crate\))? )?[a-z_]+: \[.*; [0-9A-Z_]+\],",
    "7 flags that choose a step, and tables": r"[(,] ?[a-z]+: bool|^const [A-Z_]+: \[|\bdyn ",
}


def git(*words):
    return subprocess.run(("git",) + words, capture_output=True, text=True, check=True).stdout


def sources(commit):
    for name in git("ls-tree", "-r", "--name-only", commit, "--", "crates").split("\n"):
        if re.match(r"crates/[^/]+/src/.*\.rt$", name):
            yield name, git("show", commit + ":" + name)


def places(texts, listed):
    for title, pattern in POINTS.items():
        found = [(n, i, l) for n, t in texts for i, l in enumerate(t.split("\n"), 1) if re.search(pattern, l) and not l.strip().startswith("//")]
        print(f"{len(found):4}  {title}")
        if listed:
            for name, number, line in found:
                print(f"        {name}:{number}: {line.strip()}")


def parameters(texts, listed):
    pairs = collections.defaultdict(list)
    many = []
    for name, text in texts:
        for m in re.finditer(r"\bfn ([a-z_0-9]+)(?:<[^(]*>)?\(([^)]*(?:\([^)]*\)[^)]*)*)\)", text):
            words = [re.sub(r"\s+", " ", p.strip()) for p in re.split(r",(?![^<\[(]*[>\])])", m.group(2)) if p.strip()]
            words = [re.sub(r"'[a-z]+ |<'_>", "", p) for p in words if not p.endswith("self")]
            words = [re.sub(r"^mut ", "", p) for p in words]
            if len(words) >= 5:
                many.append(f"{name}: {m.group(1)}, {len(words)}")
            for i, p in enumerate(words):
                for q in words[i + 1:]:
                    pairs[(p, q)].append(f"{name}: {m.group(1)}")
    thrice = {k: v for k, v in pairs.items() if len(v) >= 3}
    print(f"{len(thrice):4}  5 pairs of parameters in three functions or more")
    if listed:
        for (p, q), v in sorted(thrice.items(), key=lambda x: -len(x[1])):
            print(f"        {len(v)}: {p}, {q}")
    print(f"{len(many):4}  5 functions of five parameters or more")
    if listed:
        for line in many:
            print("        " + line)
    clauses = collections.Counter(
        re.sub(r"^requires ([a-z_]+ )?", "", l.strip()) for _, t in texts for l in t.split("\n") if l.strip().startswith("requires")
    )
    repeated = {k: v for k, v in clauses.items() if v >= 3}
    print(f"{len(repeated):4}  5 a requires that stands three times or more")
    if listed:
        for k, v in repeated.items():
            print(f"        {v}: {k}")


def proofs(commit):
    names = [n for n in git("ls-tree", "-r", "--name-only", commit, "--", "crates").split("\n") if re.match(r"crates/[^/]+/proofs/.*\.antt$", n)]
    lines = sum(git("show", commit + ":" + n).count("\n") for n in names)
    answers = sum(n.endswith("/Answers.antt") for n in names)
    print(f"{len(names):4}  8 files of proofs, {answers} of them answers; {lines} lines")


def main():
    commit = sys.argv[1]
    listed = "--list" in sys.argv[2:]
    texts = list(sources(commit))
    places(texts, listed)
    parameters(texts, listed)
    proofs(commit)


main()
