#!/usr/bin/env python3
"""Brings the definitions and lemmas of this repository to the spelling of today's Rattle.

    tools/respell.py [FOLDER]      (the top of a checkout; this one if none is given)

It is run once, after /opt/rattle/port/port.py, which respells only the names that a library has too. Functions, lemmas, fields and
constructors of specs/ and proofs/ come to snake case (`firstBroken` to `first_broken`, `score-too-many` to `score_too_many`), types and facts
to upper camel case (`One-node` to `OneNode`). What Rattle makes (the names of goals and steps) and what stands in src/ keeps its name.
The names in backticks of README.md and docs/ follow, those of port.py too.
A definition may have the name of the Rust function whose answer it says. Where two names of antt would fall together in a file, it prints them
and writes nothing.
"""
import os
import re
import sys

# Characters that end a name in antt.
TOKEN = re.compile(r"[^\s(){}.,;«»:λ∷⌜⌝`\"]+")
SIGNATURE = re.compile(r"^(?:(?:abbrev|unfoldable|pub)\s+)*([^\s:(){}.,;]+(?: [^\s:(){}.,;]+)*) : (.*)$")
TYPE = re.compile(r"^(?:pub )?(?:record|data|ruleset) ([^\s:(){}]+)")
MEMBER = re.compile(r"^\s+(?:pub )?([^\s:(){}.,;]+) : ")

# Lemmas that would fall together with the function that they speak of, and what they are called instead.
OTHERWISE = {
    "named-at": "named_at_lem",
    "numbered-at": "numbered_at_lem",
    "from-soundness": "from_soundness_lem",
    "line-at": "line_at_lem",
    "wrong-from": "wrong_from_lem",
}

# What port.py turned, for the pages: it turns no page.
PAGES = {"bookOf": "book_of"}


def respelled(name):
    if name in OTHERWISE:
        return OTHERWISE[name]
    if not re.search(r"[A-Za-z]", name) or not re.search(r"-|[a-z][A-Z0-9]?[A-Z]|[a-z][A-Z]", name):
        return name
    if name[0].isupper():
        return "".join(part[:1].upper() + part[1:] for part in name.split("-"))
    snake = re.sub(r"(?<=[a-z0-9])([A-Z])", lambda m: "_" + m.group(1).lower(), name)
    return snake.replace("-", "_")


def antt_files(crate, tops=("specs", "proofs")):
    for top in tops:
        for folder, _, names in os.walk(os.path.join("crates", crate, top)):
            for name in sorted(names):
                if name.endswith(".antt"):
                    yield os.path.join(folder, name)


def sources(crate):
    for folder, _, names in os.walk(os.path.join("crates", crate, "src")):
        for name in sorted(names):
            if name.endswith(".rt"):
                yield os.path.join(folder, name)


def names_of(path, text):
    """The names that a file defines: (definitions, members)."""
    definitions, members = set(), set()
    for line in text.split("\n"):
        if line.startswith(("use ", "--", "#")):
            continue
        found = TYPE.match(line)
        if found:
            definitions.add(found.group(1))
            continue
        found = SIGNATURE.match(line)
        if found and "goal." not in found.group(2):
            definitions.update(word for word in found.group(1).split() if word not in ("record", "data"))
        found = MEMBER.match(line)
        if found:
            members.add(found.group(1))
    return definitions, members


def turned_line(line, names, members, comment, in_use):
    """A line with its names respelled; behind a dot only members, or the parts of a path."""
    code, mark, words = line, "", ""
    place = line.find(comment)
    if place >= 0:
        code, mark, words = line[:place], comment, line[place + len(comment):]

    def of(match):
        word = match.group(0)
        prime = len(word) - len(word.rstrip("'"))
        bare = word[: len(word) - prime] if prime else word
        behind_dot = match.start() > 0 and match.string[match.start() - 1] == "."
        pool = names if (in_use or not behind_dot) else members
        for key, tail in ((word, ""), (bare, "'" * prime)):
            if key in pool and not key.startswith("-"):
                return names[key] + tail
        return word

    code = TOKEN.sub(of, code)
    words = re.sub(r"`[^`]*`", lambda m: TOKEN.sub(of, m.group(0)), words)
    return code + mark + words


def turned(path, text, names, members):
    comment = "//" if path.endswith(".rt") else "--"
    out, in_use = [], False
    for line in text.split("\n"):
        start = line.lstrip()
        if start.startswith(("use ", "ghost use ", "pub use ", "open ")):
            in_use = True
        out.append(turned_line(line, names, members, comment, in_use))
        if in_use and ("}" in line or not line.rstrip().endswith(("{", ","))):
            in_use = False
    return "\n".join(out)


def page(text, names):
    return re.sub(r"`[^`\n]*`", lambda m: TOKEN.sub(lambda w: names.get(w.group(0), w.group(0)), m.group(0)), text)


def main():
    if len(sys.argv) > 1:
        os.chdir(sys.argv[1])
    else:
        os.chdir(os.path.join(os.path.dirname(os.path.abspath(__file__)), ".."))
    crates = sorted(os.listdir("crates"))
    texts, definitions, members = {}, set(), set()
    for crate in crates:
        for path in list(antt_files(crate)) + list(sources(crate)):
            with open(path, encoding="utf-8") as file:
                texts[path] = file.read()
            if path.endswith(".antt"):
                one, other = names_of(path, texts[path])
                definitions |= one
                members |= other
    names = {name: respelled(name) for name in definitions | members}
    names = {old: new for old, new in names.items() if old != new}
    members = {name for name in members if name in names}

    clashes = 0
    for path, text in sorted(texts.items()):
        tokens = set(TOKEN.findall(text))
        for old, new in sorted(names.items()):
            if old in tokens and (new in tokens & definitions or any(names.get(t) == new and t != old for t in tokens)):
                print(f"{path}: {old} falls together with {new}")
                clashes += 1
    if clashes and "--anyway" not in sys.argv:
        sys.exit(f"{clashes} names fall together: nothing is written")

    for path, text in texts.items():
        new = turned(path, text, names, members)
        if new != text:
            with open(path, "w", encoding="utf-8") as file:
                file.write(new)
    for path in ["README.md"] + [os.path.join("docs", name) for name in sorted(os.listdir("docs")) if name.endswith(".md")]:
        with open(path, encoding="utf-8") as file:
            text = file.read()
        new = page(text, {**names, **PAGES})
        if new != text:
            with open(path, "w", encoding="utf-8") as file:
                file.write(new)
    print(f"{len(names)} names respelled")


main()
