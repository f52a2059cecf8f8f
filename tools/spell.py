#!/usr/bin/env python3
"""Spells this repository's own definitions and lemmas in snake case: twosComplement becomes twos_complement, only-the-leak only_the_leak.

usage: python3 tools/spell.py [FOLDER]     once, right after port.py, at the top of the repository (or of FOLDER)

What turns: each name that a file of specs/, or a file of proofs/ that is no function's own, declares with a hump, a dash or a prime in it, wherever it stands: in
specs/ and proofs/, in the clauses of src/, in must-fail edits, and in the code spans of comments, README.md and docs/. Types, facts and modules keep their capitals.
Names from src/ keep theirs. A name whose new spelling another name of the repository or an import of one of its files has already stops the run, and nothing is written.
"""

import os
import re
import sys

TOP = sys.argv[1] if len(sys.argv) > 1 else "."
WORD = r"[^\s(){}\[\];,.:@\"`«»|]+"
SIGNATURE = re.compile(rf"(?m)^(?:(?:pub|abbrev|unfoldable) )*({WORD}) :")
KIND = re.compile(rf"(?m)^(?:pub )?(?:record|data|ruleset) ({WORD})")
PART = re.compile(rf"(?m)^ +(?:pub )?({WORD}) :(?= )")
COMMENT = re.compile(r"(?m)(?:(?<=\s)|^)(?:--|//)(?= |$|-|/).*$")
SPAN = re.compile(r"`[^`\n]*`")
# Definitions that a field or a local name of the new spelling would hide, and what they are called instead.
APART = {"heldBy": "held_by_branch", "atZero": "at_zero_of", "moreBy": "more_by_branch"}


def below(top, endings):
    for folder, folders, files in os.walk(os.path.join(TOP, top)):
        folders[:] = sorted(f for f in folders if f not in ("out", "target", ".git"))
        for name in sorted(files):
            if name.endswith(endings):
                yield os.path.join(folder, name)


def text_of(path):
    with open(path, encoding="utf-8") as file:
        return file.read()


def snake(name):
    """The name in snake case. A type's or a fact's name keeps its first capital, and so does such a part of a lemma's name."""
    turned = []
    for part in name.replace("\u2032", "'").split("-"):
        if not part[:1].isupper():
            part = re.sub(r"(?<=[a-z0-9])([A-Z])", lambda m: "_" + m[1].lower(), part)
        turned.append(part)
    return "_".join(turned)


def is_functions(path):
    return os.path.basename(path) in ("Proof.antt", "Answers.antt", "Invariants.antt", "Choices.antt")


def main():
    antt = list(below("crates", ".antt"))
    declared = set()
    for path in antt:
        if not is_functions(path):
            text = COMMENT.sub("", text_of(path))
            for form in (SIGNATURE, KIND, PART):
                declared.update(form.findall(text))
    turning = sorted(name for name in declared if re.match(r"[^\W\d]", name) and "\u25cc" not in name)
    table = {name: APART.get(name, snake(name)) for name in turning}
    humped = {table[name] for name in turning if "-" not in name}
    for name in turning:
        # A lemma that would have the name of what it speaks of says that it is one.
        if "-" in name and table[name] in humped:
            table[name] += "_lem"
    table = {name: new for name, new in table.items() if name != new}
    news = {new: name for name, new in table.items()}
    clash = len(news) < len(table)
    if clash:
        print("spell: two names fall together")
    pattern = re.compile(rf"(?<![^\s(){{}}\[\];,.:@\"`«»|]){WORD}")

    def turned(text):
        return pattern.sub(lambda m: table.get(m[0], m[0]), text)

    def in_code(text):
        """Turns all but comments, and of these the code spans."""
        out, at = [], 0
        for found in COMMENT.finditer(text):
            out.append(turned(text[at : found.start()]))
            out.append(in_spans(found[0]))
            at = found.end()
        return "".join(out) + turned(text[at:])

    def in_spans(text):
        return SPAN.sub(lambda m: turned(m[0]), text)

    changed = {}
    for path in antt + list(below("crates", ".rt")):
        text = text_of(path)
        words = set(pattern.findall(COMMENT.sub("", text)))
        # What a Rust function or a struct's field is called is no name of a proof.
        for new in words & set(news) if path.endswith(".antt") and not is_functions(path) else ():
            if news[new] in words and not re.search(rf"[.]{new}|pub {news[new]} :", text):
                print(f"spell: {path}: {news[new]} would be {new}, which another name is")
                clash = True
        changed[path] = in_code(text)
    for path in below("crates", ".edit"):
        changed[path] = turned(text_of(path))
    for path in [os.path.join(TOP, "README.md"), *below("docs", ".md"), *below("bench", ".md")]:
        changed[path] = in_spans(text_of(path))
    if clash:
        return 1
    for path, text in changed.items():
        if text != text_of(path):
            with open(path, "w", encoding="utf-8") as file:
                file.write(text)
    print(f"spell: {len(table)} names")
    return 0


sys.exit(main())
