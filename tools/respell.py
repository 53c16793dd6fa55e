#!/usr/bin/env python3
"""Brings the repository's own definitions and lemmas to the spelling of today's Rattle, after its port.py: words in snake case.

Run once at the top of a repository that port.py has turned: `python3 tools/respell.py`. It turns each word in lower camel case of the
.antt and .rt files, of the must-fail edits, and of what stands between backticks in README.md and docs/*.md. It leaves strings, and
the library's words.
"""
import glob
import re

# words of the kit's libraries, and a text of an example
KEPT = {"is_IsStore", "uint_Makes", "shr_slice_Tells", "mut_slice_Tells", "walk_Meets", "shr_slice_Lawful", "uint_Tells", "uint_Lawful"}
# lemmas whose name would fall together with the definition that they speak of
LEMMAS = {"found_in": "found_in_lem", "in_order": "in_order_lem"}
CAMEL = re.compile(r"(?<![\w'])([a-z][a-z0-9_']*[A-Z][\w']*)")
STRING = re.compile(r'("(?:[^"\\]|\\.)*")')
RUST_STRING = re.compile(r"""(b?"(?:[^"\\]|\\.)*"|b?'(?:[^'\\\n]|\\.)')""")
BACKTICKS = re.compile(r"(`[^`\n]*`)")


def snake(name):
    return re.sub(r"(?<=[a-z0-9'])([A-Z])(?=[a-z0-9'_]|$)", lambda m: "_" + m.group(1).lower(), name)


def words(text, known=None):
    def turned(match):
        name = match.group(1)
        return name if name in KEPT or (known is not None and name not in known) else snake(name)

    return CAMEL.sub(turned, text).replace("«running_sums»", "running_sums").replace("«cancel_noted»", "cancel_noted")


def outside(pattern, text, turn):
    parts = pattern.split(text)
    return "".join(part if i % 2 else turn(part) for i, part in enumerate(parts))


def inside(pattern, text, turn):
    parts = pattern.split(text)
    return "".join(turn(part) if i % 2 else part for i, part in enumerate(parts))


def lemmas(text):
    for old, new in LEMMAS.items():
        text = re.sub(r"(?<![\w'.-])" + old + r"(?![\w'-])", new, text)
    return text


def files(pattern):
    return sorted(glob.glob(pattern, recursive=True))


def rewrite(path, turn):
    with open(path, encoding="utf-8") as file:
        text = file.read()
    new = turn(text)
    if new != text:
        with open(path, "w", encoding="utf-8") as file:
            file.write(new)


def main():
    antt = files("crates/*/specs/**/*.antt") + files("crates/*/proofs/**/*.antt")
    source = files("crates/*/src/**/*.rt")
    known = set()
    for path in antt + source:
        with open(path, encoding="utf-8") as file:
            known.update(CAMEL.findall(file.read()))
    known -= KEPT
    for path in antt:
        rewrite(path, lambda text: outside(STRING, lemmas(text), words))
    for path in source:
        rewrite(path, lambda text: outside(RUST_STRING, text, words))
    for path in files("crates/*/must-fail/*.edit"):
        rewrite(path, lambda text: outside(STRING, text, lambda part: words(part, known)))
    for path in ["README.md"] + files("docs/*.md"):
        rewrite(path, lambda text: inside(BACKTICKS, text, lambda part: words(part, known)))
    for word in sorted(known):
        print(word, snake(word))


if __name__ == "__main__":
    main()
