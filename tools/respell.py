#!/usr/bin/env python3
"""Respells the repository's own definitions and lemmas: words are joined by `_`, and facts are in upper camel case.

Run once, at the top, after the toolchain's own script. A name is one of ours where specs/ or proofs/ declares it: as a definition, a
lemma, a constructor or a field. Names that the toolchain makes (of goals, steps and arms) are declared nowhere and stay as they are.
It prints each renaming, and stops before it writes where two names would fall together.
"""
import glob
import re
import sys

NAME = r"[^\s:{}()\[\],;.\"]+"
TOKEN = re.compile(r"(?<![^\s:{}()\[\],;.\"\\←])" + r"(" + NAME + r")")


def files():
    for kind in ("specs", "proofs", "src"):
        for path in sorted(glob.glob(f"crates/*/{kind}/**/*", recursive=True)):
            if path.endswith((".antt", ".rt")):
                yield path


def declared(path, text):
    """The names with a dash that a file declares, each with whether it is a field."""
    goals = path.endswith(("/Answers.antt", "/Invariants.antt", "/Proof.antt"))
    for line in text.split("\n"):
        top = re.match(r"^(?:(?:abbrev|unfoldable|pub|record|data|ruleset) )*(" + NAME + r")\s*(?:[({].*)?:(?!:)\s*(.*)", line)
        if top and "-" in top.group(1) and not top.group(1).startswith("--"):
            if not (goals and top.group(2).startswith("goal.")):
                yield top.group(1), False
        field = re.match(r"^\s+(?:pub )?(" + NAME + r") :(?!:)", line)
        if field and "-" in field.group(1) and not field.group(1).startswith("--"):
            yield field.group(1), True


def respelled(name):
    words = name.split("-")
    if name[0].isupper():
        return "".join(word[0].upper() + word[1:] for word in words)
    return "_".join(words)


def main():
    texts = {path: open(path, encoding="utf-8").read() for path in files()}
    renamed, fields = {}, set()
    for path, text in texts.items():
        if path.endswith(".antt"):
            for name, field in declared(path, text):
                renamed[name] = respelled(name)
                if field:
                    fields.add(name)
    present = set()
    for path, text in texts.items():
        if path.endswith(".antt"):
            present.update(TOKEN.findall(text))
    clashes = {old: new for old, new in renamed.items() if new in present}
    again = [new for new in renamed.values() if list(renamed.values()).count(new) > 1]
    if clashes or again:
        sys.exit(f"these names would fall together: {clashes} {again}")

    def turned(text):
        def one(match):
            name = match.group(1)
            if name not in renamed:
                return name
            before = text[: match.start()]
            owner = re.search(r"([\w'·]+)\.$", before)
            if owner and not (owner.group(1)[0].isupper() or name in fields):
                return name
            return renamed[name]

        return TOKEN.sub(one, text)

    for path, text in texts.items():
        new = turned(text)
        if new != text:
            open(path, "w", encoding="utf-8").write(new)
    for old in sorted(renamed):
        print(old, renamed[old])


if __name__ == "__main__":
    main()
