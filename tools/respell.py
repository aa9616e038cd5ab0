#!/usr/bin/env python3
"""Turns the repository's own definitions, lemmas and names of values to the spelling of today's Rattle: words in snake
case. usage: respell.py   (at the top of the repository, after port.py; all .rt and .antt of crates/)
Two kinds of name are respelled:
- A word that begins with a small letter and goes on in camel case, wherever it stands, in a comment and as a part of a
  longer name too (putAt-comm, put_at-comm).
- What a file of specs/ declares with a dash in its name (best-effort, best_effort), where it stands as a whole name, and
  not in a comment, where such a word is English, nor in a file of proofs/ that declares its new spelling too. In the name of a
  lemma a dash joins two names, and stays.
Names of the kit's libraries, and text in quotes, stay. Says which two names of one file fall together."""
import os
import re

# Names that would fall together with another one where both stand.
APART = {
    "firstFits": "is_first_fitting",
    "goesOn": "is_going_on",
    "byRank": "grant_of_rank",
    "getD": "get_or",
    "best-effort": "when_best_effort",
}
# The kit's own names of this form have a `_`.
CAMEL = re.compile(r"(?<![\w'\"])[a-z][a-z0-9]*(?:[A-Z][a-z0-9]*)+'?(?![\w'\"])")
NAME = r"[^\s(){}\[\];,.«»\"\\λ:=]+"
DECLARED = re.compile(r"(?m)^ *(?:(?:abbrev|unfoldable|pub) )*((?:%s )+): " % NAME)


def snake(name):
    return APART.get(name) or re.sub(r"[A-Z]", lambda m: "_" + m[0].lower(), name).replace("-", "_")


def files():
    for folder, dirs, names in os.walk("crates"):
        dirs[:] = sorted(d for d in dirs if d != "out")
        yield from (os.path.join(folder, n) for n in sorted(names) if n.endswith((".rt", ".antt")))


def read(path):
    with open(path, encoding="utf-8") as f:
        return f.read()


def dashed():
    """The names with a dash that files of specs/ declare."""
    out = set()
    for path in files():
        if "/specs/" in path:
            for m in DECLARED.finditer(re.sub(r"--.*", "", read(path))):
                out.update(n for n in m[1].split() if re.match(r"[a-z][^-]*-", n))
    return out


def respelled(text, path, names):
    quoted = r'"(?:[^"\\\n]|\\.)*"|' if path.endswith(".rt") else ""
    comment = r"//[^\n]*|" if path.endswith(".rt") else r"--[^\n]*|"
    whole = re.compile(quoted + comment + NAME)
    text = whole.sub(lambda m: snake(m[0]) if m[0] in names else m[0], text)
    parts = re.split(f"({quoted[:-1]})", text) if quoted else [text]
    return "".join(p if k % 2 else CAMEL.sub(lambda m: snake(m[0]), p) for k, p in enumerate(parts))


def fall_together(text, names):
    found = set(re.findall(NAME, re.sub(r"(--|//).*", "", text)))
    return sorted(n for n in found if (n in names or CAMEL.fullmatch(n)) and snake(n) in found)


def main():
    names = dashed()
    for path in files():
        old = read(path)
        for name in fall_together(old, names):
            print(f"{path}: {name} falls together with {snake(name)}")
        here = set(n for m in DECLARED.finditer(old) for n in m[1].split())
        new = respelled(old, path, {n for n in names if "/specs/" in path or n not in here or snake(n) not in here})
        if new != old:
            with open(path, "w", encoding="utf-8") as f:
                f.write(new)


main()
