#!/usr/bin/env python3
"""Respells the names that specs/ and proofs/ declare: words in snake case, a dash only between two names.

usage: python3 tools/respell.py        at the top, once, after port.py

A name in camel case becomes snake case. A dash stays where it joins two declared or imported names, and is `_` elsewhere.
A lemma whose name is then a word's gets `_lem`. Names of src/, types, modules and strings stay.
It prints the pairs, and writes nothing where two names would fall together.
"""

import glob
import os
import re
import sys

W = r'[^\s(){}.;,@"«»\[\]\\]+'
TOKEN = re.compile(r"--[^\n]*|\"(?:[^\"\\\n]|\\.)*\"|" + W)
DECLARED = re.compile(r"(?m)^ *(?:abbrev |unfoldable |pub )*(%s) :(?= |\n)(.*)" % W)
IMPORTED = re.compile(r"(?m)^use ([^\s{]+)\.\{([^}]*)\}")
RECORD = re.compile(r"(?ms)^ *(?:pub )?record .*?(?=\n\n|\Z)")
WORDS = ("use", "infixl", "infixr", "infix")
CAMEL = re.compile(r"(?<![\w\".])[a-z]\w*[A-Z]\w*")


def read(path):
    with open(path, encoding="utf-8") as it:
        return it.read()


def own_path(path):
    return path.startswith("Rattle.") and os.path.isdir("crates/" + path.split(".")[1])


def bare(text):
    return re.sub(r"--[^\n]*", "", text)


def snake(name):
    parts = re.sub(r"(?<=[a-z0-9])(?=[A-Z])", "_", name)
    return re.sub(r"(?<=_)[A-Z]", lambda it: it[0].lower(), parts)


def declared(texts):
    """The names that the files declare, but for the answers to what the check asks."""
    out = set()
    for text in texts.values():
        for name, kind in DECLARED.findall(bare(text)):
            answers = re.match(r" ?\S*tie\.", kind) or name.endswith("-spec")
            if name not in WORDS and not answers and not name[0].isupper():
                out.add(name)
    return out


def fields(texts):
    """The fields of the records."""
    records = (it for text in texts.values() for it in RECORD.findall(bare(text)))
    return {name for text in records for name, _ in DECLARED.findall(text)}


def known(texts, own):
    """The words that a dash may join: declared and imported names that have no dash themselves."""
    out = {snake(name) for name in own if "-" not in name}
    for text in texts.values():
        for _, names in IMPORTED.findall(text):
            out.update(it.split(" as ")[0].strip() for it in names.split(","))
        out.update(re.findall(r"(?m)^ *(?:pub )?(?:data|record) (%s)" % W, text))
    return {it for it in out if "-" not in it}


def bound(texts):
    """What the files bind."""
    out = set()
    for text in map(bare, texts.values()):
        out.update(re.findall(r"\blet (%s)" % W, text))
        for names in re.findall(r"λ ([^.]*)\.", text) + re.findall(r"[({]([^(){}:]*) : ", text):
            out.update(re.findall(W, names))
    return out


def joined(name, words):
    """The parts of a dashed name joined anew: the longest runs that are words, a dash between two words."""
    parts, runs, at = [snake(it) for it in name.split("-")], [], 0
    while at < len(parts):
        ends = (it for it in range(len(parts), at, -1) if "_".join(parts[at:it]) in words)
        end = next(ends, at + 1)
        run = "_".join(parts[at:end])
        runs.append((run, run in words or not re.search(r"[A-Za-z]", run)))
        at = end
    out = runs[0][0]
    for (_, left), (run, right) in zip(runs, runs[1:]):
        out += ("-" if left and right else "_") + run
    return out


def table(texts):
    own = declared(texts)
    words, locals_ = known(texts, own), bound(texts)
    defined = {name: snake(name) for name in own if "-" not in name and snake(name) != name}
    taken = set(defined.values()) | {name for name in own if "-" not in name}
    out = dict(defined)
    for name in sorted(own - set(defined)):
        new = joined(name, words) if "-" in name else name
        if new in (taken if new != name else defined.values()):
            new += "_lem"
        if new != name:
            out[name] = new
    for name, new in sorted(out.items()):
        if new in locals_ or new in own - set(out):
            sys.exit(f"{name}: {new} stands already")
    if len(set(out.values())) < len(out):
        sys.exit("two names fall together")
    return out


def respelled(text, names, of_records):
    aliases = set(re.findall(r"(?m)^use \S+ as (\S+)", text))
    not_ours = {it for path, list_ in IMPORTED.findall(text) if not own_path(path) for it in re.findall(W, list_)}

    def one(it):
        if it[0].startswith('"'):
            return it[0]
        if it[0].startswith("--"):
            return in_prose(it[0], names)
        behind = re.search(r"(%s)\.\Z" % W, text[max(0, it.start() - 60) : it.start()])
        if it[0] in not_ours:
            return it[0]
        dotted = it.start() and text[it.start() - 1] == "."
        if dotted and it[0] not in of_records and not (behind and behind[1] in aliases):
            return it[0]
        return names.get(it[0], it[0])

    return TOKEN.sub(one, text)


def in_prose(text, names):
    """In comments and pages: words in camel case, and a whole name between back ticks."""
    text = CAMEL.sub(lambda it: names.get(it[0], it[0]), text)
    return re.sub(r"(?<=`)[^`\s]+(?=`)", lambda it: names.get(it[0], it[0]), text)


def in_source(text, names):
    """In src/ and its edits, a word with a capital inside is of a clause or of an import of specs/."""
    return re.sub(r"(?<![\w\"])[a-z]\w*[A-Z]\w*", lambda it: names.get(it[0], it[0]), text)


def main():
    below = lambda end: sorted(it for it in glob.glob("crates/**/*" + end, recursive=True) if "/out/" not in it)
    texts = {it: read(it) for it in below(".antt")}
    names, of_records = table(texts), fields(texts)
    out = {path: respelled(text, names, of_records) for path, text in texts.items()}
    for path in below(".edit"):
        text = read(path)
        is_spec = re.search(r"(?m)^file: .*\.antt", text)
        out[path] = respelled(text, names, of_records) if is_spec else in_source(text, names)
    for path in below(".rt"):
        out[path] = in_source(read(path), names)
    for path in ["README.md"] + sorted(glob.glob("docs/**/*.md", recursive=True)):
        out[path] = in_prose(read(path), names)
    for path, text in out.items():
        if text != read(path):
            with open(path, "w", encoding="utf-8") as it:
                it.write(text)
    for old, new in sorted(names.items()):
        print(f"{old} -> {new}")


if __name__ == "__main__":
    main()
