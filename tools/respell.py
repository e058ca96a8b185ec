#!/usr/bin/env python3
"""Respells the definitions, lemmas and fields of this repository, and renames two crates, after /opt/rattle/port/port.py.

usage: python3 tools/respell.py [TABLE] in the top folder of the repository

TABLE (tools/respell.tsv) has lines `OLD<tab>NEW`; a line `.OLD<tab>NEW` is a field, which is respelt behind a dot too; a line `crate OLD<tab>NEW`
renames a crate. Words in strings, functions of src/ and the names that the check makes (behind a dot, or of goals) stay as they are.
"""

import os
import re
import subprocess
import sys

WORD = re.compile(r"(?P<dot>\.?)(?<![\w'≢·-])(?P<word>[^\W\d](?:[\w'≢-]*[\w'])?)")
LIBRARY = re.compile(r"use Rattle\.std\.[\w.'-]*\.\{([^}]*)\}")
STRING = re.compile(r'"(?:[^"\\]|\\.)*"')


def table(path):
    words, fields, crates = {}, {}, {}
    for line in open(path, encoding="utf-8"):
        line = line.rstrip("\n")
        if not line or line.startswith("#"):
            continue
        old, new = line.split("\t")
        if old.startswith("crate "):
            crates[old[6:]] = new
        elif old.startswith("."):
            fields[old[1:]] = new
        else:
            words[old] = new
    return words, fields, crates


def respell(text, words, fields):
    # what a file takes from std keeps std's spelling
    of_std = {w for it in LIBRARY.findall(text) for w in re.split(r"[\s,]+", it)}

    def one(m):
        w = m.group("word")
        if w in of_std:
            return m.group(0)
        if m.group("dot"):
            return m.group("dot") + fields.get(w, w)
        return fields.get(w, words.get(w, w))

    def part(text):
        return WORD.sub(one, text)

    out, at = [], 0
    for m in STRING.finditer(text):
        out += [part(text[at : m.start()]), m.group(0)]
        at = m.end()
    return "".join(out) + part(text[at:])


def rename_crates(text, crates):
    for old, new in crates.items():
        text = re.sub(rf"\bRattle\.{old}\.", f"Rattle.{new}.", text)
        text = re.sub(rf"(?<![\w.:]){old}::", f"{new}::", text)
    return text


def rename_lists(text, crates):
    """crates.txt and the `# deps:` lines of refused programs."""
    for old, new in crates.items():
        text = re.sub(rf"(?m)^{old}(?=[ :])", new, text)
        text = re.sub(rf"(?m)(?<=[: ]){old}(?=\s|$)", new, text)
    return text


def rewrite(path, turn):
    with open(path, encoding="utf-8") as f:
        old = f.read()
    new = turn(old)
    if new != old:
        with open(path, "w", encoding="utf-8") as f:
            f.write(new)


def under(folder, ends):
    for top, dirs, files in os.walk(folder):
        dirs[:] = sorted(d for d in dirs if d != "out")
        yield from (os.path.join(top, f) for f in sorted(files) if f.endswith(ends))


def main(argv):
    here = os.path.dirname(os.path.realpath(__file__))
    words, fields, crates = table(argv[0] if argv else os.path.join(here, "respell.tsv"))
    for path in under("crates", (".antt", ".rt")):
        rewrite(path, lambda t: rename_crates(respell(t, words, fields), crates))
    for path in list(under("crates", (".edit",))) + list(under("refused", (".case",))):
        rewrite(path, lambda t: rename_crates(t, crates))
    for path in under("refused", (".case",)):
        rewrite(path, lambda t: re.sub(r"(?m)^# deps:.*$", lambda m: rename_lists(m.group(0), crates), t))
    rewrite("crates.txt", lambda t: "".join(l if l.startswith("#") else rename_lists(l, crates) for l in t.splitlines(keepends=True)))
    for old, new in crates.items():
        if os.path.isdir(f"crates/{old}"):
            os.rename(f"crates/{old}", f"crates/{new}")
    # imports stand in the order of their names
    for crate in sorted(os.listdir("crates")):
        if os.path.isdir(f"crates/{crate}/src"):
            subprocess.run(["rt", "fmt"], cwd=f"crates/{crate}", stdout=subprocess.DEVNULL, check=False)


if __name__ == "__main__":
    main(sys.argv[1:])
