#!/usr/bin/env python3
"""Spells this repository's own definitions, lemmas and modules as today's libraries are spelled: run by respell.py.

Definitions, fields and lemmas in snake case, modules in camel case. A dash stays where it joins the names of two
functions, as in `length-put`. A lemma that would get its function's name, or a name that stands in one of its files, gets `_lem`.
Names of functions and variables of src/ stay, and so does what Rattle names in a function's proof.
"""

import collections
import os
import re
import sys

WORD = re.compile(r'[^\s(){}.;,@"«»]+')
FREE = re.compile(r'(?<![^\s(){};,@"«»])[^\s(){}.;,@"«»]+')
DECLARED = re.compile(r"^( *)((?:pub |abbrev |unfoldable )*)([^\s(){}.;,@\"«»:]+)(?: \{[^{}\n]*\})* :(?= )(.*)", re.M)
FIELDS = re.compile(r"^pub record [^\n]*where\n((?:  [^\n]*\n|\n(?=  ))+)", re.M)
CODE = re.compile(r'--[^\n]*|"[^"\n]*"')
STD = "length take drop get_or set map append replicate put".split()
# A field that would hide a definition.
OWN = {"is_up": "stands_up"}
# The folders of modules.
FOLDERS = "console ending histories invariant line lists restart steps theorem ticks trimming undamaged versions".split()


def texts(top):
    for folder, dirs, files in os.walk(os.path.join(top, "crates")):
        dirs[:] = sorted(d for d in dirs if d != "out")
        for f in sorted(files):
            if f.endswith((".rt", ".antt")):
                yield os.path.join(folder, f)


def read(path):
    with open(path, encoding="utf-8") as f:
        return f.read()


def is_walk(path):
    return os.path.basename(path) in ("Proof.antt", "Answers.antt", "Invariants.antt")


def snake(name):
    return re.sub(r"(?<=[a-z0-9₀-₉'])[A-Z]", lambda m: "_" + m[0].lower(), name)


class Names:
    def __init__(self, top):
        self.files = {p: read(p) for p in texts(top)}
        self.declared, self.fields, self.functions, self.given = set(), set(), set(STD), set()
        for path, text in self.files.items():
            if not path.endswith(".antt"):
                continue
            bare = CODE.sub(" ", text)
            for m in DECLARED.finditer(bare):
                name, kind = m[3], m[4]
                if is_walk(path) and (re.match(r" *(tie|goal)\.", kind) or re.search(r"-spec$", name)):
                    continue
                if re.match(r"[a-z]", name):
                    self.declared.add(name)
                if "/specs/" in path and re.search("abbrev|unfoldable", m[2]):
                    self.functions.add(snake(name))
                    self.given.add(name)
            for m in FIELDS.finditer(bare):
                self.fields.update(re.findall(r"^  pub ([^\s:]+) :", m[1], re.M))
        self.words = {p: set(FREE.findall(CODE.sub(" ", t))) for p, t in self.files.items() if p.endswith(".antt")}
        self.table = dict(OWN)
        for name in sorted(self.declared):
            new = self.spelled(name)
            if new != name:
                self.table[name] = new
        self.part()

    def spelled(self, name):
        parts = [snake(p) for p in name.split("-")]
        if not all(parts) or not re.fullmatch(r"[\w'-]+", name):
            return name
        for i in range(1, len(parts)):
            left, right = "_".join(parts[:i]), "_".join(parts[i:])
            if left in self.functions and right in self.functions and name not in self.fields:
                return f"{left}-{right}"
        return "_".join(parts)

    def part(self):
        """Names that would fall together in some file."""
        for _ in range(3):
            by_new = collections.defaultdict(set)
            for old, new in self.table.items():
                by_new[new].add(old)
            clash = set()
            for words in self.words.values():
                for old in words & self.table.keys():
                    new = self.table[old]
                    if (new in words and new not in self.table) or len(by_new[new] & words) > 1:
                        clash.add(old)
            # Of names that fall together the lemma moves.
            moves = {n for n in clash if "-" in n}
            for old in sorted(clash - moves):
                new = self.table[old]
                if any("-" in o for o in by_new[new]):
                    continue
                moves.add(old if new in self.given or new in self.fields else new)
            for old in sorted(moves):
                self.table[old] = self.table.get(old, old) + ("_lem" if not re.search("[A-Z]", old) else "_of")
                print(f"apart: {old} {self.table[old]}")
            if not clash:
                return


def turned(names, path, text):
    """A file's text with the names of the table, and its modules' folders, spelled anew."""
    antt = path.endswith(".antt")
    have = names.words.get(path, set())
    heads = set(re.findall(r" as ([\w'-]+)\s*$", text, re.M)) - {"tie", "goal"}

    def word(m):
        name = m[0]
        if name not in names.table:
            return name
        before = text[: m.start()]
        if before.endswith("."):
            head = re.search(r'([^\s(){}.;,@"«»]*)\.$', before)[1]
            qualified = head[:1].isupper() or head in heads
            if name not in names.fields and not qualified:
                return name
        return names.table[name]

    def piece(start, stop, kind):
        part = text[start:stop]
        if kind == "string":
            return part
        out, last = [], start
        for m in WORD.finditer(text, start, stop):
            new = word(m)
            if kind == "comment" and new != m[0]:
                plain = re.search("[A-Z]", m[0]) or m[0] in have
                new = new if plain else m[0]
            if not antt and "-" in m[0]:
                new = m[0]
            out += [text[last : m.start()], new]
            last = m.end()
        return "".join(out + [text[last:stop]])

    marks = re.compile(r'--[^\n]*|"[^"\n]*"' if antt else r'//[^\n]*|b?"[^"\n]*"')
    out, last = [], 0
    for m in marks.finditer(text):
        out.append(piece(last, m.start(), "code"))
        out.append(piece(m.start(), m.end(), "string" if m[0].endswith('"') and not m[0].startswith(("--", "//")) else "comment"))
        last = m.end()
    out.append(piece(last, len(text), "code"))
    text = "".join(out)
    for it in FOLDERS:
        text = re.sub(rf"(?<=Rattle\.rules\.proofs\.){it}(?=[.\s])", it.capitalize(), text)
        if "/rules/proofs/" in path:
            text = re.sub(rf"(?m)^((?:pub )?mod ){it}$", rf"\g<1>{it.capitalize()}", text)
    return text


def main(top):
    names = Names(top)
    for path, text in names.files.items():
        new = turned(names, path, text)
        if new != text:
            with open(path, "w", encoding="utf-8") as f:
                f.write(new)
    proofs = os.path.join(top, "crates/rules/proofs")
    for it in FOLDERS:
        for end in ("", ".antt"):
            os.rename(os.path.join(proofs, it + end), os.path.join(proofs, it.capitalize() + end))
    with open(os.path.join(top, "tools/renamed.tsv"), "w", encoding="utf-8") as f:
        for old, new in sorted(names.table.items()):
            f.write(f"{old}\t{new}\n")
    print(f"{len(names.table)} names")


if __name__ == "__main__":
    main(sys.argv[1] if len(sys.argv) > 1 else os.getcwd())
