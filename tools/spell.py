#!/usr/bin/env python3
"""Brings this repository's own names to one spelling: definitions, lemmas, fields and variables of antt in snake case; types and modules stay in upper camel case.

usage: spell.py [FOLDER]

It was run once, at the top, after the kit's port.py. It reads the declarations of specs/ and proofs/, and turns their names there, in the clauses of src/,
in must-fail/*.edit, and in the code spans of documents and comments. `dayOf` becomes `day_of`, `sum-same` `sum_same`. Where a lemma would get the name of
a definition it ends in _lem; CLASHES has the others. A name that a file takes from a library of the kit stays as it is there.
Functions of src/, exported names, strings, inputs and outputs keep their names. MODULES are files of specs/ whose name Rattle needs for its own.
"""

import collections
import glob
import os
import re
import sys

WORD = re.compile(r'[^\s(){}.;,@"«»]+')
NAME = re.compile(r"^[a-z][A-Za-z0-9'′-]*$")
SPAN = re.compile(r"`[^`\n]+`")
COMMENT = re.compile(r"(?<![^\s(){}.;,])--[^\n]*")
CLASHES = {"in-time": "within_time"}
# Lemmas that port.py put in snake case already, where a definition gets that name.
TURNED = {"no_call": "no_call_lem", "written_back": "written_back_lem"}
MODULES = {"Contracts": "Promises"}


def snake(name):
    return re.sub("[A-Z]+", lambda m: "_" + m[0].lower(), name).replace("-", "_").replace("′", "'")


def is_own(name):
    return bool(NAME.match(name)) and bool(re.search("[A-Z′-]", name))


def code_of(text):
    """The text without its comments and without its import lines."""
    return re.sub(r"^(pub )?use .*$", "", COMMENT.sub("", text), flags=re.M)


def imported(text, crates):
    """The names that a file takes from a library of the kit."""
    names = set()
    for path, items in re.findall(r"^(?:pub |ghost )?use ([^\s{;]+?)\.?\{([^}]*)\}", text, re.M):
        if not re.match(r"Rattle\.(%s)\." % "|".join(crates), path):
            names.update(item.split(" as ")[-1].strip() for item in items.split(","))
    return names


def declared(code):
    """The names that code declares: by a signature, a field, a binder, a λ or a let."""
    found = set()
    for words in re.findall(r'(?:^|[({\s])((?:[^\s(){}.;,@"«»:]+\s+)+)(?:\{[^}]*\}\s*)?:\s', code):
        found.update(words.split())
    for words in re.findall(r"λ ((?:[^\s(){}.;,]+\s*)+)\.", code):
        found.update(words.split())
    found.update(re.findall(r"let (\S+)", code))
    found.update(re.findall(r" as ([a-z]\S*)$", code, re.M))
    return {name for name in found if is_own(name)}


class Speller:
    def __init__(self, top):
        self.top = top
        self.crates = sorted(os.listdir(os.path.join(top, "crates")))
        antt = self.files("crates/*/specs/**/*.antt") + self.files("crates/*/proofs/**/*.antt")
        self.antt = antt
        whole = [f for f in antt if not f.endswith("/Proof.antt")]
        own, words = set(), collections.Counter()
        for f in whole:
            text = open(f).read()
            own |= declared(code_of(text))
            own |= {n for n in re.findall(r"^use \S+ as (\S+)$", text, re.M) if is_own(n)}
            words.update(WORD.findall(code_of(text)))
        self.table = {}
        for name in sorted(own):
            new = snake(name)
            others = [other for other in own if other != name and snake(other) == new]
            if "-" in name and (others or new in words):
                new = CLASHES.get(name, new + "_lem")
            self.table[name] = new
        self.table.update(TURNED)
        by_new = collections.defaultdict(set)
        for name, new in self.table.items():
            by_new[new].add(name)
        for new, names in sorted(by_new.items()):
            if len(names) > 1 or new in words and new not in TURNED:
                print("falls together:", new, sorted(names), "also there" if new in words else "")

    def files(self, pattern):
        return sorted(glob.glob(os.path.join(self.top, pattern), recursive=True))

    def turn_code(self, code, kept, is_proof=False):
        def one(m):
            word = m[0]
            new = self.table.get(word)
            if new is None or word in kept:
                return word
            behind = m.start() > 0 and code[m.start() - 1] == "."
            if is_proof and behind and new.endswith("_lem"):
                return snake(word)
            return new
        return WORD.sub(one, code)

    def turn_spans(self, text, kept=frozenset()):
        return SPAN.sub(lambda m: self.turn_code(m[0].replace("`", " ` "), kept).replace(" ` ", "`"), text)

    def turn_antt(self, path):
        text = open(path).read()
        kept = imported(text, self.crates)
        is_proof = path.endswith("/Proof.antt")
        out, last = [], 0
        for m in COMMENT.finditer(text):
            out += [self.turn_code(text[last:m.start()], kept, is_proof), self.turn_spans(m[0], kept)]
            last = m.end()
        out.append(self.turn_code(text[last:], kept, is_proof))
        self.write(path, text, "".join(out))

    def turn_rt(self, path):
        text = open(path).read()
        kept = imported(text, self.crates)
        lines = []
        for line in text.split("\n"):
            at = line.find("//")
            code, comment = (line, "") if at < 0 else (line[:at], line[at:])
            lines.append(self.turn_code(code, kept | set(TURNED)) + self.turn_spans(comment, kept))
        self.write(path, text, "\n".join(lines))

    def turn_edit(self, path):
        text = open(path).read()
        lines = []
        for line in text.split("\n"):
            lines.append(self.turn_spans(line) if line.startswith("#") else self.turn_code(line, frozenset(TURNED)))
        self.write(path, text, "\n".join(lines))

    def turn_page(self, path):
        text = open(path).read()
        self.write(path, text, self.turn_spans(text))

    def write(self, path, old, new):
        for before, after in MODULES.items():
            new = re.sub(r"(specs[./])%s\b" % before, r"\g<1>%s" % after, new)
            if path.endswith("specs/Lib.antt"):
                new = re.sub(r"(?m)^pub mod %s$" % before, "pub mod %s" % after, new)
        if new != old:
            with open(path, "w") as f:
                f.write(new)

    def run(self):
        for path in self.antt:
            self.turn_antt(path)
        for path in self.files("crates/*/src/**/*.rt"):
            self.turn_rt(path)
        for path in self.files("crates/*/must-fail/*.edit"):
            self.turn_edit(path)
        for path in self.files("README.md") + self.files("docs/*.md"):
            self.turn_page(path)
        for before, after in MODULES.items():
            for path in self.files("crates/*/specs/%s.antt" % before):
                os.rename(path, os.path.join(os.path.dirname(path), after + ".antt"))


Speller(sys.argv[1] if len(sys.argv) > 1 else ".").run()
