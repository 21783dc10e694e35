#!/usr/bin/env python3
"""Brings the repository's own definitions and lemmas to snake case: words in snake case, types in camel case, and a dash only between two names.

usage: respell.py            at the top of the repository, once, right after the kit's port.py

It goes by text: the names that specs/ and proofs/ define are respelled wherever they stand in .rt and .antt files, and in the pages'
code spans. A lemma that would fall together with a definition gets `_lem`, as does a name that would fall together with another one of a file.
"""

import collections
import glob
import re
import sys

KEYWORDS = {"data", "record", "module", "use", "mod", "infix", "infixl", "infixr", "let", "--", "ruleset", "open", "where", "elim", "in", "=", "|", "↦", "unfolding"}
# Names of the library that a dash may join to one of the repository's.
LIBRARY = set("length append map take drop set get_or cond eqb ltb leb not true false max min pow mod div shl shr add mul sub suc zero nil cons some none fst snd inl inr filter".split())
# Words that are names too, but read as plain words inside another name.
PLAIN = set("is has in at of to by one put all any each first last none_of no more less".split())
# A name that is a tactic's word today.
TAKEN = {"first_of": "first_code_of", "firstOf": "first_code_of"}
TOKEN = re.compile(r"[^\s(){}\[\].,;`\"⌜⌝@]+")
DEFINED = re.compile(r"(?m)^( *)((?:pub |abbrev |unfoldable )*)([^\s(){}:;,.]+)((?: [^\s(){}:;,.]+)*) : (.*)$")
LET = re.compile(r"\blet ([^\s(){}:;,.]+) (?::|=)")


def snake(part):
    if part[:1].isupper():
        return part
    return re.sub(r"(?<=[a-z0-9])([A-Z])", lambda m: "_" + m[1].lower(), part)


def joined(parts, names):
    text = parts[0]
    for left, right in zip(parts, parts[1:]):
        text += ("-" if left in names and right in names else "_") + right
    return text


def imported(text):
    """The names that a file takes from outside the repository."""
    found = set()
    for m in re.finditer(r"(?m)^(?:ghost )?(?:pub )?use ([^\s{;]+)\.\{([^}]*)\}", text):
        if not OWN.match(m[1]):
            found |= {w.split(" as ")[0].strip() for w in m[2].split(",")}
    return found


def local(text):
    """The names that a file uses, without fields and paths."""
    found = set()
    for line in text.splitlines():
        if re.match(r"\s*--", line):
            continue
        if re.match(r"\s*(pub )?use ", line):
            line = line[line.find("{"):] if "{" in line else line[line.find(" as "):]
        found |= {m[0] for m in TOKEN.finditer(line) if line[m.start() - 1:m.start()] != "." or re.search(r"λ [^.]*\.$", line[:m.start()])}
    return found


CRATES = [line.split(":")[0].strip() for line in open("crates.txt") if ":" in line]
OWN = re.compile(r"Rattle\.(%s)\." % "|".join(CRATES))
ANTT = sorted(glob.glob("crates/*/specs/**/*.antt", recursive=True) + glob.glob("crates/*/proofs/**/*.antt", recursive=True))
RT = sorted(glob.glob("crates/*/src/**/*.rt", recursive=True))
PAGES = ["README.md"] + sorted(glob.glob("docs/**/*.md", recursive=True))


def main():
    texts = {f: open(f, encoding="utf-8").read() for f in ANTT + RT + PAGES}
    defined, functions, fields, outside = set(), set(), set(), set()
    for f in ANTT:
        text = texts[f]
        outside |= imported(text)
        inside = re.search(r"(?m)^\s*(pub )?record ", text) is not None
        for m in DEFINED.finditer(text):
            names = [m[3]] + m[4].split()
            if names[0] in KEYWORDS or re.match(r"tie\.|goal\.", m[5]):
                continue
            defined |= set(names)
            if inside and m[1]:
                fields |= set(names)
            if "/specs/" in f and not m[1]:
                functions |= set(names)
        defined |= set(LET.findall(text))
    for f in RT:
        outside |= imported(texts[f])
        defined |= set(re.findall(r" as ([a-zA-Z][\w'-]*)", "\n".join(re.findall(r"(?m)^ghost use .*$", texts[f]))))
    names = ({snake(n) for n in functions if "-" not in n} | LIBRARY) - PLAIN
    turned = {}
    for n in defined:
        if n in outside or not re.fullmatch(r"[A-Za-z][A-Za-z0-9_'₀-₉-]*", n):
            continue
        if re.search(r"[a-z0-9][A-Z]", n) and n[0].islower() or "-" in n:
            new = joined([snake(p) for p in n.split("-")], names)
            if new != n:
                turned[n] = new
    turned.update(TAKEN)
    # A definition in camel case and a lemma with a dash that would share a name: the lemma gets `_lem`.
    shared = {new for n, new in turned.items() if "-" not in n}
    for n in turned:
        if "-" in n and turned[n] in shared:
            turned[n] += "_lem"
    # So does a lemma that has a definition's new name already.
    lemmas = {n for n in shared & defined if n not in outside and n not in turned}
    turned.update({n: n + "_lem" for n in lemmas})
    # A new name that stands already where the old one stands, or that two old ones would share in a file.
    bad = set()
    for f, text in texts.items():
        if not f.endswith(".antt"):
            continue
        here = local(text)
        given = collections.defaultdict(set)
        for n in here & turned.keys():
            given[turned[n]].add(n)
            if turned[n] in here and turned[n] not in turned:
                bad.add(n)
        for olds in given.values():
            if len(olds) > 1:
                bad |= olds
    bad -= TAKEN.keys()
    for n in sorted(bad):
        turned[n] += "_lem"
        print(f"{n}: {turned[n]}")
    for f, text in texts.items():
        def one(m, text=text):
            n = m[0]
            if n not in turned:
                return n
            before = text[m.start() - 1] if m.start() else ""
            after = text[m.end()] if m.end() < len(text) else ""
            if before == "." and n not in fields:
                path = re.search(r"Rattle[\w.+'-]*\.$", text[max(0, m.start() - 120):m.start()]) and after != "."
                if not path and not re.search(r"λ [^.]*\.$", text[max(0, m.start() - 120):m.start()]):
                    return n
            return turned[n]

        rust = f.endswith(".rt")
        ghost = rust and "words.specs.Refusals" not in text
        if f.endswith(".md"):
            new = re.sub(r"`[^`\n]+`", lambda s: re.sub(TOKEN.pattern, lambda m: turned.get(m[0], m[0]) if m[0] not in TAKEN else m[0], s[0]), text)
        else:
            lines = text.splitlines(keepends=True)
            out, at = [], 0
            for line in lines:
                comment = re.match(r"\s*(--|//)", line)
                if comment:
                    out.append(re.sub(TOKEN.pattern, lambda m: turned[m[0]] if m[0] in turned and "-" not in m[0] else m[0], line))
                else:
                    out.append(TOKEN.sub(lambda m, at=at: m[0] if rust and m[0] in lemmas or ghost and m[0] in TAKEN else one(Shift(m, at)), line))
                at += len(line)
            new = "".join(out)
        if new != text:
            with open(f, "w", encoding="utf-8") as it:
                it.write(new)
    print(f"{len(turned)} names respelled")
    with open("tools/respelled.tsv", "w", encoding="utf-8") as it:
        it.writelines(f"{n}\t{turned[n]}\n" for n in sorted(turned))
    return 0


class Shift:
    """A match in a line, seen in its file."""

    def __init__(self, m, at):
        self.m, self.at = m, at

    def start(self):
        return self.m.start() + self.at

    def end(self):
        return self.m.end() + self.at

    def __getitem__(self, k):
        return self.m[k]


if __name__ == "__main__":
    sys.exit(main())
