#!/usr/bin/env python3
"""respell: brings the repository's own names in specs, proofs and clauses to one spelling.

Words are in snake case, types and modules in camel case, and a prime is an apostrophe. It is run once at the top, after
the kit's port.py, and goes by text:

- in .antt files every name of the repository's own that begins with a small letter: `codeStep` and `code-step` become `code_step`;
- in .rt files the same names where they are spelled in camel case, which no name of the program is;
- in comments of both what stands in backticks.

Names of the library stay. Where two names fall together, the definition that contracts or other definitions rest on has the plain
name, and the lemma gets `_lem` behind it. Fields of records stand apart from both.
With --names it writes nothing and prints the table, old name and new name a line.
"""
import collections
import os
import re
import sys

USE = re.compile(r"^use ([^\s{]+?)(?:\.\{(.*)\})?(?: as (\S+))?$")
TOKEN = re.compile(r"[^\s()\[\]{};,.\"`λ@=|]+")
DECLARED = re.compile(r"^\s*(?:abbrev |unfoldable |opaque |pub )*([^\s(){}:]+) :(?: |$)")


def snake(word):
    word = re.sub(r"(?<=[a-z0-9])([A-Z])", lambda m: "_" + m[1].lower(), word)
    return word.replace("-", "_").replace("′", "'")


def files(root, ending):
    for folder, dirs, names in os.walk(os.path.join(root, "crates")):
        dirs[:] = sorted(d for d in dirs if d != "out")
        for name in sorted(names):
            if name.endswith(ending):
                yield os.path.join(folder, name)


def imports(line):
    """The module that a line of imports names, its names, and its short name."""
    m = USE.match(line)
    if not m:
        return None
    names = [n.strip().split(" as ")[0] for n in (m[2] or "").split(",") if n.strip()]
    return m[1], names, m[3]


class Names:
    """The names of the library and of the repository, as the files have them."""

    def __init__(self, root):
        self.crates = set(os.listdir(os.path.join(root, "crates")))
        self.foreign, self.words, self.fields = set(), set(), set()
        self.places = collections.defaultdict(set)
        for path in files(root, ".antt"):
            self.read(path)
        self.table = self.choose()

    def own(self, module):
        parts = module.split(".")
        return parts[0] == "Rattle" and len(parts) > 1 and parts[1] in self.crates

    def read(self, path):
        inside = None  # how far a record is indented
        with open(path, encoding="utf-8") as f:
            lines = f.read().split("\n")
        for line in lines:
            found = imports(line)
            if found:
                module, names, short = found
                (self.words if self.own(module) else self.foreign).update(names)
                if short and not self.own(module):
                    self.foreign.add(short)
                continue
            bare = line.strip()
            if bare.startswith("--"):
                continue
            depth = len(line) - len(line.lstrip())
            if bare and inside is not None and depth <= inside:
                inside = None
            if re.match(r"(?:pub )?record ", bare):
                inside = depth
            m = DECLARED.match(line)
            if m:
                if inside is not None and depth > inside:
                    self.fields.add(m[1])
                else:
                    self.places[m[1]].add(path)
            self.words.update(t for t in TOKEN.findall(line) if re.match(r"[a-z]", t))

    def in_specs(self, name):
        return any("/specs/" in path for path in self.places[name])

    def choose(self):
        groups = collections.defaultdict(set)
        for name in self.words | self.fields:
            if re.match(r"[a-z]", name) and name not in self.foreign:
                groups[snake(name)].add(name)
        table = {}
        for new, olds in groups.items():
            declared = [o for o in olds if o in self.places]
            plain = sorted(declared, key=lambda o: (not self.in_specs(o), "-" in o, not re.search("[A-Z]", o), o))
            for old in olds:
                second = old in plain[1:] or (old in plain and new in self.foreign)
                table[old] = new + "_lem" if second else new
        return table


def turn_tokens(text, names, short):
    """A line of .antt code; short has its file's short names for modules of the repository. A word behind the point of a value is a field of a record, and what Rattle names itself stays."""

    def one(m):
        word = m[0]
        if not re.match(r"[a-z]", word) or word in names.foreign:
            return word
        before = text[: m.start()]
        if before.endswith("."):
            owner = re.search(r"([^\s()\[\]{};,\"`λ@=|]*)\.$", before)
            first = owner[1].split(".")[0]
            if first in names.foreign and first not in short:
                return word
            if not owner[1][:1].isupper():
                return snake(word) if word in names.fields else word
        return names.table.get(word, word)

    return TOKEN.sub(one, text)


def turn_ticks(text, names):
    return re.sub(r"`([^`\s]+)`", lambda m: "`" + names.table.get(m[1], m[1]) + "`", text)


def turn_antt(text, names):
    lines = text.split("\n")
    short = {found[2] for found in map(imports, lines) if found and found[2] and names.own(found[0])}
    out = []
    for line in lines:
        if imports(line):
            module, listed, _ = imports(line)
            if names.own(module) and ".declared" not in module and listed:
                head, tail = line.split(".{", 1)
                line = head + ".{" + re.sub(r"[^\s,}]+", lambda m: names.table.get(m[0], m[0]), tail)
            out.append(line)
            continue
        code, mark, comment = line.partition("-- ") if line.lstrip().startswith("--") else (line, "", "")
        out.append(turn_tokens(code, names, short) + mark + turn_ticks(comment, names))
    return "\n".join(out)


def turn_rt(text, names):
    out = []
    for line in text.split("\n"):
        at = line.find("//")
        code, comment = (line, "") if at < 0 else (line[:at], line[at:])
        code = re.sub(r"(?<![\w'])[a-z][A-Za-z0-9_]*[A-Z][A-Za-z0-9_]*(?![\w'])", lambda m: names.table.get(m[0], m[0]), code)
        out.append(code + turn_ticks(comment, names))
    return "\n".join(out)


def main(argv):
    root = os.path.join(os.path.dirname(os.path.abspath(__file__)), "..") if not os.path.isdir("crates") else "."
    names = Names(root)
    if "--names" in argv:
        for old, new in sorted(names.table.items()):
            if old != new:
                print(old, new)
        return 0
    for ending, turn in ((".antt", turn_antt), (".rt", turn_rt)):
        for path in files(root, ending):
            with open(path, encoding="utf-8") as f:
                text = f.read()
            new = turn(text, names)
            if new != text:
                with open(path, "w", encoding="utf-8") as f:
                    f.write(new)
    return 0


if __name__ == "__main__":
    raise SystemExit(main(sys.argv[1:]))
