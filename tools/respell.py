#!/usr/bin/env python3
"""Respells the repository's own names as today's library does, once, after the kit's port.py.

usage: tools/respell.py [--check] [--table] FOLDER     FOLDER is the top of the repository; --table prints each old name with its new one

Definitions, lemmas and local names that were in mixed case get snake case: `insertAt` is `insert_at`. In the name of a lemma a dash joins names of
definitions, and a plain word is joined by an underscore: `put-keeps` is `put_keeps`, `sorted-least` stays. Types, modules and facts keep their capitals,
and so do the rules' proper names R0 to R10. Names of the source keep their spelling, and so do strings, inputs and outputs.
It goes by whole words over specs/, proofs/, the contracts of src/, the must-fail edits and the pages. It prints names that fall together, and how each was parted.
"""
import collections
import glob
import os
import re
import sys

WORD = re.compile(r'[^\s(){}.;,@"«»]+')
PLAIN = re.compile(r"[A-Za-z][A-Za-z0-9]*[₀-₉]*'*")
MIXED = re.compile(r"[a-z][a-z0-9]*(?:[A-Z][a-z0-9]*)+[₀-₉]*'*")
DECLARED = re.compile(
    r"^ *((?:(?:abbrev|unfoldable|pub|data|record|ruleset) )*)([^\s(){}.;,@\"«»:]+)((?: *\{[^{}\n]*\}| *\([^()\n]*\))*) :(?: |$)"
)
RULESET = re.compile(r"^ *(?:pub )?ruleset (?:pub )?([^\s(){}.;,@\"«»:=]+)")
USED = re.compile(r"^ *(?:pub )?(?:ghost )?use ([^\s{]+?)\.?\{([^}]*)\}", re.M)
LIBRARY = re.compile(r"(?:mathlib|Prim|native|lib|borrow|denote|base|seplogic|Rattle\.(?:std|core)\w*)\b")
QUOTED = re.compile(r"\"(?:[^\"\\\n]|\\.)*\"")
SPAN = re.compile(r"`[^`\n]+`")
# What a name is called where the rule would give it the name of another.
CHOSEN = {
    "takenOff": "TakenOff",
    "R9recorded": "R9_recorded",
    "R9asked": "R9_asked",
}


def read(p):
    with open(p, encoding="utf-8") as f:
        return f.read()


def snake(word):
    return re.sub(r"(?<=[a-z0-9])[A-Z]", lambda m: "_" + m[0].lower(), word)


class Names:
    def __init__(self, top):
        self.top = top
        self.declared = collections.defaultdict(set)
        self.known = set()
        self.sources = set()
        for p in self.files("antt"):
            own = "/proofs/" not in p
            made = os.path.basename(p) == "Proof.antt"
            for line in read(p).split("\n"):
                if line.lstrip().startswith("--"):
                    continue
                m = DECLARED.match(line) or RULESET.match(line)
                if not m:
                    continue
                name = m[m.re.groups if m.re is RULESET else 2]
                if made and re.search(r": (?:tie\.|\{M : Type 1\})", line):
                    continue
                self.declared[name].add(p)
                if own and "-" not in name:
                    self.known.add(name)
            for m in USED.finditer(read(p)):
                if LIBRARY.match(m[1]):
                    for it in m[2].split(","):
                        it = it.strip().split(" as ")[0]
                        if "-" not in it:
                            self.known.add(it)
        for p in self.files("rt"):
            t = read(p)
            for m in re.finditer(r"\b(?:fn|struct|enum|mod|const|static) (\w+)", t):
                self.sources.add(m[1])
        self.known |= self.sources
        self.known |= {snake(it) for it in self.known} | {"get_or", "append", "map", "length", "take", "drop", "set", "replicate"}
        self.known |= {it[:1].lower() + it[1:] for it in self.known}
        self.renamed = {}
        for name in sorted(self.declared):
            new = self.respelled(name)
            if new != name:
                self.renamed[name] = new
        self.part()

    def files(self, ending):
        for p in sorted(glob.glob(os.path.join(self.top, "crates", "**", "*." + ending), recursive=True)):
            if "/out/" not in p:
                yield p

    def respelled(self, name):
        if name in CHOSEN:
            return CHOSEN[name]
        parts = name.split("-")
        if not all(re.fullmatch(r"[A-Za-z0-9][A-Za-z0-9_]*[₀-₉]*'*", it) for it in parts):
            return name
        out = ""
        for k, it in enumerate(parts):
            new = "get_or" if it == "getD" else it if it[0].isupper() else snake(it)
            bare = re.sub(r"[₀-₉']*$", "", new)
            out += ("" if not k else "-" if bare in self.known else "_") + new
        return out

    def part(self):
        """Where two names fall together, the lemma gets the ending of a lemma, and else the name that changes keeps its spelling."""
        taken = collections.defaultdict(list)
        for name in self.declared:
            taken[self.renamed.get(name, name)].append(name)
        for new, olds in sorted(taken.items()):
            if len(olds) < 2:
                continue
            lemmas = [it for it in olds if all("/proofs/" in p for p in self.declared[it])]
            defs = [it for it in olds if it not in lemmas]
            if len(defs) == 1 and len(lemmas) == 1:
                self.renamed[lemmas[0]] = new + "_lem"
                print(f"apart: {olds} would be {new}: the lemma {lemmas[0]} is {new}_lem")
            else:
                for it in olds:
                    if it in self.renamed and "-" in it:
                        del self.renamed[it]
                print(f"apart: {olds} would be {new}: " + ", ".join(f"{it} is {self.renamed.get(it, it)}" for it in olds))

    def word(self, w, mixed=True, lemmas=True):
        if w in self.renamed and (lemmas or w not in self.sources):
            return self.renamed[w]
        if mixed and MIXED.fullmatch(w) and w not in self.sources:
            return snake(w)
        return w


def turn_words(names, t, mixed=True, lemmas=True):
    """A name of the source behind a dot is a path's, and no lemma's, and a name with a dash there is one that is made of the source's."""

    def turn(m):
        behind = t[m.start() - 1 : m.start()] == "."
        return m[0] if behind and m[0].replace("-", "_") in names.sources else names.word(m[0], mixed, lemmas and not behind)

    return WORD.sub(turn, t)


def turn_antt(names, t):
    return turn_code(names, t, True)


def turn_rt(names, t):
    return turn_code(names, t, False)


def turn_edit(names, t):
    return turn_code(names, t, ".antt" in t.split("\n")[0])


def turn_code(names, t, lemmas):
    """Code and its comments, but nothing quoted."""
    out, at = [], 0
    for m in QUOTED.finditer(t):
        out += [turn_part(names, t[at : m.start()], lemmas), m[0]]
        at = m.end()
    return "".join(out) + turn_part(names, t[at:], lemmas)


def turn_part(names, t, lemmas):
    lines = []
    for line in t.split("\n"):
        m = re.search(r"(?:^|(?<=\s))(?://|--)", line)
        if m:
            lines.append(turn_words(names, line[: m.start()], lemmas=lemmas) + turn_prose(names, line[m.start() :]))
        else:
            lines.append(turn_words(names, line, lemmas=lemmas))
    return "\n".join(lines)


def turn_prose(names, t):
    """Of a page or a comment: what stands in code spans, and a bare name in mixed case."""
    t = SPAN.sub(lambda m: "`" + turn_words(names, m[0][1:-1], mixed=False, lemmas=False) + "`", t)
    return re.sub(r"(?<![\w.`/-])[a-z][a-z0-9]*(?:[A-Z][a-z0-9]*)+(?![\w`-])", lambda m: names.renamed.get(m[0], m[0]), t)


def main(argv):
    check = "--check" in argv
    top = [it for it in argv if not it.startswith("--")][0]
    names = Names(top)
    changed = 0
    todo = [(p, turn_antt) for p in names.files("antt")] + [(p, turn_rt) for p in names.files("rt")]
    todo += [(p, turn_edit) for p in sorted(glob.glob(os.path.join(top, "crates/*/must-fail/*.edit")))]
    todo += [(p, turn_prose) for p in sorted(glob.glob(os.path.join(top, "README.md")) + glob.glob(os.path.join(top, "docs/*.md")))]
    for p, turn in todo:
        t = read(p)
        new = turn(names, t)
        if p.endswith(".antt"):
            near(names, p, t)
        if new != t:
            changed += 1
            if not check:
                with open(p, "w", encoding="utf-8") as f:
                    f.write(new)
    print(f"respell: {len(names.renamed)} names, {changed} files")
    if "--table" in argv:
        for a, b in sorted(names.renamed.items()):
            print(f"{a}\t{b}")


def near(names, p, t):
    """Names that stand beside a renamed one under its new name, in one file."""
    words = set(WORD.findall(re.sub(r"(?m)^ *--.*$", "", t)))
    for w in sorted(words):
        new = names.word(w)
        if new != w and new in words:
            print(f"look: {p}: {w} is {new}, which stands there too")


if __name__ == "__main__":
    main(sys.argv[1:])
