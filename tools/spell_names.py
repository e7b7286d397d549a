#!/usr/bin/env python3
"""Spells the names of this repository's definitions and lemmas in snake case, by spelling.tsv beside this file.

usage: python3 tools/spell_names.py [--table]     at the top of the repository

    digitOf, within-high  ->  digit_of, within_high

Each row of spelling.tsv is: old, a tab, new, a tab, where: `all` for a name of a definition, `proofs` for a lemma whose name is spelled like one of src/.
What turns: the code of .antt files and their code spans in comments; clauses and `ghost use` of .rt files; the texts of .edit files; code spans of Markdown.
Not turned: Rust code, strings, and in proofs/ a word behind a dot whose head is a variable, since such labels are not this repository's.
--table prints the rows for the tree as it stands, and writes nothing.
A name that falls together with another one gets a suffix: `_rule` for a rule of a grammar, `_law` for a lemma.
"""
import collections
import glob
import os
import re
import sys

HERE = os.path.dirname(os.path.realpath(__file__))
WORD = r'[^\s(){}.;,@"«»\[\]λ`]+'
DEFINED = re.compile(r"^(?:(?:abbrev|unfoldable)\s+)?(?:pub\s+)?(?:(?:abbrev|unfoldable)\s+)?([^\s:(){}]+)(?: \{[^{}]*\})* :(?: |$)")
QUIET = re.compile(r'"(?:[^"\\\n]|\\.)*"|(?<![^\s(){}.;,@"«»])--[^\n]*|\{-.*?-\}', re.S)
SPAN = re.compile(r"(`+)(?:[^\n`]|\n(?!\s*\n))*?\1")
RUST = re.compile(r"""//[^\n]*|/\*.*?\*/|b?"(?:\\.|[^"\\])*"|b?'(?:\\x..|\\.|[^'\\])'|'?\w+|\s+|.""", re.S)
CLAUSE = re.compile(r"(?:requires|ensures)\s*\*?\s*(?:\w+\s*)?\{|ghost\s*(?:\w+\s*(?::\s*|=\s*))?\{")
GHOST_USE = re.compile(r"ghost\s+use\b[^;]*;")
ALIAS = re.compile(r"(?m)^use (?:\S+\.)?([^\s.]+) as (\S+)$")
MADE = re.compile(r"(Tie|Reads|Kinds|Lts\S*|Statement|Code|TheVariants)$")
# fields of records, which stand behind a variable
FIELDS = set(
    "after-point after-sign before-point body-small first-day first-month first-stop first-within from-set good-table groupAnds groupOrs kind-small"
    " last-month other-closed second-stop second-within too-few too-long within-left within-right".split()
)
USE = re.compile(r"\buse ([^\s;{]+?)(?:\.?\{([^{}]*)\})?(?: as (\S+?))?(?=;|\s|$)")
FENCE = re.compile(r"^```[^\n]*\n(.*?)^```$", re.S | re.M)


def read(path):
    with open(path, encoding="utf-8") as f:
        return f.read()


def is_own(path):
    steps = path.split(".")
    return steps[0] == "Rattle" and os.path.isdir(os.path.join("crates", *steps[1:2])) and len(steps) > 1


def of_kit(text):
    """The names that a file imports from a library that is not this repository's."""
    found = set()
    uses = GHOST_USE.findall(text)
    for path, items, _ in USE.findall("\n".join(uses) if uses else text):
        if not is_own(path):
            found |= {it.split(" as ")[-1].strip() for it in items.replace("\n", " ").split(",")}
            found |= {it.split(" as ")[0].strip() for it in items.replace("\n", " ").split(",")}
    return found


def sources(*endings):
    for top in ("crates", "edits"):
        for folder, folders, files in os.walk(top):
            folders[:] = sorted(f for f in folders if f != "out")
            yield from (os.path.join(folder, f) for f in sorted(files) if f.endswith(endings))


def snake(name):
    if name[0].isupper():
        return name
    return re.sub(r"(?<=[a-z0-9])[A-Z]", lambda m: "_" + m[0].lower(), name.replace("-", "_"))


def table():
    defined, lemmas = set(), set()
    for path in sources(".antt"):
        if path.endswith("/Proof.antt"):
            continue
        for line in read(path).splitlines():
            m = DEFINED.match(line.strip())
            if m and not line.strip().startswith("--"):
                (defined if "/specs/" in path else lemmas).add(m[1])
    together = collections.defaultdict(list)
    for name in defined | lemmas:
        together[snake(name)].append(name)
    # Where a file has an import of a library that is spelled like the new name, that name is taken.
    taken = set()
    for path in sources(".antt", ".rt"):
        text = read(path)
        text = text if path.endswith(".antt") else "\n".join(GHOST_USE.findall(text))
        imported = of_kit(text)
        taken |= {snake(it) for it in set(re.findall(WORD, text)) - imported if it in defined | lemmas and snake(it) in imported and snake(it) != it}
    rows = []
    for new, names in sorted(together.items()):
        # The definition that is no rule of a grammar keeps the plain name; then what is spelled so already; then what has no dash.
        names.sort(key=lambda it: (it not in defined, "-" in it and len(names) > 1 and it in defined, it != new, "-" in it, it))
        for at, old in enumerate(names):
            to = new if at == 0 and new not in taken else new + ("_rule" if old in defined else "_law")
            if to != old:
                rows.append((old, to, "proofs" if old == new else "all"))
    return sorted(rows)


class Speller:
    def __init__(self, rows):
        self.kit = set()
        self.modules, self.fields = set(), FIELDS & {it[0] for it in rows}
        self.all = {old: new for old, new, where in rows if where == "all"}
        self.proofs = {**self.all, **{old: new for old, new, where in rows if where == "proofs"}}

    def words(self, text, names, is_proof=False):
        def one(m):
            word = m[0]
            if is_proof and text[m.start() - 1 : m.start()] == ".":
                head = re.search(rf"({WORD})\.$", text[max(0, m.start() - 200) : m.start()])
                if head and not head[1][0].isupper() and head[1] not in self.modules and word not in self.fields:
                    return word
            bare = word.rstrip("'′")
            return names.get(word) or (names[bare] + word[len(bare) :] if bare in names else word)

        return re.sub(WORD, one, text)

    def comment(self, text, names):
        return SPAN.sub(lambda m: self.words(m[0], names), text)

    def antt(self, text, is_proof=False):
        names, out, at = self.proofs if is_proof else self.all, [], 0
        names = {old: new for old, new in names.items() if old not in self.kit}
        self.modules = {m[2] for m in ALIAS.finditer(text) if not MADE.match(m[1])}
        for m in QUIET.finditer(text):
            out += [self.words(text[at : m.start()], names, is_proof), m[0] if m[0][0] == '"' else self.comment(m[0], names)]
            at = m.end()
        return "".join(out) + self.words(text[at:], names, is_proof)

    def rust(self, text):
        out, at = [], 0
        while at < len(text):
            m = RUST.match(text, at)
            word, end = m[0], m.end()
            clause = CLAUSE.match(text, at) if word in ("requires", "ensures", "ghost") else None
            use = GHOST_USE.match(text, at) if word == "ghost" else None
            if clause and closing(text, clause.end()):
                end = closing(text, clause.end())
                out += [clause[0], self.antt(text[clause.end() : end])]
            elif use:
                end = use.end()
                out.append(self.antt(use[0]))
            else:
                out.append(self.comment(word, self.all) if word[:2] in ("//", "/*") else word)
            at = end
        return "".join(out)

    def edit(self, text):
        def line(m):
            return m[1] + (self.rust(m[2]) if file.endswith(".rt") else self.antt(m[2]))

        file = (re.search(r"(?m)^file: *(\S+)", text) or ["", ""])[1]
        return re.sub(r"(?m)^((?:old|new): ?)(.*)$", line, text)

    def markdown(self, text):
        out, at = [], 0
        for m in FENCE.finditer(text):
            out += [SPAN.sub(lambda s: self.words(s[0], self.all), text[at : m.start()]), self.words(m[0], self.all)]
            at = m.end()
        return "".join(out) + SPAN.sub(lambda s: self.words(s[0], self.all), text[at:])


def closing(text, at):
    depth = 0
    for m in re.compile(QUIET.pattern + r"|[{}]", re.S).finditer(text, at):
        depth += (m[0] == "{") - (m[0] == "}")
        if depth < 0:
            return m.start()
    return None


def main(arguments):
    if arguments == ["--table"]:
        for row in table():
            print("\t".join(row))
        return 0
    if arguments or not os.path.isdir("crates"):
        print(__doc__)
        return 2
    speller = Speller([line.split("\t") for line in read(os.path.join(HERE, "spelling.tsv")).splitlines()])
    pages = [it for it in glob.glob("*.md") + glob.glob("docs/**/*.md", recursive=True)]
    for path in [*sources(".antt", ".rt", ".edit"), *pages]:
        old = read(path)
        speller.kit = of_kit(old)
        if path.endswith(".antt"):
            new = speller.antt(old, "/proofs/" in path)
        elif path.endswith(".rt"):
            new = speller.rust(old)
        else:
            new = speller.edit(old) if path.endswith(".edit") else speller.markdown(old)
        if new != old:
            with open(path, "w", encoding="utf-8") as f:
                f.write(new)
            print(path)
    return 0


if __name__ == "__main__":
    sys.exit(main(sys.argv[1:]))
