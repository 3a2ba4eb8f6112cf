#!/usr/bin/env python3
"""Spells the repository's own definitions, fields and lemmas in snake case.

usage: tools/spell.py           at the top of the repository, once: rewrites crates/, docs/ and README.md in place
       tools/spell.py --check   prints the table and the names that would fall together, and writes nothing

A name turns if a file of specs/ or proofs/ declares it: `rowProduct` becomes `row_product`, and `half-sums-case` `half_sums_case`.
Types keep their capital, names of a library stay in a file that imports them from one, and so do the goals and the steps that Rattle
names in a proof. In the code of .rt files only clauses and `ghost use` items turn, in comments the code spans and the names with a
capital inside.
"""
import collections
import glob
import re
import sys

NAME = r"[^\s(){}.;,@\"«»\[\]\\`]+"
DECLARED = re.compile(rf"^ *(?:(?:abbrev|unfoldable|pub|data|record|ruleset) +)*({NAME}(?: +{NAME})*) *(?:[({{].*)? : ")
USE = re.compile(r"\buse ([^\s;{]+?)(?:\.?\{([^}]*)\})?(?: as [^\s;]+)?(?=;|\s|$)")
WORDS = {"abbrev", "unfoldable", "pub", "data", "record", "ruleset", "let", "where", "in", "module", "use", "mod"}


def texts():
    for pattern in ("crates/*/specs/**/*.antt", "crates/*/proofs/**/*.antt", "crates/*/src/**/*.rt", "crates/*/must-fail/*.edit", "docs/**/*.md", "README.md"):
        yield from sorted(glob.glob(pattern, recursive=True))


def read(path):
    with open(path, encoding="utf-8", newline="") as it:
        return it.read()


def respelled(name):
    """The name in snake case, or None for one that stays: a type, an operator, a name that is so spelled already."""
    if not re.match(r"[a-zδ]", name) or not re.search(r"[a-z0-9][A-Z]|(?<=\w)-(?=\w)", name):
        return None
    words = re.sub(r"(?<=[a-z0-9])[A-Z](?=[a-z])", lambda m: "_" + m[0].lower(), name)
    return re.sub(r"(?<=[\w'])-(?=\w)", "_", words)


def declarations(text):
    """The names that a file of specs/ or proofs/ declares, but for the goals of a function."""
    found = set()
    for line in text.split("\n"):
        m = DECLARED.match(line)
        if m and "--" not in m[1] and not re.search(r": tie\.", line):
            found |= {it for it in m[1].split() if it not in WORDS}
    return found


def foreign(text, own):
    """The names that a file imports from a library."""
    found = set()
    for path, items in USE.findall(text):
        steps = path.split(".")
        if steps[0] == "Rattle" and len(steps) > 1 and steps[1] in own:
            continue
        found |= {it.split(" as ")[0].strip() for it in (items or "").split(",")} | ({steps[-1]} if not items else set())
    return found


def fields(text):
    """The fields of the records that a file declares."""
    found, inside = set(), False
    for line in text.split("\n"):
        if re.match(r"\S", line):
            inside = bool(re.match(r"(?:pub )?(?:unfoldable )?(?:record|data) ", line))
        m = inside and re.match(rf" +(?:pub )?({NAME}) : ", line)
        if m:
            found.add(m[1])
    return found


def spelled(declared, of_fields):
    """The new spelling of each name that turns. A lemma that would have its function's name gets `_lem`; a field stands behind its dot."""
    by_new = collections.defaultdict(set)
    for it in declared:
        by_new[respelled(it) or it].add(it)
    table = {}
    for new, olds in by_new.items():
        function = min(olds, key=lambda it: (not re.search(r"[a-z0-9][A-Z]", it), "-" in it))
        table |= {it: new if it == function or it in of_fields else new + "_lem" for it in olds}
    return {old: new for old, new in table.items() if old != new}


def turned_code(code, table, of_fields, stay, made):
    def turn(m):
        word = m[0]
        if word not in table or word in stay:
            return word
        before = code[: m.start()]
        if before.endswith(".") and word not in of_fields and "-" in word and not re.search(r"(?:^|[\s({])(?:Rattle\.[^\s]*|[A-Z]\w*)\.$", before[-200:]):
            return word
        if re.search(r"\btie\.$", before) or word in made:
            return word
        # a name of the form that functions have: a folder of proofs/, or a step, may be spelled so
        if re.fullmatch(r"[a-z0-9_]+", word) and (before.endswith(".") or code[m.end() :].startswith(".")):
            return word
        return table[word]

    return re.sub(NAME, turn, code)


def turned_comment(comment, table):
    spans = re.sub(r"`[^`\n]*`", lambda m: re.sub(NAME, lambda w: table.get(w[0], w[0]), m[0]), comment)
    return re.sub(r"[A-Za-z]+(?:[A-Z][a-z]*)+", lambda w: table.get(w[0], w[0]), spans)


def turned_antt(text, table, of_fields, stay, made):
    parts = re.split(r"((?:(?<=\s)|^)--[^\n]*)", text, flags=re.M)
    return "".join(turned_comment(p, table) if i % 2 else turned_code(p, table, of_fields, stay, made) for i, p in enumerate(parts))


def turned_rt(text, table, of_fields, stay):
    def ghost(m):
        return turned_code(m[0], table, of_fields, stay, set())

    parts = re.split(r"(//[^\n]*)", text)
    clause = re.compile(r"ghost use [^;]*;|(?:requires|ensures)\*? *\w* *\{.*\}[ \t]*$|ghost \w+: \{.*$", re.M)
    return "".join(turned_comment(p, table) if i % 2 else clause.sub(ghost, p) for i, p in enumerate(parts))


def main(check):
    own = {p.split("/")[1] for p in glob.glob("crates/*/src")}
    declared, of_fields = set(), set()
    for path in texts():
        if path.endswith(".antt"):
            declared |= declarations(read(path))
            of_fields |= fields(read(path))
    table = spelled(declared, of_fields)
    clashes = collections.Counter()
    for path in texts():
        text = read(path)
        stay = foreign(text, own) - (declarations(text) if path.endswith(".antt") else set())
        if path.endswith(".antt"):
            made = {m[1] for m in re.finditer(rf"(?m)^(?:abbrev )?(?:pub )?({NAME}) : tie\.", text)}
            new = turned_antt(text, table, of_fields, stay, made)
        elif path.endswith(".rt"):
            new = turned_rt(text, table, of_fields, stay)
        else:
            # port.py leaves pages and edits: the names that it turned turn here
            words = set(re.findall(NAME, text))
            all_names = {it: table[it] for it in words & set(table) if not re.fullmatch(r"[a-z0-9_]+", it)}
            all_names |= {it: respelled(it) for it in words - set(table) if respelled(it) in declared}
            new = turned_comment(text, all_names) if path.endswith(".md") else turned_code(text, all_names, of_fields, stay, set())
        words = set(re.findall(NAME, text))
        for old in words & set(table):
            if table[old] in words and table[old] != old:
                clashes[f"{path}: {old} meets {table[old]}"] += 1
        if not check and new != text:
            with open(path, "w", encoding="utf-8", newline="") as it:
                it.write(new)
    by_new = collections.defaultdict(set)
    for it in declared:
        by_new[table.get(it, it)].add(it)
    for new, olds in sorted(by_new.items()):
        if len(olds) > 1:
            print("together:", new, "<-", ", ".join(sorted(olds)))
    for line in sorted(clashes):
        print("clash:", line)
    if check:
        print(f"{len(table)} names turn")


if __name__ == "__main__":
    main("--check" in sys.argv[1:])
