#!/usr/bin/env python3
"""Respells the repository's own definitions, lemmas, fields and constructors as the kit that it was ported to spells names.

usage: python3 tools/port/respell.py [--make] [ROOT]

The table is names.tsv beside this script: a line for each name, old and new with a tab between. It was made by --make, once, on the
repository as the kit's own port script had left it, and mended where two names fell together (then the lemma ends in _lem): words in snake case; a dash only between two names; types in camel case; one prime, '.
What turns: in crates/, the .antt files of specs/ and proofs/, clauses and `ghost use` lines of src/, and the two texts of must-fail edits.
A name that a file imports from elsewhere stays in that file. After a dot a name turns only if it is a field of a record of our own, or if
what stands before it is a module of our own.
"""
import collections
import os
import re
import sys

HERE = os.path.dirname(os.path.abspath(__file__))
TABLE = os.path.join(HERE, "names.tsv")
WORD = re.compile(r'[^\s(){}.;,@"«»]+')
COMMENT = re.compile(r"--[^\n]*")
SIGNATURE = re.compile(r"^(\s*)((?:(?:abbrev|unfoldable|pub) )*)((?:data|record) )?([^\s:(){}.,;]+)((?: [({][^\n]*)?) :(?!:)(.*)$")
USE = re.compile(r"\buse\s+([^\s{};]+?)(?:\.\{([^}]*)\}|\s+as\s+(\S+?))?(?=[;\s]|$)")
RUST_PART = re.compile(r"//[^\n]*|ghost use\b[^;]*;")
CLAUSE = re.compile(r"(?:requires|ensures|ghost|invariant|decreases)\b\s*\*?\s*(?:\w+\s*)?:?\s*\{")
# Words that stand for operators and for cases in the names of lemmas.
OPERATORS = "add sub mul div mod rem le lt eq ne eqb ltb leb suc zero nil cons append not and or if".split()


def texts(root, *endings):
    for folder, dirs, files in os.walk(os.path.join(root, "crates")):
        dirs[:] = sorted(d for d in dirs if d not in ("out", "target"))
        for name in sorted(files):
            if name.endswith(endings):
                yield os.path.join(folder, name)


def read(path):
    with open(path, encoding="utf-8") as it:
        return it.read()


def own_crates(root):
    return set(os.listdir(os.path.join(root, "crates")))


def is_own(module, crates):
    parts = module.split(".")
    return len(parts) > 1 and parts[0] == "Rattle" and parts[1] in crates and parts[-1] not in ("Tie", "Goals", "Given", "Statement")


def imports(text, crates):
    """The names that a text imports: those of our own, those of others, and the aliases of modules of our own."""
    own, others, aliases = set(), set(), set()
    for module, names, alias in USE.findall(text):
        words = WORD.findall(names)
        if is_own(module, crates):
            own.update(words)
            if alias:
                aliases.add(alias)
        else:
            others.update(words)
    return own, others, aliases


def turned(text, table, fields, others, aliases):
    """A text of antt with its names turned; a comment's words too, where they are names with a dash or a capital inside."""
    def one(match):
        word = match.group(0)
        if word not in table:
            return word
        before = text[:match.start()]
        if before.endswith("."):
            head = re.search(r'([^\s(){};,@"«»]*)\.$', before)
            path = head.group(1) if head else ""
            if path in aliases or path.startswith("Rattle."):
                return table[word]
            return table[word] if word in fields else word
        return word if word in others else table[word]
    return WORD.sub(one, text)


def turn_antt(text, table, fields, crates):
    _, others, aliases = imports(text, crates)
    return turned(text, table, fields, others, aliases)


def turn_rust(text, table, fields, crates):
    ghost = " ".join(RUST_PART.findall(text))
    own, others, aliases = imports(ghost, crates)
    out, at = [], 0
    for m in re.finditer(r"//[^\n]*|ghost use\b[^;]*;|" + CLAUSE.pattern, text):
        if m.start() < at or m.group(0).startswith("//"):
            continue
        end = m.end()
        if m.group(0).endswith("{"):
            depth = 1
            while depth:
                depth += {"{": 1, "}": -1}.get(text[end], 0)
                end += 1
        out += [text[at:m.start()], turned(text[m.start():end], table, fields, others, aliases)]
        at = end
    return "".join(out) + text[at:]


def turn_edit(text, table, fields, crates, root, path):
    file = re.search(r"^file:\s*(\S+)", text, re.M).group(1)
    crate = os.path.dirname(os.path.dirname(path))
    whole = read(os.path.join(crate, file))
    _, others, aliases = imports(whole, crates)
    lines = []
    for line in text.split("\n"):
        if line.startswith(("old:", "new:")):
            rust = file.endswith(".rt") and not re.match(r"(old|new):\s*(ghost use|requires|ensures)", line)
            line = line if rust else turned(line, table, fields, others, aliases)
        lines.append(line)
    return "\n".join(lines)


# ---- the table, made once

def snake(word):
    word = word.replace("′", "'")
    return re.sub(r"(?<=[a-z0-9])([A-Z])", lambda m: "_" + m.group(1).lower(), word)


def spelled(name, names, is_field):
    parts = name.replace("′", "'").split("-")
    parts = [p if p[:1].isupper() else snake(p) for p in parts]
    out = parts[0]
    for left, right in zip(parts, parts[1:]):
        joined = not is_field and left in names and right in names
        out += ("-" if joined else "_") + right
    return out


def defined(root):
    """Names that are defined in specs/ and proofs/: all, the fields, and those that a lemma may speak of."""
    everything, fields, words = set(), set(), set()
    for path in texts(root, ".antt"):
        record, data = None, None
        for line in COMMENT.sub("", read(path)).split("\n"):
            m = SIGNATURE.match(line)
            if m:
                indent, marks, kind, name = len(m.group(1)), m.group(2), m.group(3), m.group(4)
                if kind:
                    record = indent
                    everything.add(name)
                    words.add(name)
                    continue
                inside = record is not None and indent > record
                if not inside:
                    record = None
                if name in ("|", "→", "elim", "let", "in"):
                    continue
                if name.startswith("let") or re.match(r"\s*(tie|goal)\.", m.group(6)):
                    continue
                everything.add(name)
                if inside:
                    fields.add(name)
                    words.add(name)
                elif "abbrev" in marks or "unfoldable" in marks:
                    words.add(name)
            elif line.strip() and not line.startswith((" ", "\t")) and record is not None and not re.match(r"\s*(pub )?(record|data)", line):
                record = None
            k = re.match(r"^\s*(?:pub )?(record|data) (\S+)", line)
            if k:
                record = len(line) - len(line.lstrip())
                everything.add(k.group(2))
                words.add(k.group(2))
    return everything, fields, words


def kit_words(root):
    words = set(OPERATORS)
    for path in texts(root, ".antt", ".rt"):
        for module, names, _ in USE.findall(read(path)):
            if not is_own(module, own_crates(root)):
                words.update(w for w in WORD.findall(names) if "-" not in w)
    return words


def make(root):
    everything, fields, words = defined(root)
    rust = set()
    for path in texts(root, ".rt"):
        rust.update(re.findall(r"\bfn (\w+)", read(path)))
    names = {snake(w) for w in words if "-" not in w} | words | kit_words(root) | rust
    table = {}
    for name in sorted(everything):
        if name.startswith(("invariant-", "decreases-")) or name.endswith("-spec"):
            continue
        new = spelled(name, names, name in fields)
        if new != name:
            table[name] = new
    with open(TABLE, "w", encoding="utf-8") as out:
        for old, new in table.items():
            out.write(f"{old}\t{new}{chr(9) + 'field' if old in fields else ''}\n")
    print(f"{len(table)} names")


def load():
    table, fields = {}, set()
    with open(TABLE, encoding="utf-8") as rows:
        for row in rows:
            old, new, *field = row.rstrip("\n").split("\t")
            table[old] = new
            if field:
                fields.add(old)
    return table, fields


def main(words):
    root = next((w for w in words if not w.startswith("-")), ".")
    if "--make" in words:
        return make(root)
    table, fields = load()
    crates = own_crates(root)
    new = {}
    for path in texts(root, ".antt"):
        new[path] = turn_antt(read(path), table, fields, crates)
    for path in texts(root, ".rt"):
        new[path] = turn_rust(read(path), table, fields, crates)
    for path in texts(root, ".edit"):
        new[path] = turn_edit(read(path), table, fields, crates, root, path)
    count = 0
    for path, text in new.items():
        if text != read(path):
            count += 1
            with open(path, "w", encoding="utf-8") as out:
                out.write(text)
    print(f"{count} files respelled")


if __name__ == "__main__":
    main(sys.argv[1:])
