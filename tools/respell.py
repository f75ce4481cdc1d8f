#!/usr/bin/env python3
"""Brings the repository's own definitions, fields and lemmas to snake case: the words of specs/ and proofs/ that were joined by dashes.

usage: python3 tools/respell.py [--check] [FOLDER]

FOLDER (this one, if none is named) has crates/. What turns: each name that a file of specs/ or proofs/ declares with a dash or
in camel case (a definition, a field, a constructor, a lemma, a local lemma of an answer), wherever code of specs/ and proofs/ or
a clause of src/ has it, and in code spans of comments and pages. Names that Rattle makes (goals, steps of a walk) stay, and so
does all that is no clause in src/, every string, input and output. --check writes nothing. Names that would fall together are
listed, and nothing is written while there are any. A second run writes nothing more.
"""
import collections
import os
import re
import sys

WORD = r"[^\s(){}.;,@\"«»`]+"
QUIET = re.compile(r'"(?:[^"\\\n]|\\.)*"|(?<![^\s(){}.;,@"«»])--[^\n]*|\{-.*?-\}', re.S)
DECLARED = re.compile(r"(?m)^ *(?:(?:abbrev|unfoldable|pattern|pub) )*(" + WORD + r")(?: \{[^{}\n]*\})* :\s+(\S+)")
LOCAL = re.compile(r"\blet (" + WORD + r") (?::|=)")
CONSTRUCTOR = re.compile(r"(?m)^ +(?:pub )?(" + WORD + r") : ")
RUST = re.compile(r"//[^\n]*|/\*.*?\*/|\"(?:\\.|[^\"\\])*\"|'(?:\\.|[^'\\])'|'?\w+|\s+|.", re.S)
CLAUSE = re.compile(r"(?:requires|ensures)\s*\*?\s*(?:\w+\s*)?\{|ghost\s*(?:\w+\s*(?::\s*(?:(?:owns|lends)\s*)?|=\s*))?\{")
USE = re.compile(r"ghost\s+use\b[^;]*;")
# the first name behind one of these is a label that Rattle makes, in the files of a function's proof
HEAD = re.compile(r"^(?:goal|(?:c|w|l|g)[0-9₀-₉']*)$")
MADE = re.compile(r"/(?:Answers|Invariants|Proof)\.antt$")
# names that would fall together with another of the same file
APART = {}


def texts(top, endings):
    for folder, folders, files in os.walk(top):
        folders[:] = sorted(f for f in folders if f not in ("out", ".git", "target"))
        for f in sorted(files):
            if f.endswith(endings):
                yield os.path.join(folder, f)


def read(path):
    with open(path, encoding="utf-8") as f:
        return f.read()


def snake(name):
    if name in APART:
        return APART[name]
    words = re.sub(r"(?<=[a-z0-9])([A-Z])", lambda m: "_" + m[1].lower(), name) if name[:1].islower() else name
    return words.replace("-", "_").replace("′", "'")


def declared(root):
    table = {}
    for path in texts(os.path.join(root, "crates"), ".antt"):
        code = QUIET.sub(" ", read(path))
        names = {m[1] for m in DECLARED.finditer(code) if not m[2].startswith("goal.")}
        names |= set(LOCAL.findall(code))
        if "/specs/" in path:
            names |= set(CONSTRUCTOR.findall(code))
        for name in names:
            if re.match(r"[A-Za-z]", name) and snake(name) != name:
                table[name] = snake(name)
    return table


def turned(code, table, made):
    """The code with each word of the table turned."""
    out, at = [], 0
    for m in re.finditer(WORD + r"(?:\." + WORD + r")*", code):
        parts = m[0].split(".")
        for k, part in enumerate(parts):
            label = made and k == 1 and HEAD.match(parts[0]) or made and k == 2 and HEAD.match(parts[0]) and parts[1] in ("args", "initial", "fn", "new")
            if part in table and not label:
                parts[k] = table[part]
        out += [code[at : m.start()], ".".join(parts)]
        at = m.end()
    return "".join(out + [code[at:]])


def spans(text, table):
    return re.sub(r"`[^`\n]*`", lambda m: turned_prose(m[0], table), text)


def turned_prose(text, table):
    return re.sub(r"[A-Za-z][\w'′-]*", lambda m: table.get(m[0], m[0]), text)


def in_antt(text, table, made=False):
    out, at = [], 0
    for m in QUIET.finditer(text):
        out += [turned(text[at : m.start()], table, made), m[0] if m[0][0] == '"' else spans(m[0], table)]
        at = m.end()
    return "".join(out + [turned(text[at:], table, made)])


def closing(text, at):
    depth = 0
    for m in re.compile(QUIET.pattern + r"|[{}]", re.S).finditer(text, at):
        depth += (m[0] == "{") - (m[0] == "}")
        if depth < 0:
            return m.start()
    return len(text)


def pieces(text):
    """The parts of a file of src/, each with whether it is ghost text."""
    at = 0
    while at < len(text):
        word = RUST.match(text, at)
        use = USE.match(text, at) if word[0] == "ghost" else None
        clause = CLAUSE.match(text, at) if word[0] in ("requires", "ensures", "ghost") else None
        if use:
            yield True, use[0]
            at = use.end()
        elif clause:
            end = closing(text, clause.end())
            yield False, clause[0]
            yield True, text[clause.end() : end]
            at = end
        else:
            yield False, word[0]
            at = word.end()


def in_rt(text, table):
    turn = lambda ghost, t: in_antt(t, table) if ghost else spans(t, table) if t[:2] == "//" else t
    return "".join(turn(ghost, t) for ghost, t in pieces(text))


def words(code):
    return set(re.findall(WORD, QUIET.sub(" ", code)))


def clashes(root, table):
    found = collections.defaultdict(set)
    for path in texts(os.path.join(root, "crates"), (".antt", ".rt")):
        text = read(path)
        if path.endswith(".rt"):
            parts = list(pieces(text))
            has = words("".join(t for ghost, t in parts if ghost))
            rust = "".join(t for ghost, t in parts if not ghost and t[:2] != "//")
            has |= set(re.findall(r"\b(\w+)\s*:(?!:)", rust)) | set(re.findall(r"\b(?:const|static) (\w+)", rust))
            uses = words("".join(t for ghost, t in parts if ghost))
        else:
            uses = words(text)
            has = words(re.sub(r"\bRattle(?:\.[^\s{}]+)+", " ", text))
        by_new = collections.defaultdict(set)
        for old in uses & set(table):
            by_new[table[old]].add(old)
        for new, olds in by_new.items():
            if len(olds) > 1 or new in has:
                found[new] |= {(os.path.relpath(path, root), " ".join(sorted(olds)), "there" if new in has else "")}
    return found


def main():
    args = [a for a in sys.argv[1:] if a != "--check"]
    root = args[0] if args else "."
    table = declared(root)
    together = clashes(root, table)
    for new, places in sorted(together.items()):
        for place in sorted(places):
            print("falls together:", new, *place)
    print(f"{len(table)} names")
    if "--check" in sys.argv or together:
        return bool(together)
    for path in [*texts(os.path.join(root, "crates"), (".antt", ".rt")), *texts(os.path.join(root, "docs"), ".md"), os.path.join(root, "README.md")]:
        text = read(path)
        new = in_rt(text, table) if path.endswith(".rt") else in_antt(text, table, bool(MADE.search(path))) if path.endswith(".antt") else spans(text, table)
        if new != text:
            with open(path, "w", encoding="utf-8") as f:
                f.write(new)
    return 0


if __name__ == "__main__":
    raise SystemExit(main())
