#!/usr/bin/env python3
"""Brings the names of definitions and lemmas to one spelling: types, facts and modules in upper camel case, all else in snake case.

usage: python3 tools/rename.py            in the repository, once

A name counts that a file of specs/ or proofs/ declares (a definition, a lemma, a constructor, a record's field, a local function), and
every place that says it is turned: in specs/ and proofs/, in the clauses and comments of src/, in must-fail/ and in the documents.
Names of src/ and names that Rattle makes (the goals that an answer answers) stay. Says which names fall together.
"""

import os
import re
import sys

NAME = r"[^\s(){}\[\],;.:\"`]+"
HEAD = re.compile(r"\s*(abbrev pub |abbrev |unfoldable pub |unfoldable |pub data |data |pub record |record |pub )?(" + NAME + r")(?= :(?:\s|$)| \(| \{)(.*)")
# Names that would fall together with another: a lemma beside a definition that has its name, and names of the library.
CHOSEN = {
    "bit-or": "bit-or",
    "bool-byte": "bool-byte",
    "first-difference": "first_difference_lem",
    "is-close": "is_close_lem",
    "is-close-tag": "is_close_tag_lem",
    "is-or": "is_or_lem",
    "with-entry": "with_entry_lem",
    "with-run": "with_run_lem",
}
# The same where the kit's script has turned the lemma's name already: the folder, and the names in it.
BEFORE = {
    "crates/alphabet/proofs": {"is_digit": "is_digit_lem"},
    "crates/proofreading/proofs": {"none_yet": "none_yet_lem"},
    "crates/cue/proofs": {"runs_of": "runs_of_lem"},
    "crates/pattern/proofs/Steps.antt": {"tag_of": "op_tag"},
}
WORDS = {"elim", "let", "in", "module", "use", "where", "infix", "infixl", "infixr", "by", "do"}


def files(root, ending):
    for folder, dirs, names in os.walk(root):
        dirs[:] = sorted(d for d in dirs if d not in ("out", ".git"))
        for name in sorted(names):
            if name.endswith(ending):
                yield os.path.join(folder, name)


def read(path):
    with open(path, encoding="utf-8") as f:
        return f.read()


def turned(name):
    """The name in today's spelling."""
    if name in CHOSEN:
        return CHOSEN[name]
    if name[0].isupper():
        return "".join(p[0].upper() + p[1:] for p in name.split("-") if p)
    snake = re.sub(r"(?<=[a-z0-9])([A-Z])", lambda m: "_" + m[1].lower(), name)
    return re.sub(r"(?<=[A-Za-z0-9'])-(?=[A-Za-z0-9])", "_", snake)


def declared(path):
    """The names that a file declares, and those of them that answer a goal."""
    own, goals = set(), set()
    for line in read(path).split("\n"):
        line = line.split("--")[0]
        m = HEAD.match(line)
        if not m or m[2] in WORDS:
            continue
        (goals if re.match(r" : goal\.|.*\bgoal\.", m[3]) else own).add(m[2])
        for extra in re.findall(r"^\s*pub (" + NAME + r") ", line):
            (goals if "goal." in line else own).add(extra)
    return own, goals


def imported(path):
    """The names that a file takes from elsewhere than this repository's specs/ and proofs/: of the library, and names that Rattle made."""
    library, made = set(), set()
    for m in re.finditer(r"^(?:ghost )?use ([^\s;{}]+?)\.\{([^}]*)\}", read(path), re.M):
        names = {n.split(" as ")[0].strip() for n in m[2].split(",")}
        if re.match(r"Rattle\.(std|core)\b", m[1]) or not m[1].startswith("Rattle."):
            library |= names
        elif m[1].endswith(".Goals") or ".Goals." in m[1]:
            made |= names
    return library, made


def main():
    names, goals, library, made = set(), set(), set(), set()
    for path in files("crates", ".antt"):
        own, answered = declared(path)
        names |= own
        goals |= answered
    for ending in (".antt", ".rt"):
        for path in files("crates", ending):
            a, b = imported(path)
            library |= a
            made |= b
    table = {n: turned(n) for n in names if turned(n) != n}
    for n in sorted(set(table) & (goals | made)):
        print(f"kept, since Rattle makes this name too: {n}")
        del table[n]
    for n in sorted(set(table) & library):
        print(f"kept, since the library has this name too: {n}")
        del table[n]
    token = re.compile(NAME)
    seen = set()
    for ending in (".antt", ".rt"):
        for path in files("crates", ending):
            seen |= set(token.findall(read(path)))
    turns = {}
    for old, new in table.items():
        turns.setdefault(new, []).append(old)
    for new, olds in sorted(turns.items()):
        if len(olds) > 1 or new in seen:
            print(f"falls together: {new} from {', '.join(sorted(olds))}{' and a name that was there' if new in seen else ''}")
    if "--list" in sys.argv:
        for old, new in sorted(table.items()):
            print(old, new)
        return
    hidden = re.compile(r'"(?:\\.|[^"\\])*"')

    def turn(text, words):
        return token.sub(lambda m: words.get(m[0], m[0]), text)

    def in_code(text):
        """Code with clauses: strings stay, and in comments only names that are no plain words are turned."""
        out, last = [], 0
        for m in hidden.finditer(text):
            out += [turn(text[last:m.start()], table), m[0]]
            last = m.end()
        return "".join(out + [turn(text[last:], table)])

    camel = {o: n for o, n in table.items() if re.search(r"[a-z][A-Z]", o) or (o[0].isupper() and "-" in o)}
    for place, words in BEFORE.items():
        for path in [place] if place.endswith(".antt") else files(place, ".antt"):
            if os.path.exists(path):
                text = turn(read(path), words)
                with open(path, "w", encoding="utf-8") as f:
                    f.write(text)
    for ending in (".antt", ".rt", ".edit"):
        for path in files("crates", ending):
            mark = "--" if ending == ".antt" else "//"
            out = []
            for line in read(path).split("\n"):
                at = line.find(mark + " ") if line.lstrip().startswith(mark) or f" {mark} " in line else -1
                code, comment = (line, "") if at < 0 else (line[:at], line[at:])
                out.append(in_code(code) + turn(comment, camel))
            text = "\n".join(out)
            if text != read(path):
                with open(path, "w", encoding="utf-8") as f:
                    f.write(text)
    for path in [p for p in files("docs", ".md")] + ["README.md"]:
        text = re.sub(r"`[^`\n]*`", lambda m: turn(m[0], table), read(path))
        with open(path, "w", encoding="utf-8") as f:
            f.write(text)


main()
