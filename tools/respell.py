#!/usr/bin/env python3
"""Brings the repository's own definitions and lemmas to the spelling of today's Rattle, in crates/.

usage: python3 tools/respell.py [--names] [FOLDER]     FOLDER: the top of the repository, this one by default
       --names only prints each old name with its new one

Run once, behind port.py. Names of types, modules, functions of src/ and declared variants stay, and so do strings.
- A definition, field or variable in lower camel case goes to snake case: `operandsOf` is `operands_of`.
- A lemma of several words joined by dashes goes to snake case: `even-at` is `even_at`. Where that is a definition's
  name, the lemma's ends in `_lem`.
- The constructors of a Short instruction, named with an `s` before, have the word: `sAdd` is `ShortAdd`.
- In specs/ and in clauses, `eqb a b`, `ltb`, `leb` and `get_or xs i 0` are `a == b`, `nat_lt`, `nat_le`, `slice_index`.
"""

import os
import re
import sys

NAME = re.compile(r"(?<![\w'-])[^\W\d][\w']*(?:-[\w']+)*")
CAMEL = re.compile(r"[a-z][a-z0-9]*[A-Z]")
DECLARED = re.compile(r"^ *(?:(?:abbrev|unfoldable|pub) )*([^\W\d][\w'-]*)(?: \{\w+\})? :(?:\s|$)", re.M)
ALIAS = re.compile(r"s(?=(?:Mov|Add|Addi|Ld|St|Bz|Bnz|Jr|Jal|Ldi|Ret|Unknown)$)")
# Lemmas that port.py spells as the definitions `leftAfter` and `handsOn` are spelled here.
SAME = {"left_after", "hands_on"}
WORDS = {"eqb": "◌==◌", "ltb": "nat_lt", "leb": "nat_le", "get_or": "slice_index"}


def files(root):
    for folder, dirs, names in os.walk(os.path.join(root, "crates")):
        dirs[:] = sorted(d for d in dirs if d != "out")
        for name in sorted(names):
            if name.endswith((".rt", ".antt", ".edit")):
                yield os.path.join(folder, name)


def snake(name):
    if ALIAS.match(name):
        return "Short" + name[1:]
    return re.sub(r"(?<=[a-z0-9_])[A-Z]", lambda m: "_" + m.group().lower(), name)


def without_comments(text, mark):
    return "\n".join(re.sub(r"(^|\s)" + mark + r"(\s.*)?$", r"\1", line) for line in text.split("\n"))


def new_names(texts):
    """Each old name with its new one; declared: the names that a file of specs/ or proofs/ declares."""
    seen, declared = set(), set()
    for path, text in texts.items():
        if path.endswith(".antt"):
            code = without_comments(text, "--")
            seen |= {m.group() for m in NAME.finditer(code)}
            declared |= set(DECLARED.findall(code))
    new = {n: snake(n) for n in seen if CAMEL.match(n) and "-" not in n}
    taken = set(new.values()) | {n for n in seen if "-" not in n}
    for n in sorted(declared):
        if "-" in n:
            to = snake(n).replace("-", "_")
            new[n] = to + "_lem" if to in taken and not to.endswith("_spec") else to
    for n in SAME & declared:
        new[n] = n + "_lem"
    return new


def renamed(text, new):
    return NAME.sub(lambda m: new.get(m.group(), m.group()), text)


def outside_strings(text):
    """The text with its strings set apart, at the odd places of the list, so that only code and comments are renamed."""
    return re.split(r'("(?:[^"\\\n]|\\.)*")', text)


def term(text, at):
    """The end of the argument that begins at `at`: a name with its fields, a number, or what stands in brackets."""
    if text[at] in "(":
        depth = 0
        for k in range(at, len(text)):
            depth += (text[k] == "(") - (text[k] == ")")
            if depth == 0:
                end = k + 1
                break
    else:
        end = re.compile(r"[\w'◌]+").match(text, at).end()
    more = re.compile(r"(?:\.[\w']+)+").match(text, end)
    return more.end() if more else end


def arguments(text, at, count):
    found = []
    for _ in range(count):
        at += re.compile(r"\s*").match(text, at).end() - at
        if at >= len(text) or not re.match(r"[\w'(]", text[at]):
            return None, at
        end = term(text, at)
        found.append(text[at:end])
        at = end
    return found, at


def as_tests(text):
    """`eqb a b` as `a == b`, from the right, so that inner ones are turned first."""
    for m in reversed(list(re.finditer(r"(?<![\w'.{◌-])(?:eqb|get_or)(?= )", text))):
        word = m.group()
        args, end = arguments(text, m.end(), 2 if word == "eqb" else 3)
        if args is None:
            continue
        if word == "eqb":
            to = f"{args[0]} == {args[1]}"
        elif args[2] == "0":
            to = f"slice_index {args[0]} {args[1]}"
        else:
            to = f"slice_index_or {args[0]} {args[1]} {args[2]}"
        text = text[: m.start()] + to + text[end:]
    return re.sub(r"(?<![\w'.-])(ltb|leb)(?![\w'-])", lambda m: WORDS[m.group()], text)


def imports(text, body):
    """The lists of names from Prelude, with today's words in place of the older ones."""

    def turn(m):
        names = []
        for n in re.split(r",\s*", m.group(2).strip()):
            for to in [WORDS.get(n, n)] + (["slice_index_or"] if n == "get_or" else []):
                used = to != "slice_index" and to != "slice_index_or" or re.search(r"(?<!\w)" + to + r"(?!\w)", body)
                if used and to not in names:
                    names.append(to)
        return m.group(1) + ", ".join(names) + "}"

    return re.sub(r"((?:ghost )?use Rattle\.std\.specs\.Prelude\.\{)([^}]*)\}", turn, text)


def respelled(path, text, new):
    if path.endswith(".rt"):
        new = {a: b for a, b in new.items() if CAMEL.match(a) and "-" not in a}
    if not path.endswith(".edit"):
        text = "".join(p if k % 2 else renamed(p, new) for k, p in enumerate(outside_strings(text)))
    else:
        text = renamed(text, new)
    if os.sep + "proofs" + os.sep in path or path.endswith(".edit"):
        return text
    if path.endswith(".rt"):
        text = re.sub(r"(?m)^\s*(?:requires|ensures)\b.*$", lambda m: as_tests(m.group()), text)
    else:
        text = "\n".join(line if line.startswith(("use ", "pub use ")) else as_tests(line) for line in re.split(r"\n(?! )", text))
    return imports(text, re.sub(r"(?m)^(?:ghost |pub )?use .*$", "", text))


def main(argv):
    only = "--names" in argv
    rest = [a for a in argv if a != "--names"]
    root = rest[0] if rest else os.path.join(os.path.dirname(os.path.realpath(__file__)), "..")
    texts = {}
    for path in files(root):
        with open(path, encoding="utf-8") as f:
            texts[path] = f.read()
    new = new_names(texts)
    if only:
        print("\n".join(f"{a} {b}" for a, b in sorted(new.items())))
        return 0
    for path, text in texts.items():
        to = respelled(path, text, new)
        if to != text:
            with open(path, "w", encoding="utf-8") as f:
                f.write(to)
    return 0


if __name__ == "__main__":
    raise SystemExit(main(sys.argv[1:]))
