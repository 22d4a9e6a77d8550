#!/usr/bin/env python3
"""port-names.py [--table FILE]: brings this repository's own definitions and lemmas to the kit's spelling, once, after the kit's port.py.

A name of specs/ or proofs/ in camel case is turned to snake case (`tidyRows`, `tidy_rows`). In a lemma's name a dash stays where it joins two definitions' names
(`length-entries`) and is an underscore before and after a plain word (`never_falls_yes`). Types, modules and operators keep their names, as do all names of src/.
Where two names would fall together in a file, one of them has a name of its own below. --table writes each name, old and new, and the files that declare it.
Run it at the top of the repository. It stops, and changes nothing, where two old names would have one new name."""
import collections
import os
import re
import sys

# where the plain rule gives a name that stands beside another use of it
OWN = {
    "rowMarks": "row_marks_of",
    "onRow": "beat_on_row",
    "byItself": "by_itself_at",
    "byNumber": "by_number_of",
    "fromZero": "from_zero_else",
    "goesOn": "goes_on_from",
    "keptBack": "kept_back_to",
    "lastDigits": "last_digits_of",
    "narrowedAt": "narrowed_at_place",
    "nearLast": "near_last_of",
    "rowsFit": "rows_fit_in",
    "tooLong": "too_long_number",
}
# words of the library that a lemma's name may join by a dash
LIBRARY = set("length map append reverse get_or set take drop sum min max zip filter fold add sub mul div round fits rint replicate concat all any".split())

TOKEN = re.compile(r"0x[0-9A-Fa-f_]+|[^\W\d][\w'?!]*(?:-[\w'?!]+)*")
DECLARED = re.compile(r"^\s*(?:abbrev |unfoldable |pub )*([^\s:(){}.]+)((?: [^\s:(){}.]+)*) *:(?![:=])")
LET = re.compile(r"\blet ([^\s:(){}.]+) *[:=]")


def antt(root):
    for folder, dirs, files in os.walk(os.path.join(root, "crates")):
        dirs[:] = sorted(d for d in dirs if d != "out")
        for name in sorted(files):
            if name.endswith(".antt"):
                yield os.path.join(folder, name)


def is_camel(word):
    return word[0].islower() and re.search(r"[a-z0-9][A-Z]", word) and "-" not in word


def snake(word):
    word = word.replace("getD", "get_or")
    word = re.sub(r"(?<=[a-z0-9])(?=[A-Z])", "_", word)
    return re.sub(r"(?<=[A-Z])(?=[A-Z][a-z])", "_", word).lower()


def read(path):
    with open(path, encoding="utf-8") as f:
        return f.read()


def code(text):
    return "\n".join(line for line in text.split("\n") if not line.lstrip().startswith("--"))


def names(root):
    """of each camel word of an .antt file, and each lemma with a dash, its new name"""
    camel, dashed, declared, everything = set(), set(), collections.defaultdict(set), set()
    for path in antt(root):
        text = code(read(path))
        everything |= set(TOKEN.findall(text))
        camel |= {w for w in TOKEN.findall(text) if is_camel(w)}
        of_function = re.search(r"/proofs/.+/", path)
        for line in text.split("\n"):
            m = DECLARED.match(line)
            if m:
                for word in [m[1], *m[2].split()]:
                    declared[word].add(path)
                    if "-" in word and not of_function:
                        dashed.add(word)
    new = {w: OWN.get(w, snake(w)) for w in camel}
    definitions = LIBRARY | {new.get(w, w) for w in declared if "-" not in w}
    parts = lambda word: [snake(p) if is_camel(p) else p for p in word.split("-")]
    taken = everything | set(new.values())
    for word in sorted(dashed):
        out, last = "", ""
        for part in parts(word):
            if not out:
                out = last = part
                continue
            joins = last in definitions and part in definitions and len(parts(word)) == 2
            out += ("-" if joins else "_") + part
            last = part
        if out != word:
            # a lemma that would have a definition's name
            new[word] = out + "_lem" if out in taken else out
    return new, declared, everything


def faults(new, everything):
    back = collections.defaultdict(set)
    for old, word in new.items():
        back[word].add(old)
    for word, olds in sorted(back.items()):
        if len(olds) > 1:
            yield f"{', '.join(sorted(olds))}: all would be {word}"


def turn(text, new, ticks_only=False):
    def one(m):
        word = m[0]
        if word.startswith("0x"):
            return word
        if word in new and not ("-" in word and m.start() and text_at[m.start() - 1] == "."):
            return new[word]
        if "-" in word:
            # a camel word within a generated or a function's own name
            return "-".join(new.get(p, p) if is_camel(p) else p for p in word.split("-"))
        return word

    text_at = text
    if not ticks_only:
        return TOKEN.sub(one, text)
    out = []
    for i, piece in enumerate(re.split(r"(`[^`\n]*`)", text)):
        if i % 2:
            text_at = piece
            piece = TOKEN.sub(one, piece)
        out.append(piece)
    return "".join(out)


def by_line(text, new, comment):
    """code whole; of a comment the words between backticks, and camel words everywhere"""
    camel = {w: n for w, n in new.items() if "-" not in w}
    lines = []
    for line in text.split("\n"):
        if line.lstrip().startswith(comment):
            line = turn(turn(line, camel), new, ticks_only=True)
        else:
            line = turn(line, new)
        lines.append(line)
    return "\n".join(lines)


def main():
    root = "."
    new, declared, everything = names(root)
    wrong = list(faults(new, everything))
    if wrong:
        sys.exit("\n".join(wrong))
    if "--table" in sys.argv:
        with open(sys.argv[sys.argv.index("--table") + 1], "w", encoding="utf-8") as f:
            for old in sorted(new):
                at = sorted(declared.get(old, []))
                if at:
                    f.write(f"{old}\t{new[old]}\t{' '.join(p.removeprefix('./crates/') for p in at[:3])}\n")
    camel = {w: n for w, n in new.items() if "-" not in w}
    changed = 0
    for folder, dirs, files in os.walk(root):
        dirs[:] = sorted(d for d in dirs if d not in ("out", ".git", "target", "bindings", "oracle", "bench", "tools"))
        for name in sorted(files):
            path = os.path.join(folder, name)
            if name.endswith(".antt"):
                after = by_line(before := read(path), new, "--")
            elif name.endswith(".rt"):
                after = by_line(before := read(path), camel, "//")
            elif name.endswith(".edit"):
                after = turn(before := read(path), new)
            elif name.endswith(".md") or path.startswith("./docs/") and name in ("one-outcome.txt", "calls-wrong.txt", "state-diagram.txt"):
                known = {w: n for w, n in new.items() if declared.get(w)}
                before = read(path)
                after = turn(turn(before, {w: n for w, n in known.items() if "-" not in w}), known, ticks_only=True)
            else:
                continue
            if after != before:
                changed += 1
                with open(path, "w", encoding="utf-8") as f:
                    f.write(after)
    print(f"port-names: {len(new)} names, {changed} files")


main()
