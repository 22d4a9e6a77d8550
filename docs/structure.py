#!/usr/bin/env python3
"""structure.py [--check]: writes docs/STRUCTURE.md and docs/structure.svg from crates.txt and the sources: the families of crates and what they stand on, and
for each crate its public calls with those who call them, its definitions and its laws. With --check it only says whether both are as they should be, whether
crates.txt lists for each crate just the crates that its files name, whether a definition's name stands in two crates, and whether crates that are held against each
other stand apart.

crates.txt has the families in the order in which data flows; a comment '# NAME: words' begins one."""
import html
import pathlib
import re
import sys

root = pathlib.Path(__file__).resolve().parent.parent
# libraries of the kit that a crate lists where its files name them; std is never listed
KIT = {"io", "libc", "check", "bytes", "os"}

# crates that are held against each other by a theorem, so that the first must not stand on the second, directly or through others
APART = [("clock_bench", "clock_walk")]


# ---- what crates.txt lists

def crates():
    """What is listed of each crate, and the families: a name, its words and its crates."""
    listed, families = {}, []
    for line in (root / "crates.txt").read_text().splitlines():
        heading = re.match(r"# ([^:]+): (.+)", line)
        if heading:
            families.append((heading.group(1), heading.group(2), []))
        elif ":" in line and not line.startswith("#"):
            # a static library has that word behind its name
            head, needs = line.split(":")
            name = head.split()[0]
            listed[name] = needs.split()
            if not families:
                sys.exit(f"structure: crates.txt lists {name} before any family")
            families[-1][2].append(name)
    return listed, families


def named(name, known):
    """The crates that a crate's own files name: in code as the head of a path, in definitions and proofs as `Rattle.NAME`."""
    found = set()
    for part in ("src", "specs", "proofs"):
        for path in (root / "crates" / name / part).rglob("*"):
            if path.suffix == ".rt":
                text = re.sub(r"//.*", "", path.read_text())
                # what is brought in from std, as `use std::io`, is no crate of that name
                of_std = {word for used in re.findall(r"\buse\s+(?:std|core)::([^;]*);", text) for word in re.findall(r"\b\w+\b(?!\s*::)", used)}
                found |= set(re.findall(r"(?<!:)\b(\w+)::", text)) - of_std | set(re.findall(r"\bRattle\.(\w+)\.", text))
            elif path.suffix == ".antt":
                found |= set(re.findall(r"\bRattle\.(\w+)\.", re.sub(r"--.*", "", path.read_text())))
    return (found & known) - {name}


def wrong_lists(listed):
    for name, needs in listed.items():
        used = named(name, set(listed) | KIT)
        for one in sorted(used ^ set(needs)):
            yield f"{name} names {one}, and crates.txt does not list it" if one in used else f"crates.txt lists {one} for {name}, whose files do not name it"


def twice(listed):
    """The names of definitions that two crates have."""
    found = {}
    for name in listed:
        for path in (root / "crates" / name / "specs").rglob("*.antt"):
            for word in re.findall(r"^ *(?:(?:abbrev|unfoldable) pub|pub record|pub data) ([^\s:(]+)", path.read_text(), re.M):
                found.setdefault(word, set()).add(name)
    for word, names in found.items():
        if len(names) > 1 and word != "use":
            yield f"{word} is defined in {' and in '.join(sorted(names))}"


def reached(listed):
    """All that a crate stands on, directly or through others."""
    below = {}

    def reach(name):
        if name not in below:
            own = [one for one in listed[name] if one in listed]
            below[name] = set(own).union(*(reach(one) for one in own))
        return below[name]

    for name in listed:
        reach(name)
    return below


def not_apart(listed):
    below = reached(listed)
    for one, other in APART:
        if one not in listed or other not in listed:
            yield f"{one} and {other} are to stand apart, and crates.txt does not list both"
        elif other in below[one]:
            yield f"{one} stands on {other}, which it is held against"


def implied(listed):
    """Of what a crate stands on, what none of the others stands on already."""
    below = reached(listed)
    return {name: [one for one in needs if one in listed and not any(one in below[other] for other in needs if other in listed and other != one)] for name, needs in listed.items()}


# ---- the picture: a lane for each family

COLOURS = ["#dbeafe", "#dcfce7", "#fef3c7", "#fde2e2", "#ede9fe", "#cffafe", "#fce7f3", "#e5e7eb"]
LEFT, HIGH, EDGE, BETWEEN = 210, 24, 16, 44


def columns_of(members, edges):
    """The crates of a lane by how deep they stand in it."""
    deep = {}

    def depth(name):
        if name not in deep:
            deep[name] = 1 + max((depth(one) for one in edges[name] if one in members), default=-1)
        return deep[name]

    found = {}
    for name in members:
        found.setdefault(depth(name), []).append(name)
    return [found[level] for level in sorted(found)]


def folded(words, wide):
    """Words in lines of at most so many letters."""
    lines = [""]
    for word in words:
        if lines[-1] and len(lines[-1]) + len(word) > wide:
            lines.append("")
        lines[-1] += word + " "
    return [line.strip() for line in lines]


def drawn(families, edges):
    first = set(families[0][2])
    boxes, lanes, y, wide = {}, [], 50, 0
    for at, (_, words, members) in enumerate(families):
        top, x, low = y, LEFT, y + 24 + 13 * len(folded(words.split(), 28))
        columns = columns_of(members, edges)
        # a lane in which none stands on another goes across
        for column in columns if len(columns) > 1 else [[name] for name in members]:
            size = max(16 + 7.2 * len(name) for name in column)
            # near what it stands on
            def wanted(name):
                below = [boxes[one][1] for one in edges[name] if one in boxes and one in members]
                return sum(below) / len(below) if below else top
            row = top + EDGE
            for name in sorted(column, key=wanted):
                others = [] if at == 0 else [one for one in edges[name] if one not in members and one not in first]
                tags = folded([f"{one}," for one in others[:-1]] + others[-1:], size / 5.6) if others else []
                boxes[name] = (x, row, size, at, tags)
                row += HIGH + 12 * len(tags) + 14
            low = max(low, row)
            x += size + BETWEEN
        lanes.append((top, low))
        wide = max(wide, x - BETWEEN + 24)
        y = low + 12
    height = y + 4
    out = [f'<svg xmlns="http://www.w3.org/2000/svg" viewBox="0 0 {wide:.0f} {height:.0f}" font-family="sans-serif" font-size="12">',
           f'<rect width="{wide:.0f}" height="{height:.0f}" fill="#fff"/>',
           '<text x="14" y="20" font-size="14">From the raw lists of a chart to a second: data goes from lane to lane, downward.</text>',
           '<text x="14" y="38" fill="#444">In a lane a crate stands on those left of it that a line leads to; below its name stand those of other lanes. What is implied, and the first lane, on which all stand, is left out.</text>']
    for at, ((name, words, _), (top, low)) in enumerate(zip(families, lanes)):
        out.append(f'<rect x="8" y="{top:.0f}" width="{wide - 16:.0f}" height="{low - top:.0f}" rx="8" fill="{COLOURS[at % 8]}" fill-opacity="0.5"/>')
        out.append(f'<text x="20" y="{top + 22:.0f}" font-weight="bold">{html.escape(name)}</text>')
        for i, line in enumerate(folded(words.split(), 28)):
            out.append(f'<text x="20" y="{top + 38 + 13 * i:.0f}" font-size="10.5" fill="#444">{html.escape(line)}</text>')
        if at:
            out.append(f'<path d="M{LEFT - 34} {top - 14:.0f}h16v8h7l-15 12l-15 -12h7z" fill="#889"/>')
    for name, needs in edges.items():
        x, row, _, at, _ = boxes[name]
        for one in needs:
            u, v, size, lane, _ = boxes[one]
            if lane == at:
                begin, end = u + size, row + HIGH / 2
                bend = max(14, (x - begin) / 2)
                out.append(f'<path d="M{begin:.0f} {v + HIGH / 2:.0f}C{begin + bend:.0f} {v + HIGH / 2:.0f} {x - bend:.0f} {end:.0f} {x:.0f} {end:.0f}" fill="none" stroke="#556"/>')
    for name, (x, row, size, at, tags) in boxes.items():
        out.append(f'<rect x="{x:.0f}" y="{row:.0f}" width="{size:.0f}" height="{HIGH}" rx="4" fill="{COLOURS[at % 8]}" stroke="#556"/>'
                   f'<text x="{x + size / 2:.0f}" y="{row + 16:.0f}" text-anchor="middle">{name}</text>')
        for i, line in enumerate(tags):
            out.append(f'<text x="{x + size / 2:.0f}" y="{row + HIGH + 11 + 12 * i:.0f}" font-size="10" fill="#933" text-anchor="middle">{line}</text>')
    return "\n".join(out + ["</svg>", ""])


# ---- the page

def first_words(path):
    line = path.read_text().splitlines()[0]
    words = re.sub(r"^(--|//) ?", "", line).strip()
    return re.sub(r" (Assumes nothing|Definitions only)\.$", "", words) if line.startswith(("--", "//")) else ""


def source_of(name):
    return next(path for path in (root / "crates" / name / "src").glob("*.rt") if path.stem in ("lib", "main"))


def files_of(folder):
    return [path for path in sorted(folder.glob("*.antt")) if path.stem not in ("Lib", "inside")] if folder.is_dir() else []


def calls(listed):
    """The public calls of each crate, each with the crates that call it or hand it on by its path."""
    code = {name: "\n".join(re.sub(r"//.*", "", path.read_text()) for path in (root / "crates" / name / "src").glob("*.rt")) for name in listed}
    found = {}
    for name, text in code.items():
        found[name] = {}
        for method in re.findall(r'^( *)pub (?:extern "C" )?fn (\w+)', text, re.M):
            # a path that goes on is a module's, but for type parameters
            path = rf"::{method[1]}\b(?!::\w)"
            pattern = rf"\b{name}{path}" if not method[0] else rf"\.{method[1]}(?:::<|\()|{path}"
            users = [other for other, one in code.items() if other != name and re.search(pattern, one) and (not method[0] or name in listed[other])]
            found[name][method[1]] = users
    return found


def written(listed, families, edges):
    called = calls(listed)
    out = ["# Crates, calls, definitions and laws", "",
           "Written by `docs/structure.py` from crates.txt and the sources. A crate stands on those that a line leads up to; lines that others imply, and those to the first family, are left out.", "",
           "![the crates by family and by what they stand on](structure.svg)", ""]
    for family, words, members in families:
        out += [f"# {family[0].upper()}{family[1:]}", "", f"{words[0].upper()}{words[1:]}.", ""]
        for name in members:
            folder = root / "crates" / name
            out += [f"## {name}", "", first_words(source_of(name)), ""]
            if edges[name]:
                out += [f"Stands on {', '.join(edges[name])}.", ""]
            used = {call: users for call, users in called[name].items() if users}
            if used:
                out += ["| calls that others use | by |", "|---|---|"]
                out += [f"| `{call}` | {', '.join(users)} |" for call, users in used.items()]
                out.append("")
            for title, files in (("definitions", files_of(folder / "specs")), ("steps", files_of(folder / "specs/inside")), ("laws", files_of(folder / "proofs"))):
                if files:
                    out += [f"| {title} | |", "|---|---|"]
                    out += [f"| [{path.stem}](../{path.relative_to(root)}) | {first_words(path).replace('|', '/')} |" for path in files]
                    out.append("")
    return "\n".join(out)


def main():
    listed, families = crates()
    wrong = list(wrong_lists(listed)) + list(twice(listed)) + list(not_apart(listed))
    if wrong:
        sys.exit("structure: " + "; ".join(wrong))
    edges = implied(listed)
    wanted = {"STRUCTURE.md": written(listed, families, edges), "structure.svg": drawn(families, edges)}
    if sys.argv[1:] == ["--check"]:
        old = [name for name, text in wanted.items() if not (root / "docs" / name).is_file() or (root / "docs" / name).read_text() != text]
        sys.exit(f"structure: {', '.join(old)} is not what docs/structure.py writes" if old else 0)
    for name, text in wanted.items():
        (root / "docs" / name).write_text(text)


main()
