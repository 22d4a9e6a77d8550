#!/usr/bin/env python3
"""state-diagram.py [--check]: makes docs/state-diagram.svg and the table of arrows in docs/STATE-DIAGRAM.md of docs/state-diagram.txt, and refuses an arrow whose
law is not in the proofs. With --check it writes nothing and only says whether both are as they should be. It needs nothing but Python."""
import html
import pathlib
import re
import sys

HERE = pathlib.Path(__file__).resolve().parent
LAWS = HERE.parent / "crates/process_sm_machine/proofs"
PAGE = HERE / "STATE-DIAGRAM.md"
BEGIN, END = "<!-- the arrows: written by docs/state-diagram.py -->", "<!-- the end of the arrows -->"
WIDTH, ROW = 1720, 92
CLOSED, OPEN = (300, 460), (1000, 1160)
TOP = 214
TITLE, INK, SOFT, WARM, COOL, MARK = "#1d2733", "#2b3a4a", "#5b6b7b", "#fbe3d3", "#dcebf7", "#9a3412"


def arrows():
    known = {law for file in LAWS.glob("*.antt") for law in re.findall(r"^\s*pub (\S+) :", file.read_text(), re.M)}
    table = []
    for line in (HERE / "state-diagram.txt").read_text().splitlines():
        if line.startswith("#") or not line.strip():
            continue
        start, to, comes, where, follows, writes, law = [part.strip() for part in line.split("|")]
        if law not in known:
            sys.exit(f"state-diagram: no law {law} in crates/process_sm_machine/proofs")
        table.append((start, to, comes, where, follows, writes, law))
    return table


def text(x, y, words, size=13, fill=INK, weight="normal", anchor="start", family="Helvetica, Arial, sans-serif"):
    return f'<text x="{x}" y="{y}" font-family="{family}" font-size="{size}" fill="{fill}" font-weight="{weight}" text-anchor="{anchor}">{html.escape(words)}</text>'


def label(x, y, arrow, anchor, before=""):
    """Four lines: what comes and where, what follows, what is written, the law. y is the height of the arrow, between the second and the third."""
    _, _, comes, where, follows, writes, law = arrow
    head = before + (comes if where == "always" else f"{comes} {where}" if before else f"{comes}: {where}")
    lines = [text(x, y - 24, head, 14, TITLE, "bold", anchor)]
    if follows:
        lines.append(text(x, y - 8, "→ " + follows, 13, SOFT, anchor=anchor))
    lines.append(text(x, y + 18, "writes " + writes, 13, MARK if writes != "nothing" else SOFT, anchor=anchor))
    lines.append(text(x, y + 34, law, 12, SOFT, anchor=anchor, family="Menlo, Consolas, monospace"))
    return lines


def line(points, out):
    out.append(f'<path d="{points}" fill="none" stroke="{INK}" stroke-width="1.6" marker-end="url(#tip)"/>')


def no_line(here, there, y, out):
    """An arrow that is not there: dashed, and crossed out at either end of its label."""
    out.append(f'<path d="M{here},{y} L{there},{y}" fill="none" stroke="{MARK}" stroke-width="1.6" stroke-dasharray="7 6" marker-end="url(#red-tip)"/>')
    for x in (here + (there - here) // 12, there - (there - here) // 12):
        out.append(f'<path d="M{x - 9},{y - 9} L{x + 9},{y + 9} M{x - 9},{y + 9} L{x + 9},{y - 9}" fill="none" stroke="{MARK}" stroke-width="2.6"/>')


def drawn(table):
    of = lambda start, to: [a for a in table if (a[0], a[1]) == (start, to)]
    rows = max(len(of("Closed", "Closed")), len(of("Open", "Open")), len(of("Closed", "Open")) + len(of("Open", "Closed")) + len(of("Open", "no Closed")))
    bottom = TOP + rows * ROW
    height = bottom + 170
    out = [
        f'<svg xmlns="http://www.w3.org/2000/svg" width="{WIDTH}" height="{height}" viewBox="0 0 {WIDTH} {height}">',
        f'<defs><marker id="tip" viewBox="0 0 10 10" refX="9" refY="5" markerWidth="8" markerHeight="8" orient="auto"><path d="M0,0 L10,5 L0,10 z" fill="{INK}"/></marker>'
        f'<marker id="red-tip" viewBox="0 0 10 10" refX="9" refY="5" markerWidth="8" markerHeight="8" orient="auto"><path d="M0,0 L10,5 L0,10 z" fill="{MARK}"/></marker></defs>',
        f'<rect width="{WIDTH}" height="{height}" fill="white"/>',
        text(24, 36, "SM timing: the states, and every arrow between them", 20, TITLE, "bold"),
        text(24, 58, "A change is two arrows: first time up to its beat, then the tempo or the stop. A tempo fits that is above 0 and not above 9,999,999. In the arrows of time, owed is what is owed at the new beat.", 13, SOFT),
    ]
    for (left, right), name, lines, fill in ((CLOSED, "Closed", ("no warp", "", "tempo in force", "beat reached"), COOL), (OPEN, "Open", ("in a warp", "", "tempo in force", "beat reached", "start", "former tempo", "time owed"), WARM)):
        out.append(f'<rect x="{left}" y="{TOP - 40}" width="{right - left}" height="{bottom - TOP + 20}" rx="14" fill="{fill}" stroke="{INK}" stroke-width="1.6"/>')
        middle, centre = (left + right) // 2, (TOP - 40 + bottom - 20) // 2
        out.append(text(middle, centre - 60, name, 22, TITLE, "bold", "middle"))
        for i, words in enumerate(lines):
            out.append(text(middle, centre - 34 + 18 * i, words, 13, SOFT, anchor="middle"))

    # the opening, from above, to both sides of its line
    x = sum(CLOSED) // 2
    out.append(f'<circle cx="{x}" cy="94" r="8" fill="{INK}"/>')
    line(f"M{x},102 L{x},{TOP - 42}", out)
    for arrow, side, anchor in zip(of("begin", "Closed"), (-18, 18), ("end", "start")):
        out += label(x + side, 118, arrow, anchor)

    # loops: out of the outer side and in again
    for state, edge, way, anchor in (("Closed", CLOSED[0], -1, "end"), ("Open", OPEN[1], 1, "start")):
        for i, arrow in enumerate(of(state, state)):
            y = TOP + ROW * i + ROW // 2 - 24
            line(f"M{edge},{y - 12} C{edge + way * 56},{y - 18} {edge + way * 56},{y + 18} {edge + way * 2},{y + 12}", out)
            out += label(edge + way * 54, y, arrow, anchor)

    # across
    middle = (CLOSED[1] + OPEN[0]) // 2
    across = [(a, CLOSED[1], OPEN[0] - 2) for a in of("Closed", "Open")] + [(a, OPEN[0], CLOSED[1] + 2) for a in of("Open", "Closed")]
    for i, (arrow, here, there) in enumerate(across):
        y = TOP + ROW * i + ROW // 2 - 24
        line(f"M{here},{y} L{there},{y}", out)
        out += label(middle, y, arrow, "middle")
    for i, arrow in enumerate(of("Open", "no Closed"), len(across)):
        y = TOP + ROW * i + ROW // 2 - 24
        no_line(OPEN[0], CLOSED[1] + 2, y, out)
        out += label(middle, y, arrow, "middle", "no arrow: ")

    # the end, below
    for (left, right), state in ((CLOSED, "Closed"), (OPEN, "Open")):
        x = (left + right) // 2
        line(f"M{x},{bottom - 20} L{x},{bottom + 66}", out)
        out.append(f'<circle cx="{x}" cy="{bottom + 78}" r="10" fill="white" stroke="{INK}" stroke-width="1.6"/><circle cx="{x}" cy="{bottom + 78}" r="5" fill="{INK}"/>')
        for arrow in of(state, "end"):
            out += label(x + 18, bottom + 28, arrow, "start")
    out.append(text(24, height - 26, "Red: what is written; dashed and crossed out: an arrow that is not there. A warp is written only where it goes forward, and the tempo after a warp, at the warp's start, only where it isn't the former tempo.", 13, SOFT))
    out.append("</svg>")
    return "\n".join(out) + "\n"


def tabled(table):
    """The arrows as a table, and below it those that are not there."""
    out = ["| from | what comes | where | to | what is written | law |", "|---|---|---|---|---|---|"]
    for start, to, comes, where, follows, writes, law in table:
        if not to.startswith("no "):
            there = {"end": "Closed"}.get(to, to) + (f": {follows}" if follows else "")
            out.append(f"| {'' if start == 'begin' else start} | {comes} | {where} | {there} | {writes} | `{law}` |")
    for start, to, comes, where, follows, writes, law in table:
        if to.startswith("no "):
            out += ["", f"There is no arrow from {start} to {to[3:]} for {comes} {where}: {follows}, and {writes} is written (`{law}`)."]
    return "\n".join(out)


def main():
    table = arrows()
    before, rest = PAGE.read_text().split(BEGIN)
    page = f"{before}{BEGIN}\n{tabled(table)}\n{END}{rest.split(END)[1]}"
    wanted = {HERE / "state-diagram.svg": drawn(table), PAGE: page}
    if sys.argv[1:] == ["--check"]:
        old = [file.name for file, text in wanted.items() if file.read_text() != text]
        sys.exit(f"state-diagram: {', '.join(old)} is not what docs/state-diagram.py writes" if old else 0)
    for file, text in wanted.items():
        file.write_text(text)


main()
