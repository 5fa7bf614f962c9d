#!/usr/bin/env python3
"""Surveys as tables of decimal readings, as survey text, and what the split says of them, in words and as pictures.

    survey.py text TABLE.csv ... [--id N]   tables into one survey text, which the program `split` reads
    survey.py table SURVEY.txt              survey text back into tables, every double exactly (any NaN as nan)
    survey.py show TABLE.csv|SURVEY.txt     what the split says, for a terminal
    survey.py picture TABLE.csv             the same as an SVG: profile of the roadway, drift of the fan, what is left over
    survey.py values TABLE.csv              the strengths in order, each with its share, as an SVG

A table has a line for each station and a column for each pass, with commas or blanks between; nan is a reading that
failed. Stations and passes count from 0. A line that begins with # is a comment; the first is the title. Three kinds of
comment are read: `# survey N` begins a table and gives its id, `# stations 0 1 3` says which stations the rows are where
some are left out, and `# area 10.2 9.8 11` gives the cross-section at each of them in m2. With areas the air speeds become
quantities, and a leak can be told from a wide place; the stations then stand in the order in which the air passes them.
What the split says comes from the library: run samples/build first.
"""
import argparse
import math
import pathlib
import sys
import textwrap

from drawing import ROW, bars, cells, heading, listed, lying, number, page, text, wrapped
from findings import Finding, count, share_words
from tables import Fault, from_text, read, to_decimals, to_text


def sizes(found):
    finest = f" to {found.table.step():.{found.table.places}f}" if 1 <= found.table.places <= 4 else ""
    return f"{count(found.m, 'station')}, {count(found.n, 'pass')}, readings in m/s{finest}"


# The pictures

def caption(found):
    """What the picture says: a headline or none, and the sentences under it."""
    if found.refused:
        return found.verdict(), [found.remedy() + " Below are the readings as they came in.", found.rows_note()]
    if found.values:
        notes = [f"{found.verdict()} {found.strengths()}"] + ([found.reason] if found.reason else [])
    else:
        notes = found.unfinished()
    if found.leak:
        notes.append(found.leak.sentence())
    if found.shown:
        notes.append(found.left_over())
    return "" if found.values else found.verdict(), notes + [found.rows_note()]


def panels(found, y):
    """Profile, drift and what is left over, from y on; and where they end."""
    leak, step, places = found.leak, found.table.step(), min(3, max(2, found.table.places))
    under = [("station", found.names)]
    if found.quantity:
        under.append(("m3/s", [number(q, 1) for q in found.quantity]))
    out = bars((70, y, 440, 170), found.profile, 2, "",
               ("Profile of the roadway, m/s", "s1 u1 times the mean of v1: the strongest part, averaged over passes"),
               under, (leak.after, leak.words()) if leak and leak.marked else None)
    out += bars((70, y + 302, 440, 130), found.drift, 1, "+",
                ("Drift of the fan, %", "v1 against its mean: each pass above or below the mean pass"),
                [("pass", [str(j) for j in range(found.n)])])
    # Mere noise stays pale: full colour is 25 steps of the instrument, unless something larger is left over.
    most, full = max(abs(x) for row in found.rest for x in row), max(0.01, 25 * step)
    shade = "the largest left over" if most > full else f"25 times the last place read ({step:.{places}f})"
    full = max(full, most)
    more, foot = cells(600, y, found.rest, found.names, "+", places, full,
                       ("What is left over, m/s", "readings less the strongest part s1 u1 v1\u2032",
                        f"full colour at {number(full, places)} m/s, {shade}"))
    return out + more, max(y + 460, foot)


def readings(found, y):
    """The readings themselves, where there is no strongest part to show; and where they end."""
    finite = [x for row in found.rows for x in row if math.isfinite(x)]
    sign, full = "+" if any(x < 0 for x in finite) else "", max(map(abs, finite), default=0.0) or 0.01
    crosses = "; a cross is a reading that is no finite number" if len(finite) < found.m * found.n else ""
    return cells(70, y, found.rows, found.names, sign, 2, full, ("The readings, m/s", "as they came in" + crosses))


def title(found):
    return found.table.title or "A survey"


def top(found, headline):
    """The title, the sizes and a headline or none, red but for a quiet run, which is no failure; and where they end."""
    out, y = [], 12
    for line in wrapped(title(found), 20):
        out.append(text(24, y := y + 26, line, "title"))
    out.append(text(24, y := y + 22, sizes(found), "soft"))
    for line in wrapped(headline, 14) if headline else []:
        out.append(text(24, y := y + 28, line, "head" if found.quiet else "head warn"))
    return out, y


def sentences(notes, y):
    """The notes in lines from y on; and where they end."""
    lines = [line for note in notes for line in wrapped(note)]
    return [text(24, y + 20 * i, line) for i, line in enumerate(lines, 1)], y + 20 * len(lines)


def picture(table):
    found = Finding(table)
    headline, notes = caption(found)
    out, y = top(found, headline)
    if found.shown:
        drawn, y = panels(found, y + 98)
        said, y = sentences(notes, y + 14)
    else:
        said, y = sentences(notes, y + 4)
        drawn, y = readings(found, y + 98)
    return page(title(found), out + said + drawn, math.ceil(y + 28))


def values(table):
    """The strengths in order with their shares, ten at most; where they are not final, why not."""
    found = Finding(table)
    out, y = top(found, "" if found.values else found.verdict())
    if not found.values:
        notes = [] if found.refused or found.calm else [found.strengths(), found.reason]
        notes = [found.remedy() if found.refused else found.still() if found.quiet else ""] + notes
        said, y = sentences(filter(None, notes), y + 4)
        return page(title(found), out + said, y + 28)
    y, shares = y + 116, found.shares()
    rows = [(str(k), *words) for k, words in enumerate(found.listed())]
    out += heading(70, y - 18, ("Strengths, greatest first", "share: its square over the sum of the squares of all"))
    out += listed((70, 150, 224), y, ("column", "strength", "share"), rows)
    parts = [share / 100 for share in shares] or [0.0] * len(rows)
    out += lying((248, y, 232), parts[:10], [""] * len(rows), ("0", "50 %", "100 %"))
    if len(rows) > 1 and found.values[1]:
        out += heading(606, y - 18, ("Without the first, drawn larger", "the other strengths, on a scale of their own"))
        out += listed((606,), y + ROW, ("column",), [row[:1] for row in rows[1:]])
        parts = [s / found.values[1] for s in found.values[1:10]]
        out += lying((630, y + ROW, 236), parts, [row[1] for row in rows[1:]])
    notes = [found.verdict()]
    if len(shares) > 1:
        notes[0] += (f" The first strength has {share_words(shares[0])} of the whole, the others together have "
                     f"{share_words(math.fsum(shares[1:]))}.")
    if len(found.values) > 10:
        notes.append(f"These are the first ten of {len(found.values)}.")
    notes.append("Each belongs to its column of U, over the stations, and of V, over the passes; columns count from 0.")
    said, y = sentences(notes, y + ROW * len(rows) + 32)
    return page(title(found), out + said, math.ceil(y + 28))


# The words for a terminal

WIDE = 100


def columns(heads, rows):
    """Lines of columns, each as wide as its widest word, all to the right."""
    wide = [max(map(len, column)) for column in zip(heads, *rows)]
    return ["  " + "   ".join(word.rjust(size) for word, size in zip(row, wide)) for row in (heads, *rows)]


def strengths(found):
    """The first ten strengths in columns, each with its share and with the column of U and V that it belongs to."""
    lines = columns(("strength", "share", "column of U and V"),
                    [(s, share or "-", str(k)) for k, (s, share) in enumerate(found.listed())])
    more = len(found.values) - 10
    lines += [f"  and {more} smaller"] if more > 0 else []
    return ["Strengths, greatest first; the share is of the readings' sum of squares"] + lines


def profile(found):
    """Air speed at each station and, where the areas are given, quantity; a leak that was found stands at its place."""
    heads, lists = ["station", "m/s"], [found.names, [number(x, 2) for x in found.profile]]
    if found.quantity:
        heads += ["m2", "m3/s"]
        lists += [[f"{x:g}" for x in found.table.area], [number(x, 1) for x in found.quantity]]
    lines = ["Profile of the roadway"] + columns(heads, list(zip(*lists)))
    if found.leak and found.leak.marked:
        lines.insert(2 + found.leak.after, f"  {'-' * (len(lines[1]) - 2)}   {found.leak.words()}")
    return lines


def show(table):
    """What the split says of a table, in lines of at most 100 characters."""
    found = Finding(table)
    name = f"Survey {table.number}" if table.number else "A survey"
    head = [f"{name}: {table.title}" if table.title else name, sizes(found)]
    if found.refused:
        parts = [head, [found.verdict(), found.remedy()]]
    elif found.values:
        parts = [head, [found.verdict()] + ([found.reason] if found.reason else []), strengths(found)]
    else:
        parts = [head, [found.verdict()] + found.unfinished()]
    if found.shown:
        parts += [profile(found)] + ([[found.leak.sentence()]] if found.leak else [])
        drift = [(str(j), number(x, 1, "+")) for j, x in enumerate(found.drift)]
        parts += [["Drift of the fan"] + columns(("pass", "%"), drift), [found.left_over()]]
    lines = [line for part in parts for words in part + [""]
             for line in ([words] if len(words) <= WIDE else textwrap.wrap(words, WIDE))]
    return "\n".join(lines).replace("\u2212", "-").replace("\u2032", "'").replace("\u2019", "'")


def main():
    parser = argparse.ArgumentParser(description=__doc__, formatter_class=argparse.RawDescriptionHelpFormatter)
    parser.add_argument("what", choices=("text", "table", "show", "picture", "values"))
    parser.add_argument("files", nargs="+", type=pathlib.Path)
    parser.add_argument("--id", type=int, help="id of the first survey; the others count up from it")
    given = parser.parse_args()
    try:
        if given.what == "table":
            result = "\n".join(to_decimals(from_text(path)) for path in given.files)
        else:
            tables = [table for path in given.files for table in read(path)]
            if given.what in ("picture", "values") and len(tables) != 1:
                raise Fault("a picture shows one table")
            result = (to_text(tables, given.id) if given.what == "text" else picture(tables[0]) if given.what == "picture"
                      else values(tables[0]) if given.what == "values" else "\n".join(map(show, tables)))
    except (Fault, OSError, UnicodeDecodeError) as error:
        sys.exit(f"survey.py: {error}")
    sys.stdout.buffer.write(result.encode())


if __name__ == "__main__":
    main()
