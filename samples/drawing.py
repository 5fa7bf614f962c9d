"""The parts that survey.py makes its pictures of: words, bars, coloured cells, the page. Light and dark."""
import html
import math
import re

STYLE = """
  svg { font-family: system-ui, -apple-system, "Segoe UI", Roboto, "Helvetica Neue", Arial, "DejaVu Sans", sans-serif; }
  text { fill: #1f2328; font-size: 12px; }
  .title { font-size: 20px; font-weight: 600; } .head { font-size: 14px; font-weight: 600; }
  .page { fill: #ffffff; } .soft { fill: #59636e; } .warn { fill: #b3261e; } .bar { fill: #2a6fb0; }
  .grid { stroke: #d1d9e0; } .axis { stroke: #59636e; } .cross { stroke: #b3261e; stroke-width: 2.5; }
  .mark { stroke: #b3261e; stroke-width: 2; stroke-dasharray: 6 3; }
  .value { stroke: #ffffff; stroke-width: 4px; stroke-linejoin: round; paint-order: stroke; }
  @media (prefers-color-scheme: dark) {
    text { fill: #e6edf3; }
    .page { fill: #0d1117; } .soft { fill: #9da7b1; } .warn { fill: #ff8a80; } .bar { fill: #6cb0f0; }
    .grid { stroke: #30363d; } .axis { stroke: #9da7b1; } .cross, .mark { stroke: #ff8a80; } .value { stroke: #0d1117; }
  }
  .ink { fill: #14181d; } .chalk { fill: #ffffff; }
"""
PAGE, MARGIN = 960, 24


def text(x, y, words, kind="", anchor="start", extra=""):
    return f'<text x="{x:.1f}" y="{y:.1f}" class="{kind}" text-anchor="{anchor}"{extra}>{html.escape(words)}</text>'


def number(x, places, sign=""):
    """x to so many places, or where it is huge to four digits, with a true minus and no sign before a zero."""
    x = round(x, places)
    form = ".4g" if abs(x) >= 1e5 else f".{places}f"
    return f"{x:{sign}{form}}".replace("-", "\u2212") if x else f"{0:.{places}f}"


def width(words):
    """At most how many pixels the words take at 12 px: so many as in DejaVu Sans, the widest of the fonts."""
    kinds = ((" .,:;'ijl|/\u2019", 4.1), ("()ftr", 5.0), ("abcdeghknopqsuvxyz0123456789-", 7.7))
    return sum(next((most for kind, most in kinds if c in kind), 12.0) for c in words)


def wrapped(words, size=12):
    """The words in lines that fit the page, units not parted from their numbers; sizes above 12 are bold."""
    room, lines = (PAGE - 2 * MARGIN) * 12 / size / (1.1 if size > 12 else 1), [""]
    for word in re.split("(?<!<) (?!m3?/s|%)", words):
        if lines[-1] and width(f"{lines[-1]} {word}") > room:
            lines.append("")
        lines[-1] = f"{lines[-1]} {word}".strip()
    return lines


def heading(x, y, heads):
    """A panel's heading and the softer lines under it, above a panel that begins at y."""
    kinds = ["head"] + ["soft"] * (len(heads) - 1)
    return [text(x - 46, y - 52 + 18 * i, words, kind) for i, (words, kind) in enumerate(zip(heads, kinds))]


def scale(values, places, high):
    """The step of a scale for the values, and its first and last line in steps, with 18 px to spare for the numbers."""
    top, bottom = max(0.0, *values), min(0.0, *values)
    step = next(f * 10.0 ** e for e in range(-places, 11) for f in (1, 2, 5) if 5 * f * 10.0 ** e >= top - bottom)
    first, last = math.floor(bottom / step), max(math.ceil(top / step), bottom == 0)
    while (top > 0 or bottom == 0) and (last - top / step) * high < 18 * (last - first):
        last += 1
    while bottom < 0 and (bottom / step - first) * high < 18 * (last - first):
        first -= 1
    return step, first, last


def row_under(x, y, wide, name, words, whole):
    """A row of words under the bars, as many as have room; one that is of use as a whole only, whole or not at all."""
    room = wide / len(words)
    every = math.ceil((max(map(width, words)) + 2) / room)
    if whole and every > 1:
        return []
    places = range(0, len(words), every)
    return [text(x - 8, y, name, "soft", "end")] + [text(x + (i + 0.5) * room, y, words[i], "soft", "middle") for i in places]


def bars(box, values, places, sign, heads, under, mark=None):
    """A bar for each value from a zero line, its number at its end, a scale to the left, and under the bars rows of words,
    each with its name. A mark is a line before a bar, with words above it."""
    x, y, wide, high = box
    values = [round(value, places) for value in values]
    step, first, last = scale(values, places, high)
    def at(value): return y + (last - value / step) / (last - first) * high
    out, room = heading(x, y, heads), wide / len(values)
    for i in range(first, last + 1):
        out.append(f'<path class="{"grid" if i else "axis"}" d="M{x} {at(i * step):.1f}h{wide}"/>')
        digits = max(0, math.ceil(-math.log10(step) - 1e-9))
        out.append(text(x - 8, at(i * step) + 4, number(i * step, digits, sign), "soft", "end"))
    shown = [number(value, places, sign) for value in values]
    for i, value in enumerate(values):
        middle, end = x + (i + 0.5) * room, at(value)
        out.append(f'<rect class="bar" x="{middle - 0.34 * room:.1f}" y="{min(end, at(0)):.1f}" '
                   f'width="{0.68 * room:.1f}" height="{abs(end - at(0)):.1f}"/>')
        if max(map(width, shown)) <= room:
            out.append(text(middle, end - 5 if value >= 0 else end + 14, shown[i], "value", "middle"))
    for line, (name, words) in enumerate(under):
        out += row_under(x, y + high + 20 + 18 * line, wide, name, words, line > 0)
    if mark:
        here, half = x + mark[0] * room, width(mark[1]) / 2
        out.append(f'<path class="mark" d="M{here:.1f} {y - 4}v{high + 4}"/>')
        out.append(text(min(max(here, x - 46 + half), x + wide - half), y - 10, mark[1], "warn", "middle"))
    return out


ROW = 26


def listed(edges, y, names, rows):
    """Rows of words from y on, in columns that end at the edges, the columns' names above."""
    out = [text(edge, y - 10, name, "soft", "end") for edge, name in zip(edges, names)]
    return out + [text(edge, y + (i + 0.5) * ROW + 4, word, "", "end")
                  for i, row in enumerate(rows) for edge, word in zip(edges, row)]


def lying(box, parts, words, scale=("",)):
    """Bars in rows from y on, each its part of the whole width, with words at its end; under them a scale whose numbers
    stand at even distances."""
    x, y, wide = box
    out, high = [], ROW * len(parts)
    for i, mark in enumerate(scale):
        at = x + wide * i / max(1, len(scale) - 1)
        out.append(f'<path class="{"grid" if i else "axis"}" d="M{at:.1f} {y}v{high}"/>')
        out += [text(at, y + high + 18, mark, "soft", "middle")] if mark else []
    for i, (part, word) in enumerate(zip(parts, words)):
        out.append(f'<rect class="bar" x="{x}" y="{y + (i + 0.16) * ROW:.1f}" width="{part * wide:.1f}" '
                   f'height="{0.68 * ROW:.1f}"/>')
        out += [text(x + part * wide + 6, y + (i + 0.5) * ROW + 4, word)] if word else []
    return out


def colour(share, signed):
    """From nought to one, or from minus one to one."""
    low, high = (236, 243, 249), (88, 150, 208)
    if signed:
        low, high = (242, 242, 240), (179, 88, 6) if share > 0 else (33, 102, 172)
    return [round(a + (b - a) * min(1.0, abs(share))) for a, b in zip(low, high)]


def legend(x, y, full, places, sign):
    first = -1 if sign else 0
    shades = [bytes(colour(first + (1 - first) * i / 40, sign)).hex() for i in range(41)]
    out = [f'<rect x="{x + i * 6}" y="{y:.1f}" width="6.5" height="12" fill="#{shade}"/>' for i, shade in enumerate(shades)]
    for at, value in ((0, first * full), (123, 0.0), (246, full))[::1 if sign else 2]:
        out.append(text(x + at, y + 28, number(value, places, sign), "soft", "middle"))
    return out + [text(x + 264, y + 10, "m/s", "soft")]


def cells(x, y, rows, names, sign, places, full, heads):
    """The table as coloured cells, stations down and passes across, in full colour from `full` on, with a legend; and where
    the drawing ends."""
    wide, high = min(52.0, 330 / len(rows[0])), min(30.0, 432 / len(rows))
    out, foot = heading(x, y, heads), y + high * len(rows)
    room = max(width(number(value, places, sign)) for row in rows for value in row)
    for i, row in enumerate(rows):
        if i % math.ceil(13 / high) == 0:
            out.append(text(x - 8, y + (i + 0.5) * high + 4, names[i], "soft", "end"))
        for j, value in enumerate(row):
            left, top = x + j * wide, y + i * high
            if not math.isfinite(value):
                a, b = max(2, wide - 8), max(2, high - 8)
                start = f"M{left + (wide - a) / 2:.1f} {top + (high - b) / 2:.1f}"
                out.append(f'<path class="cross" d="{start}l{a:.1f} {b:.1f}m{-a:.1f} 0l{a:.1f} {-b:.1f}"/>')
                continue
            shade = colour(value / full, sign)
            out.append(f'<rect x="{left:.1f}" y="{top:.1f}" width="{wide - 1:.1f}" height="{high - 1:.1f}" '
                       f'fill="#{bytes(shade).hex()}"/>')
            if wide >= room and high >= 16:
                kind = "chalk" if shade[0] * 299 + shade[1] * 587 + shade[2] * 114 < 120000 else "ink"
                out.append(text(left + wide / 2, top + high / 2 + 4, number(value, places, sign), kind, "middle"))
    for j in range(0, len(rows[0]), math.ceil(18 / wide)):
        out.append(text(x + (j + 0.5) * wide, foot + 16, str(j), "soft", "middle"))
    out.append(text(x + wide * len(rows[0]) / 2, foot + 34, "pass", "soft", "middle"))
    turn = f' transform="translate({x - max(34, 16 + max(map(width, names))):.1f} {(y + foot) / 2:.1f}) rotate(-90)"'
    out.append(text(0, 0, "station", "soft", "middle", turn))
    return out + legend(x, foot + 50, full, places, sign), foot + 78


def page(title, parts, high):
    return (f'<svg xmlns="http://www.w3.org/2000/svg" viewBox="0 0 {PAGE} {high}" width="{PAGE}" height="{high}" role="img">\n'
            f"<title>{html.escape(title)}</title>\n<!-- What the split says of a survey; made by samples/survey.py. -->\n"
            f'<style>{STYLE}</style>\n<rect class="page" width="{PAGE}" height="{high}"/>\n' + "\n".join(parts) + "\n</svg>\n")
