#!/usr/bin/env python3
"""Draws the activations and the failures of each day as an SVG, from the CSV of the command `usage`.

FILE is what `ow_whisk usage --from DAY --to DAY --csv --store FILE` writes: a head row and the columns day, namespace, activations, failed, ms
and mbms. Without FILE it is read from standard input, and without --out the picture goes to standard output. Each bar is a day: below those
that failed, above the others. Namespaces are summed up, or one is chosen. Days without a row between the first and the last have no bar.
Standard library only. The exit status is 0, or 2 with a line on standard error.
"""
import argparse
import csv
import datetime
import sys
from xml.sax.saxutils import escape

HEAD = ["day", "namespace", "activations", "failed", "ms", "mbms"]
WIDTH, HEIGHT = 800, 400
LEFT, RIGHT, TOP, BOTTOM = 80, 20, 60, 60
COLOURS = {"failed": "#c0392b", "succeeded": "#2e86c1"}


class BadInput(Exception):
    """What is wrong with the rows."""


def read_rows(file):
    """The day, namespace, activations and failures of each row."""
    rows = csv.reader(file, strict=True)
    try:
        if next(rows, None) != HEAD:
            raise BadInput("the head row isn't " + ",".join(HEAD))
        return [read_row(rows.line_num, row) for row in rows]
    except (csv.Error, UnicodeDecodeError) as e:
        raise BadInput(f"row {rows.line_num}: {e}") from e


def read_row(number, row):
    try:
        day, namespace, activations, failed = datetime.date.fromisoformat(row[0]), row[1], int(row[2]), int(row[3])
    except (IndexError, ValueError) as e:
        raise BadInput(f"row {number} is no row of usage: {','.join(row)}") from e
    if len(row) != len(HEAD) or not 0 <= failed <= activations:
        raise BadInput(f"row {number} is no row of usage: {','.join(row)}")
    return day, namespace, activations, failed


def days_of(rows):
    """The activations and failures of each day from the first to the last."""
    if not rows:
        return []
    first, last = min(row[0] for row in rows), max(row[0] for row in rows)
    sums = {}
    for day, _, activations, failed in rows:
        known = sums.get(day, (0, 0))
        sums[day] = (known[0] + activations, known[1] + failed)
    days = [first + datetime.timedelta(place) for place in range((last - first).days + 1)]
    return [(day, *sums.get(day, (0, 0))) for day in days]


def step_of(most, marks):
    """The least of 1, 2, 5, 10, 20, .. by which so many marks reach the greatest number."""
    step = 1
    while True:
        for factor in (1, 2, 5):
            if step * factor * marks >= most:
                return step * factor
        step *= 10


class Picture:
    """The lines of an SVG."""

    def __init__(self, title):
        self.lines = [f'<svg xmlns="http://www.w3.org/2000/svg" width="{WIDTH}" height="{HEIGHT}" viewBox="0 0 {WIDTH} {HEIGHT}" '
                      'font-family="sans-serif" font-size="12">',
                      f"<title>{escape(title)}</title>", f'<rect width="{WIDTH}" height="{HEIGHT}" fill="white"/>']

    def text(self, x, y, text, anchor="middle", more=""):
        self.lines.append(f'<text x="{x:.1f}" y="{y:.1f}" text-anchor="{anchor}"{more}>{escape(text)}</text>')

    def line(self, x1, y1, x2, y2, colour):
        self.lines.append(f'<line x1="{x1:.1f}" y1="{y1:.1f}" x2="{x2:.1f}" y2="{y2:.1f}" stroke="{colour}"/>')

    def bar(self, x, y, width, height, kind, title):
        self.lines.append(f'<rect class="{kind}" x="{x:.2f}" y="{y:.2f}" width="{width:.2f}" height="{height:.2f}" fill="{COLOURS[kind]}">'
                          f"<title>{escape(title)}</title></rect>")

    def whole(self):
        return "\n".join([*self.lines, "</svg>"]) + "\n"


def draw_axes(picture, days, top, step):
    high, bottom = HEIGHT - TOP - BOTTOM, HEIGHT - BOTTOM
    for value in range(0, top + 1, step):
        y = bottom - high * value / top
        picture.line(LEFT, y, WIDTH - RIGHT, y, "#dddddd" if value else "black")
        picture.text(LEFT - 8, y + 4, f"{value:,}", "end")
    wide = (WIDTH - LEFT - RIGHT) / len(days)
    each = -(-len(days) // 10)
    for place in range(0, len(days), each):
        picture.text(LEFT + wide * (place + 0.5), bottom + 18, days[place][0].isoformat())


def draw_bars(picture, days, top):
    high, bottom = HEIGHT - TOP - BOTTOM, HEIGHT - BOTTOM
    wide = (WIDTH - LEFT - RIGHT) / len(days)
    for place, (day, activations, failed) in enumerate(days):
        y = bottom
        for kind, count in (("failed", failed), ("succeeded", activations - failed)):
            tall = high * count / top
            y -= tall
            if count:
                picture.bar(LEFT + wide * (place + 0.1), y, wide * 0.8, tall, kind, f"{day}: {count:,} {kind}")


def draw_legend(picture):
    for place, (kind, colour) in enumerate(COLOURS.items()):
        x = WIDTH - RIGHT - 200 + 100 * place
        picture.lines.append(f'<rect x="{x}" y="{TOP - 32}" width="12" height="12" fill="{colour}"/>')
        picture.text(x + 18, TOP - 22, kind, "start")


def drawn(days, title):
    picture = Picture(title)
    picture.text(LEFT, 24, title, "start", ' font-size="16"')
    if days:
        step = step_of(max(activations for _, activations, _ in days), 5)
        top = 5 * step
        draw_axes(picture, days, top, step)
        draw_bars(picture, days, top)
        draw_legend(picture)
    else:
        picture.text(WIDTH / 2, HEIGHT / 2, "no activations")
    return picture.whole()


def carry_out(words):
    if words.file is None:
        rows = read_rows(sys.stdin)
    else:
        with open(words.file, encoding="utf-8", newline="") as file:
            rows = read_rows(file)
    if words.namespace is not None:
        rows = [row for row in rows if row[1] == words.namespace]
    text = drawn(days_of(rows), f"Activations a day{'' if words.namespace is None else ' of ' + words.namespace}")
    if words.out is None:
        sys.stdout.write(text)
    else:
        with open(words.out, "w", encoding="utf-8") as file:
            file.write(text)


def main():
    parser = argparse.ArgumentParser(description=__doc__, formatter_class=argparse.RawDescriptionHelpFormatter)
    parser.add_argument("file", nargs="?", metavar="FILE")
    parser.add_argument("--namespace", metavar="NAME")
    parser.add_argument("--out", metavar="FILE.svg")
    try:
        carry_out(parser.parse_args())
    except (BadInput, OSError) as e:
        print(f"usage_plot: {e}", file=sys.stderr)
        sys.exit(2)


main()
