"""Draws the dots of docs/benchmarks.svg from the table of docs/BENCHMARKS.md, whose figures `./benchmark` printed."""
import math
import re

ROWS = {
    "commits, alone, 1,024 keys": "commits, alone",
    "commits, 32 a group, 1,024 keys": "commits, 32 a group",
    "keys, 32 in one transaction, 1,024 keys": "keys, 32 in one transaction",
    "reads, 1,024 keys": "reads",
}
COLOURS = ("#2f9e6e", "#8fcfb1", "#4f7cc4", "#d9a441", "#8d99ab")
# A label has that many pixels for each letter, in the widest of the usual fonts.
LETTER = 8
LEFT = 26 + LETTER * max(map(len, ROWS.values()))
WIDTH, LINE, TOP, SPACE, RADIUS = 480, 16, 66, 12, 4.5
LEAST, MOST = 100, 100_000


def table(text):
    """Returns the names of the stores, and the figures of each row that is drawn, in thousands per second."""
    head = re.search(r"^\| \| (Nipamast \|.*) \|$", text, re.M)
    figures = {}
    for name in ROWS:
        found = re.search(rf"^\| {re.escape(name)} \|(.*)\|$", text, re.M)
        figures[name] = [int(it.strip().replace(",", "")) if it.strip() else None for it in found.group(1).split("|")]
    return [it.strip() for it in head.group(1).split("|")], figures


def x_of(figure):
    return LEFT + WIDTH * math.log10(figure / LEAST) / math.log10(MOST / LEAST)


def text(x, y, words, more=""):
    return f'<text x="{x:.0f}" y="{y}" {more}>{words}</text>'


def axis(bottom):
    """Yields a line for each power of ten."""
    figure = LEAST
    while figure <= MOST:
        yield f'<path d="M{x_of(figure):.0f} {TOP - 8} V{bottom}" stroke="#e3e7ee"/>'
        yield text(x_of(figure), bottom + 14, f"{figure:,}", 'text-anchor="middle" class="small"')
        figure *= 10


def row_of_dots(label, drawn, y):
    """Yields the label, and for each store a line across the picture with its dot and its figure."""
    yield text(LEFT - 12, y + LINE * len(drawn) / 2 + 4, label, 'text-anchor="end"')
    for store, figure, colour in drawn:
        middle = y + LINE / 2
        yield f'<path d="M{LEFT} {middle} H{LEFT + WIDTH}" stroke="#c9d0db" stroke-dasharray="1 4"/>'
        yield f'<circle cx="{x_of(figure):.1f}" cy="{middle}" r="{RADIUS}" fill="{colour}"><title>{store}, {label}: {figure:,} thousand per second</title></circle>'
        yield text(x_of(figure) + 9, middle + 4, f"{figure:,}", 'class="small"')
        y += LINE


def legend_of(stores):
    """Yields a dot and a name for each store."""
    at = LEFT
    for store, colour in zip(stores, COLOURS):
        yield f'<circle cx="{at + 5}" cy="40" r="{RADIUS}" fill="{colour}"/>'
        yield text(at + 15, 44, store, 'class="small"')
        at += 34 + 7 * len(store)


def svg(stores, figures):
    body, y = [], TOP
    for name, row in figures.items():
        drawn = [(store, figure, colour) for store, figure, colour in zip(stores, row, COLOURS) if figure is not None]
        body += row_of_dots(ROWS[name], drawn, y)
        y += LINE * len(drawn) + SPACE
    width, height = LEFT + WIDTH + 60, y + 24
    style = "text{font:12px system-ui,sans-serif;fill:#20304a;paint-order:stroke;stroke:#fff;stroke-width:3px}.small{font-size:11px}.title{font-weight:600;font-size:13px}"
    head = f'<svg xmlns="http://www.w3.org/2000/svg" viewBox="0 0 {width} {height}" width="{width}" height="{height}">'
    title = text(16, 20, "Thousands per second, on a scale of powers of ten; nobody waits for a disk", 'class="title"')
    return "\n".join([head, f"<style>{style}</style>", f'<rect width="{width}" height="{height}" rx="8" fill="#fff"/>', title, *legend_of(stores), *axis(y), *body, "</svg>", ""])


def write(documents):
    stores, figures = table((documents / "BENCHMARKS.md").read_text(encoding="utf-8"))
    (documents / "benchmarks.svg").write_text(svg(stores, figures), encoding="utf-8")
