"""Draws charts as SVG, for a page that needs no network and no other program."""
from html import escape
from math import ceil, floor, log10

COLOURS = ("#3b6fd4", "#8fb8f2", "#e4572e", "#f2b134", "#3c9d5b", "#9467a8", "#8c8c8c", "#222222")
# What isn't told apart by kind.
PLAIN = ("#5b6f86",)
WIDTH, HEIGHT = 560, 240
LEFT, RIGHT, TOP, BOTTOM = 62, 26, 30, 40
BAR_ROW = 20


def nice_step(most, parts=4):
    """A round step of an axis that has about so many parts."""
    rough = max(most, 1e-9) / parts
    power = 10 ** floor(log10(rough))
    return next(factor * power for factor in (1, 2, 5, 10) if factor * power >= rough * 0.999)


def said(number):
    """A number as a reader says it."""
    if number == int(number):
        return f"{int(number):,}"
    return f"{number:,.3g}" if abs(number) < 100 else f"{number:,.0f}"


def colour_of(at, names):
    colours = COLOURS if len(names) > 1 else PLAIN
    return colours[at % len(colours)]


def text(x, y, words, anchor="middle", kind="tick"):
    return f'<text x="{x:.1f}" y="{y:.1f}" text-anchor="{anchor}" class="{kind}">{escape(words)}</text>'


class Plot:
    """A frame with axes: numbers of the page for numbers of the data."""

    def __init__(self, title, most, x_label, least_x=0, most_x=1):
        self.step = nice_step(most) if most > 4 else 1
        self.top = max(self.step, ceil(most / self.step - 1e-9) * self.step)
        self.least_x, self.most_x = least_x, max(most_x, least_x + 1e-9)
        self.parts = [text(LEFT, 16, title, "start", "title"), text((LEFT + WIDTH - RIGHT) / 2, HEIGHT - 6, x_label)]
        value = 0
        while value <= self.top * 1.0001:
            y = self.y(value)
            self.parts.append(f'<line x1="{LEFT}" x2="{WIDTH - RIGHT}" y1="{y:.1f}" y2="{y:.1f}" class="grid"/>')
            self.parts.append(text(LEFT - 6, y + 4, said(round(value, 9)), "end"))
            value += self.step

    def y(self, value):
        return HEIGHT - BOTTOM - (HEIGHT - TOP - BOTTOM) * value / self.top

    def x(self, value):
        return LEFT + (WIDTH - LEFT - RIGHT) * (value - self.least_x) / (self.most_x - self.least_x)

    def svg(self):
        return f'<svg viewBox="0 0 {WIDTH} {HEIGHT}" role="img">{"".join(self.parts)}</svg>'


def legend(names):
    """What each colour is."""
    names = list(names)
    items = (f'<span><i style="background:{colour_of(at, names)}"></i>{escape(name)}</span>' for at, name in enumerate(names))
    return f'<p class="legend">{"".join(items)}</p>'


def areas(title, x_label, edges, rows, names, most=None, end=None):
    """Stacked areas: `rows` has a number for each name, from each of the edges to the next."""
    peak, end = max(map(sum, rows), default=0), end or edges[-1]
    plot = Plot(title, most or peak, x_label, edges[0], end)
    below = [0] * len(rows)
    for at, name in enumerate(names):
        above = [base + row[at] for base, row in zip(below, rows)]
        if above != below:
            plot.parts.append(area(plot, edges, below, above, colour_of(at, names), name))
        below = above
    step = nice_step(end - edges[0], 5)
    value = ceil(edges[0] / step) * step
    while value <= end * 1.0001:
        plot.parts.append(text(plot.x(value), HEIGHT - BOTTOM + 15, said(round(value, 9))))
        value += step
    return plot.svg()


def area(plot, edges, below, above, colour, name):
    """One of the stacked areas: out along its upper border, and home along the lower."""
    out = [f"{plot.x(x):.1f},{plot.y(y):.1f}" for at, y in enumerate(above) for x in edges[at : at + 2]]
    home = [f"{plot.x(x):.1f},{plot.y(y):.1f}" for at, y in enumerate(below) for x in edges[at : at + 2]]
    points = " ".join(out + home[::-1])
    return f'<polygon points="{points}" fill="{colour}"><title>{escape(name)}</title></polygon>'


def columns(title, x_label, labels, rows, names, most=None):
    """Stacked columns: a column for each label, whose row has a number for each name."""
    plot = Plot(title, most or max(map(sum, rows), default=0), x_label, 0, max(len(labels), 1))
    for place, (label, row) in enumerate(zip(labels, rows)):
        left, right, base = plot.x(place + 0.12), plot.x(place + 0.88), 0
        for at, value in enumerate(row):
            if value:
                y, bottom = plot.y(base + value), plot.y(base)
                said_here = f"{escape(label)}, {escape(names[at])}: {said(value)}"
                plot.parts.append(
                    f'<rect x="{left:.1f}" y="{y:.1f}" width="{right - left:.1f}" height="{bottom - y:.1f}" '
                    f'fill="{colour_of(at, names)}"><title>{said_here}</title></rect>'
                )
                base += value
        plot.parts.append(text((left + right) / 2, HEIGHT - BOTTOM + 15, label))
    return plot.svg()


def bars(title, labels, rows, names, most=None):
    """Stacked bars that lie, one below another: for names that are long."""
    room, height = 190, TOP + BAR_ROW * len(labels) + 8
    top = most or max(map(sum, rows), default=0) or 1
    scale = (WIDTH - room - 76) / top
    parts = [text(LEFT, 16, title, "start", "title")]
    for place, (label, row) in enumerate(zip(labels, rows)):
        y, x = TOP + BAR_ROW * place, room
        parts.append(text(room - 6, y + 13, label, "end"))
        for at, value in enumerate(row):
            if value:
                said_here = f"{escape(label)}, {escape(names[at])}: {said(value)}"
                colour = colour_of(at, names)
                parts.append(f'<rect x="{x:.1f}" y="{y}" width="{value * scale:.1f}" height="{BAR_ROW - 4}" fill="{colour}"><title>{said_here}</title></rect>')
                x += value * scale
        parts.append(text(x + 5, y + 13, said(sum(row)), "start"))
    return f'<svg viewBox="0 0 {WIDTH} {height}" role="img">{"".join(parts)}</svg>'


def table(heads, rows):
    """A table, whose first column has words and the others numbers."""
    head = "".join(f"<th>{escape(it)}</th>" for it in heads)
    body = "".join(
        "<tr>" + "".join(f"<td>{escape(it if isinstance(it, str) else said(it))}</td>" for it in row) + "</tr>" for row in rows
    )
    return f"<table><thead><tr>{head}</tr></thead><tbody>{body}</tbody></table>"


STYLE = """
body { font: 15px/1.45 system-ui, sans-serif; color: #1c2733; background: #fff; max-width: 1180px; margin: 2em auto; padding: 0 1em }
h1 { font-size: 1.5em } h2 { font-size: 1.2em; border-top: 1px solid #d5dce4; padding-top: .8em; margin-top: 2em }
.grid { stroke: #e3e8ee } .tick { font-size: 11px; fill: #4a5866 } .title { font-size: 13px; font-weight: 600; fill: #1c2733 }
.pair { display: grid; grid-template-columns: repeat(auto-fit, minmax(420px, 1fr)); gap: 6px 24px; align-items: start }
svg { width: 100%; height: auto } table { border-collapse: collapse; font-size: 13px; font-variant-numeric: tabular-nums; margin: .6em 0 }
th, td { padding: 2px 8px; text-align: right; border-bottom: 1px solid #e8edf2 } td { white-space: nowrap } th:first-child, td:first-child { text-align: left }
.legend span { margin-right: 1.1em; white-space: nowrap; font-size: 13px } .legend i { display: inline-block; width: .8em; height: .8em; margin-right: .35em; border-radius: 2px }
.note { color: #5a6875; font-size: 13px } .scroll { overflow-x: auto }
"""


def page(title, parts):
    """One page of HTML that stands alone."""
    return (
        f'<!DOCTYPE html>\n<html lang="en"><head><meta charset="utf-8"><title>{escape(title)}</title><style>{STYLE}</style></head>'
        f"<body><h1>{escape(title)}</h1>\n" + "\n".join(parts) + "\n</body></html>\n"
    )
