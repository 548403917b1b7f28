"""A picture of lines over time: as SVG, or as a program for gnuplot. Both have the same ticks."""
from dataclasses import dataclass
from fractions import Fraction
from xml.sax.saxutils import escape

from bring.axes import number_ticks, time_ticks
from bring.reports import decimal_of

COLORS = ("#0072b2", "#d55e00", "#009e73", "#cc79a7", "#e69f00", "#56b4e9", "#000000", "#8c564b")
DASHES = ("", "6 3", "2 3", "8 3 2 3")
LETTER = 7          # the width of a letter, about
MARKED_POINTS = 200
LONGEST_LABEL = 40


@dataclass
class Picture:
    """What is drawn: titles, the size in pixels, and lines, each with its label and its points (time and value or None)."""
    title: str
    x_title: str
    y_title: str
    lines: list
    width: int
    height: int

    def axes(self):
        """The least and the greatest time, the ticks of times, and the ticks of values."""
        times = [x for _, points in self.lines for x, y in points if y is not None]
        values = [y for _, points in self.lines for _, y in points if y is not None]
        least, most = min(times), max(times)
        if least == most:
            least, most = least - 1000, most + 1000
        return least, most, time_ticks(least, most), number_ticks(min(values), max(values))


def short(text, most=LONGEST_LABEL):
    """A label in one line that isn't too long."""
    text = "".join(it if it.isprintable() else "\ufffd" for it in text)
    return text if len(text) <= most else text[: most - 1] + "…"


def parts_of(points):
    """The parts of a line between values that are NULL."""
    parts = [[]]
    for x, y in points:
        if y is None:
            parts.append([])
        else:
            parts[-1].append((x, y))
    return [part for part in parts if part]


def thinned(points, width):
    """The points of a part of a line, in pixels: of many at one place of the axis the first, least, greatest and last."""
    if len(points) <= 4 * width:
        return points
    columns = {}
    for point in points:
        columns.setdefault(int(point[0]), []).append(point)
    kept = []
    for column in columns.values():
        least, most = (choose(range(len(column)), key=lambda at: column[at][1]) for choose in (min, max))
        kept += [column[at] for at in sorted({0, least, most, len(column) - 1})]
    return kept


def number(value):
    """A coordinate with at most two digits behind the point."""
    return f"{value:.2f}".rstrip("0").rstrip(".")


class Svg:
    """Draws a picture as SVG."""

    def __init__(self, picture):
        self.picture, self.out = picture, []
        self.least, self.most, self.x_ticks, self.y_ticks = picture.axes()
        self.low, self.high = self.y_ticks[0][0], self.y_ticks[-1][0]
        labels = [short(label) for label, _ in picture.lines if label]
        self.left = 40 + LETTER * max(len(texts[0]) for _, texts in self.y_ticks)
        legend = 60 + LETTER * max(map(len, labels)) if labels else 30
        self.width = max(picture.width, self.left + 150 + legend)
        self.right = self.width - legend
        self.top = 40 if picture.title else 20
        self.height = max(picture.height, self.top + 18 * len(labels) + 70)
        self.bottom = self.height - 62

    def x(self, time):
        return self.left + float(Fraction(time - self.least, self.most - self.least)) * (self.right - self.left)

    def y(self, value):
        return self.bottom - float((value - self.low) / (self.high - self.low)) * (self.bottom - self.top)

    def text(self, x, y, text, anchor="middle", more=""):
        self.out.append(f'<text x="{number(x)}" y="{number(y)}" text-anchor="{anchor}"{more}>{escape(text)}</text>')

    def line(self, x1, y1, x2, y2, color):
        self.out.append(f'<line x1="{number(x1)}" y1="{number(y1)}" x2="{number(x2)}" y2="{number(y2)}" stroke="{color}"/>')

    def draw_axes(self):
        for at, texts in self.y_ticks:
            self.line(self.left, self.y(at), self.right, self.y(at), "#dddddd")
            self.text(self.left - 6, self.y(at) + 4, texts[0], "end")
        for at, texts in self.x_ticks:
            self.line(self.x(at), self.bottom, self.x(at), self.bottom + 5, "#333333")
            for row, text in enumerate(texts):
                self.text(self.x(at), self.bottom + 18 + 14 * row, text)
        self.line(self.left, self.bottom, self.right, self.bottom, "#333333")
        self.line(self.left, self.top, self.left, self.bottom, "#333333")
        middle = (self.top + self.bottom) / 2
        self.text((self.left + self.right) / 2, self.height - 10, short(self.picture.x_title))
        self.text(14, middle, short(self.picture.y_title), more=f' transform="rotate(-90 14 {number(middle)})"')
        if self.picture.title:
            self.text((self.left + self.right) / 2, 22, short(self.picture.title, 100), more=' font-weight="bold"')

    def draw_line(self, at, label, points, is_marked):
        color, dash = COLORS[at % len(COLORS)], DASHES[at // len(COLORS) % len(DASHES)]
        style = f'stroke="{color}"' + (f' stroke-dasharray="{dash}"' if dash else "")
        name = escape(short(label or self.picture.y_title))
        self.out.append(f'<g fill="none" stroke-width="1.5" {style}><title>{name}</title>')
        for part in parts_of(points):
            places = thinned([(self.x(x), self.y(y)) for x, y in part], self.picture.width)
            if len(places) > 1:
                self.out.append(f'<polyline points="{" ".join(f"{number(x)},{number(y)}" for x, y in places)}"/>')
            if is_marked or len(places) == 1:
                self.out += [f'<circle cx="{number(x)}" cy="{number(y)}" r="2.5" fill="{color}"/>' for x, y in places]
        if label:
            at_y = self.top + 10 + 18 * at
            self.out.append(f'<line x1="{self.right + 15}" y1="{at_y}" x2="{self.right + 40}" y2="{at_y}"/>')
        self.out.append("</g>")
        if label:
            self.text(self.right + 46, at_y + 4, short(label), "start")

    def draw(self):
        """The whole text."""
        picture = self.picture
        count = sum(len(points) for _, points in picture.lines)
        size = f'width="{self.width}" height="{self.height}" viewBox="0 0 {self.width} {self.height}"'
        name = short(picture.title, 100) or f"{short(picture.y_title)} over {short(picture.x_title)}"
        style = 'role="img" font-family="sans-serif" font-size="12" fill="#333333"'
        self.out = [f'<svg xmlns="http://www.w3.org/2000/svg" {size} {style}>',
                    f"<title>{escape(name)}</title>",
                    '<rect width="100%" height="100%" fill="#ffffff"/>']
        self.draw_axes()
        for at, (label, points) in enumerate(picture.lines):
            self.draw_line(at, label, points, count <= MARKED_POINTS)
        self.out.append("</svg>")
        return "\n".join(self.out) + "\n"


def gnuplot_text(text):
    """A text for gnuplot, in quotes in which nothing but the quote has a meaning."""
    return "'" + text.replace("'", "''") + "'"


def gnuplot_ticks(ticks, base):
    """Ticks for gnuplot. Their texts are made of digits and signs alone, so the other quotes are safe here."""
    return ", ".join('"' + "\\n".join(texts) + '" ' + decimal_of(at - base, 12) for at, texts in ticks)


def gnuplot_program(picture):
    """The program that makes gnuplot write the picture as PNG to standard output. Times count from the first one."""
    least, most, x_ticks, y_ticks = picture.axes()
    size = f"size {picture.width},{picture.height} noenhanced"
    out = ["set encoding utf8",
           f"if (strstrt(GPVAL_TERMINALS, 'pngcairo')) set terminal pngcairo {size}; else set terminal png {size}",
           f"set title {gnuplot_text(short(picture.title, 100))}" if picture.title else "unset title",
           f"set xlabel {gnuplot_text(short(picture.x_title))}", f"set ylabel {gnuplot_text(short(picture.y_title))}",
           f"set xrange [0:{most - least}]", f"set yrange [{decimal_of(y_ticks[0][0], 12)}:{decimal_of(y_ticks[-1][0], 12)}]",
           f"set xtics ({gnuplot_ticks(x_ticks, least)})", f"set ytics ({gnuplot_ticks(y_ticks, 0)})",
           "set grid ytics", "set key outside right top"]
    for at, (_, points) in enumerate(picture.lines):
        out.append(f"$d{at} << END")
        out += ["" if y is None else f"{x - least} {decimal_of(y, 12)}" for x, y in points]
        out.append("END")
    drawn = [f"$d{at} using 1:2 with linespoints pointtype 7 pointsize 0.5 " +
             (f"title {gnuplot_text(short(label))}" if label else "notitle") for at, (label, _) in enumerate(picture.lines)]
    out.append("plot " + ", ".join(drawn))
    return "\n".join(out) + "\n"
