"""A picture of lines, marks and text as SVG, and logarithmic axes."""
import math
from xml.sax.saxutils import escape, quoteattr

FONT = "Helvetica, Arial, 'DejaVu Sans', sans-serif"
INK = "#222222"
FAINT = "#767676"
GRID = "#dddddd"


class Axis:
    """A logarithmic axis: values from `low` to `high` to places from `start` to `end`."""

    def __init__(self, low, high, start, end):
        self.low, self.high, self.start, self.end = low, high, start, end

    def __call__(self, value):
        share = math.log(value / self.low) / math.log(self.high / self.low)
        return self.start + share * (self.end - self.start)

    def powers(self, base):
        """The powers of a base from `low` to `high`."""
        first = math.ceil(math.log(self.low) / math.log(base) - 1e-9)
        last = math.floor(math.log(self.high) / math.log(base) + 1e-9)
        return [float(base) ** exponent for exponent in range(first, last + 1)]


def around(values, base):
    """The power of a base at or below all values, and one at or above them; they differ."""
    low = math.floor(math.log(min(values)) / math.log(base) + 1e-9)
    high = math.ceil(math.log(max(values)) / math.log(base) - 1e-9)
    return float(base) ** low, float(base) ** max(high, low + 1)


def number(value):
    """A number with at most one decimal."""
    return f"{value:.1f}".removesuffix(".0")


def polygon(points):
    """The path through some points, closed."""
    return "M" + " L".join(f"{number(x)},{number(y)}" for x, y in points) + " Z"


def shape(name, x, y, r):
    """The path of a mark around a point."""
    if name == "square":
        return polygon([(x - r, y - r), (x + r, y - r), (x + r, y + r), (x - r, y + r)])
    if name == "up":
        return polygon([(x, y - 1.2 * r), (x + 1.2 * r, y + r), (x - 1.2 * r, y + r)])
    if name == "down":
        return polygon([(x, y + 1.2 * r), (x - 1.2 * r, y - r), (x + 1.2 * r, y - r)])
    if name == "diamond":
        return polygon([(x, y - 1.4 * r), (x + 1.4 * r, y), (x, y + 1.4 * r), (x - 1.4 * r, y)])
    return f"M{number(x - r)},{number(y)} a{number(r)},{number(r)} 0 1,0 {number(2 * r)},0 a{number(r)},{number(r)} 0 1,0 {number(-2 * r)},0 Z"


class Picture:
    """An SVG picture under construction, with a white ground, a title and a line below it."""

    def __init__(self, width, height, title, below):
        self.width, self.height, self.title = width, height, title
        self.parts = []
        self.rect(0, 0, width, height, "#ffffff")
        self.text(16, 26, title, size=17, bold=True)
        self.text(16, 46, below, size=12, colour=FAINT)

    def rect(self, x, y, width, height, colour):
        """A filled rectangle."""
        self.parts.append(f'<rect x="{number(x)}" y="{number(y)}" width="{number(width)}" height="{number(height)}" fill="{colour}"/>')

    def line(self, x1, y1, x2, y2, colour=GRID, width=1, dashes=""):
        """A straight line."""
        dashed = f' stroke-dasharray="{dashes}"' if dashes else ""
        self.parts.append(f'<line x1="{number(x1)}" y1="{number(y1)}" x2="{number(x2)}" y2="{number(y2)}" stroke="{colour}" '
                          f'stroke-width="{width}"{dashed}/>')

    def path(self, points, colour, width, dashes=""):
        """An open line through some points."""
        dashed = f' stroke-dasharray="{dashes}"' if dashes else ""
        places = " ".join(f"{number(x)},{number(y)}" for x, y in points)
        self.parts.append(f'<polyline points="{places}" fill="none" stroke="{colour}" stroke-width="{width}"{dashed}/>')

    def mark(self, name, x, y, r, colour, tip=""):
        """A filled mark; `tip` is what a viewer shows when pointed at it."""
        said = f"<title>{escape(tip)}</title>" if tip else ""
        self.parts.append(f'<path class="mark" d="{shape(name, x, y, r)}" fill="{colour}">{said}</path>')

    def text(self, x, y, words, size=12, anchor="start", colour=INK, bold=False):
        """Text on a base line."""
        weight = ' font-weight="bold"' if bold else ""
        self.parts.append(f'<text x="{number(x)}" y="{number(y)}" font-size="{size}" text-anchor="{anchor}" fill="{colour}"{weight}>'
                          f"{escape(words)}</text>")

    def upright(self, x, y, words, size=12, colour=INK):
        """Text that reads upwards, its middle at a point."""
        self.parts.append(f'<text transform="translate({number(x)},{number(y)}) rotate(-90)" font-size="{size}" text-anchor="middle" '
                          f'fill="{colour}">{escape(words)}</text>')

    def render(self):
        """The whole file."""
        width, height = number(self.width), number(self.height)
        head = (f'<svg xmlns="http://www.w3.org/2000/svg" viewBox="0 0 {width} {height}" width="{width}" height="{height}" '
                f'font-family={quoteattr(FONT)} role="img">\n<title>{escape(self.title)}</title>\n')
        return head + "\n".join(self.parts) + "\n</svg>\n"
