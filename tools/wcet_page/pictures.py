"""The pictures of the page, as SVG: the parts of a number, and bounds over the shapes of the cache. Not proved: a tool.

They are read in black and white: parts differ in lightness and hatching, lines in dashes.
"""
from math import log2

from markupsafe import Markup, escape

WIDTH, HEIGHT = 1120, 22
# The fill of each part, and where it is hatched the pattern.
FILLS = {"own": "#1f4e79", "calls": "#9cb9d6", "loads": "url(#slant)", "invoke": "url(#dots)", "return": "#ffffff"}
PATTERNS = Markup(
    '<svg width="0" height="0" style="position:absolute" aria-hidden="true"><defs>'
    '<pattern id="slant" width="6" height="6" patternUnits="userSpaceOnUse" patternTransform="rotate(45)">'
    '<rect width="6" height="6" fill="#f4e3c1"/><rect width="2" height="6" fill="#9a6b16"/></pattern>'
    '<pattern id="dots" width="5" height="5" patternUnits="userSpaceOnUse">'
    '<rect width="5" height="5" fill="#e8e8e8"/><circle cx="2.5" cy="2.5" r="1.2" fill="#444"/></pattern></defs></svg>')


def parts(segments, total):
    """a bar of segments, each a kind, cycles and a title, side by side"""
    at, shapes = 0.0, []
    for kind, cycles, title in segments:
        width = WIDTH * cycles / total if total else 0
        shapes.append(Markup('<rect x="{:.2f}" y="0.5" width="{:.2f}" height="{}" fill="{}" stroke="#333" stroke-width="0.5"><title>{}</title></rect>').format(
            at, width, HEIGHT - 1, FILLS[kind], title))
        at += width
    head = Markup('<svg class="parts" viewBox="0 0 {} {}" width="100%" height="{}" preserveAspectRatio="none" role="img">').format(WIDTH, HEIGHT, HEIGHT)
    return head + Markup("").join(shapes) + Markup("</svg>")


def swatch(kind):
    """a small box of a part's fill, for the legend"""
    return Markup('<svg class="swatch" width="14" height="12"><rect x="0.5" y="0.5" width="13" height="11" fill="{}" stroke="#333"/></svg>').format(FILLS[kind])


# ---- bounds over shapes

# The picture's width and height, and how far the plot keeps from its right, its top and its bottom; on the left stand the cycles.
SIZE, RIGHT, TOP, BOTTOM = (1120, 300), 18, 22, 42
# The width of a digit, and of the gap beside the cycles.
DIGIT, GAP = 6.7, 8
DASHES = ["", "7 3", "2 3", "9 3 2 3", "4 2"]
GREYS = ["#000000", "#1f4e79", "#7a7a7a"]
# The lines of the grid at most, and what lies between two of them, times a power of ten.
LINES, STEPS = 6, (1, 2, 5)


class Scale:
    """where words of cache and cycles lie in the plot: cycles from a round number below the least on"""

    def __init__(self, rows):
        values = [row["bound"]["value"] for row in rows]
        self.step = step_of(max(values) - min(values))
        self.least, self.most = min(values) // self.step * self.step, -(-max(values) // self.step) * self.step
        self.most = max(self.most, self.least + self.step)
        self.exponent = max(log2(row["blocks"] * row["words"]) for row in rows) or 1
        self.left, self.right = GAP + DIGIT * len(f"{self.most:,}"), SIZE[0] - RIGHT
        self.top, self.bottom = TOP, SIZE[1] - BOTTOM

    def x(self, words):
        return self.left + (self.right - self.left) * log2(words) / self.exponent

    def y(self, cycles):
        return self.bottom - (self.bottom - self.top) * (cycles - self.least) / (self.most - self.least)


def step_of(span):
    """a round number of cycles between two lines of the grid"""
    power = 1
    while span > 5 * power * LINES:
        power *= 10
    return next(step * power for step in STEPS if span <= step * power * LINES)


def axes(scale):
    """the grid, with the words of the cache below and the cycles on the left"""
    made = []
    for cycles in range(scale.least, scale.most + 1, scale.step):
        made.append(f'<line x1="{scale.left:.1f}" x2="{scale.right}" y1="{scale.y(cycles):.1f}" y2="{scale.y(cycles):.1f}" stroke="#ddd"/>'
                    f'<text x="{scale.left - 6:.1f}" y="{scale.y(cycles) + 4:.1f}" text-anchor="end">{cycles:,}</text>')
    for power in range(0, int(scale.exponent) + 1, 2):
        x = scale.x(2 ** power)
        made.append(f'<line x1="{x:.1f}" x2="{x:.1f}" y1="{scale.bottom}" y2="{scale.bottom + 4}" stroke="#333"/>'
                    f'<text x="{x:.1f}" y="{scale.bottom + 17}" text-anchor="middle">{words_text(2 ** power)}</text>')
    return made


def words_text(words):
    return str(words) if words < 1024 else f"{words // 1024}k"


def curve(scale, rows, number):
    """the bounds with blocks of one size, as a line with a dot for each"""
    points = [(scale.x(row["blocks"] * row["words"]), scale.y(row["bound"]["value"]), row) for row in rows]
    line = " ".join(f"{x:.1f},{y:.1f}" for x, y, _ in points)
    look = f'stroke="{GREYS[number % len(GREYS)]}" stroke-dasharray="{DASHES[number % len(DASHES)]}"'
    fill = GREYS[number % len(GREYS)]
    dots = [f'<circle cx="{x:.1f}" cy="{y:.1f}" r="2" fill="{fill}"><title>{escape(row["bound"]["line"])}</title></circle>' for x, y, row in points]
    return [f'<polyline points="{line}" fill="none" stroke-width="1.2" {look}/>', *dots]


def labels(scale, curves):
    """the words of a block at the left end of each line, those of lines that begin at one point together"""
    found = {}
    for size, rows in curves.items():
        point = scale.x(rows[0]["blocks"] * rows[0]["words"]), scale.y(rows[0]["bound"]["value"])
        found.setdefault(point, []).append(str(size))
    return [f'<text x="{x:.1f}" y="{y - 6:.1f}" text-anchor="middle" class="size">{", ".join(sizes)}</text>' for (x, y), sizes in found.items()]


def shapes(rows, blocks, words):
    """bounds over the words of the cache, a line for each size of blocks; the machine's own shape is ringed"""
    ending = [row for row in rows if isinstance(row["bound"]["value"], int)]
    if not ending:
        return ""
    scale, made = Scale(ending), []
    made += axes(scale)
    curves = {size: [row for row in ending if row["words"] == size] for size in sorted({row["words"] for row in ending})}
    for number, rows_of_size in enumerate(curves.values()):
        made += curve(scale, rows_of_size, number)
    made += labels(scale, curves)
    here = next((row for row in ending if (row["blocks"], row["words"]) == (blocks, words)), None)
    if here:
        x, y = scale.x(blocks * words), scale.y(here["bound"]["value"])
        beside = y - 12 if y > (scale.top + scale.bottom) / 2 else y + 20
        made.append(f'<circle cx="{x:.1f}" cy="{y:.1f}" r="6" fill="none" stroke="#000" stroke-width="2"/>'
                    f'<text x="{x:.1f}" y="{beside:.1f}" text-anchor="middle" font-weight="bold">this machine</text>')
    middle, title = (scale.left + scale.right) / 2, "words of the method cache (blocks × words of a block)"
    made.append(f'<text x="{middle:.1f}" y="{scale.bottom + 34}" text-anchor="middle">{title}</text>')
    return Markup(f'<svg class="plot" viewBox="0 0 {SIZE[0]} {SIZE[1]}" width="{SIZE[0]}" height="{SIZE[1]}" role="img">{"".join(made)}</svg>')
