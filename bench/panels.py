"""Draws seconds against sizes, both by their logarithm: a panel for each workload."""
import math

WIDTH, HEIGHT = 180, 150
LEFT, TOP, GAP_ACROSS, GAP_DOWN = 60, 50, 60, 60
COLUMNS = 4
OURS, PLAIN, GUIDE = "#c0392b", "#2980b9", "#999"


class Panel:
    """One workload's place on the page, and the decades that all panels share."""

    def __init__(self, index, sizes, low, high):
        self.left = LEFT + index % COLUMNS * (WIDTH + GAP_ACROSS)
        self.top = TOP + index // COLUMNS * (HEIGHT + GAP_DOWN)
        self.first, self.last = math.log10(sizes[0]), math.log10(sizes[-1])
        self.low, self.high = low, high

    def across(self, size):
        return self.left + (math.log10(size) - self.first) / (self.last - self.first) * WIDTH

    def down(self, seconds):
        return self.top + HEIGHT - (math.log10(seconds) - self.low) / (self.high - self.low) * HEIGHT

    def frame(self, name, sizes):
        middle, bottom = self.left + WIDTH / 2, self.top + HEIGHT
        yield f'<text x="{middle}" y="{self.top - 8}" text-anchor="middle">{name}</text>'
        for power in range(self.low, self.high + 1):
            down = self.down(10.0**power)
            yield f'<line x1="{self.left}" x2="{self.left + WIDTH}" y1="{down:.1f}" y2="{down:.1f}" stroke="#ddd"/>'
            yield f'<text x="{self.left - 5}" y="{down:.1f}" dy="4" text-anchor="end" font-size="10">{10.0**power:g} s</text>'
        for size in sizes:
            across = self.across(size)
            yield f'<line x1="{across:.1f}" x2="{across:.1f}" y1="{self.top}" y2="{bottom}" stroke="#eee"/>'
            yield f'<text x="{across:.1f}" y="{bottom + 14}" text-anchor="middle" font-size="10">{size // 1000}k</text>'

    def line(self, points, colour, dots=True):
        places = [(self.across(size), self.down(seconds)) for size, seconds in points]
        path = " ".join(f"{x:.1f},{y:.1f}" for x, y in places)
        dash = "" if dots else ' stroke-dasharray="4 3"'
        yield f'<polyline points="{path}" fill="none" stroke="{colour}" stroke-width="{2 if dots else 1}"{dash}/>'
        if dots:
            yield from (f'<circle cx="{x:.1f}" cy="{y:.1f}" r="2.5" fill="{colour}"/>' for x, y in places)


def guide(points):
    """Size times logarithm, through the last point."""
    last, seconds = points[-1]
    return [(size, seconds * size * math.log(size) / (last * math.log(last))) for size, _ in points]


def legend():
    told = [(OURS, "mrun"), (PLAIN, "plain Rust with versions"), (GUIDE, "size times logarithm, through mrun's last point")]
    across = LEFT
    for colour, text in told:
        yield f'<line x1="{across}" x2="{across + 24}" y1="16" y2="16" stroke="{colour}" stroke-width="2"/>'
        yield f'<text x="{across + 30}" y="20">{text}</text>'
        across += 60 + 7 * len(text)


def draw(path, panels):
    """Each panel is a name, and by sizes mrun's seconds and the plain program's."""
    seconds = [value for _, *lines in panels for line in lines for _, value in line]
    low, high = math.floor(math.log10(min(seconds))), math.ceil(math.log10(max(seconds)))
    rows = math.ceil(len(panels) / COLUMNS)
    width = LEFT + COLUMNS * (WIDTH + GAP_ACROSS)
    height = TOP + rows * (HEIGHT + GAP_DOWN)
    lines = [f'<svg xmlns="http://www.w3.org/2000/svg" width="{width}" height="{height}" font-family="sans-serif" font-size="12">']
    lines.append(f'<rect width="{width}" height="{height}" fill="white"/>')
    lines.extend(legend())
    for index, (name, ours, plain) in enumerate(panels):
        sizes = [size for size, _ in ours]
        panel = Panel(index, sizes, low, high)
        lines.extend(panel.frame(name, sizes))
        lines.extend(panel.line(guide(ours), GUIDE, dots=False))
        lines.extend(panel.line(plain, PLAIN))
        lines.extend(panel.line(ours, OURS))
    lines.append("</svg>")
    with open(path, "w") as file:
        file.write("\n".join(lines) + "\n")
