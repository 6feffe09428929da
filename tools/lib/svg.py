"""Pictures as SVG texts."""

from xml.sax.saxutils import escape

import streams

INK = "#1f2328"
PALE = "#8c959f"
PAPER = "#ffffff"
FONT = "font-family='DejaVu Sans, Verdana, sans-serif'"


def number(value):
    """A coordinate, short."""
    return f"{value:.1f}".rstrip("0").rstrip(".")


class Picture:
    def __init__(self):
        self.parts = []

    def line(self, x1, y1, x2, y2, ink=INK, width=1.2, dashes=None):
        dash = f" stroke-dasharray='{dashes}'" if dashes else ""
        self.parts.append(
            f"<line x1='{number(x1)}' y1='{number(y1)}' x2='{number(x2)}' y2='{number(y2)}'"
            f" stroke='{ink}' stroke-width='{width}'{dash}/>"
        )

    def circle(self, x, y, radius, fill=INK, ink=INK, width=1.2):
        self.parts.append(
            f"<circle cx='{number(x)}' cy='{number(y)}' r='{number(radius)}' fill='{fill}' stroke='{ink}' stroke-width='{width}'/>"
        )

    def box(self, x, y, width, height, fill=PAPER, ink=INK):
        self.parts.append(
            f"<rect x='{number(x)}' y='{number(y)}' width='{number(width)}' height='{number(height)}' rx='2'"
            f" fill='{fill}' stroke='{ink}' stroke-width='1.2'/>"
        )

    def polygon(self, points, fill=INK):
        listed = " ".join(f"{number(x)},{number(y)}" for x, y in points)
        self.parts.append(f"<polygon points='{listed}' fill='{fill}'/>")

    def polyline(self, points, ink=INK, width=1.6, dashes=None):
        dash = f" stroke-dasharray='{dashes}'" if dashes else ""
        listed = " ".join(f"{number(x)},{number(y)}" for x, y in points)
        self.parts.append(f"<polyline points='{listed}' fill='none' stroke='{ink}' stroke-width='{width}'{dash}/>")

    def text(self, x, y, says, size=12, anchor="middle", ink=INK, bold=False, halo=False):
        """Text whose middle stands at the height y; a halo keeps lines off it."""
        more = " font-weight='bold'" if bold else ""
        if halo:
            more += f" stroke='{PAPER}' stroke-width='4' stroke-linejoin='round' paint-order='stroke'"
        self.parts.append(
            f"<text x='{number(x)}' y='{number(y + 0.36 * size)}' font-size='{size}' text-anchor='{anchor}'"
            f" fill='{ink}'{more}>{escape(streams.printable(says))}</text>"
        )

    def put(self, other, x, y):
        """Puts another picture in, moved."""
        self.parts.append(f"<g transform='translate({number(x)} {number(y)})'>")
        self.parts += other.parts
        self.parts.append("</g>")

    def whole(self, width, height):
        head = (
            f"<svg xmlns='http://www.w3.org/2000/svg' width='{number(width)}' height='{number(height)}'"
            f" viewBox='0 0 {number(width)} {number(height)}' {FONT}>"
        )
        paper = f"<rect width='100%' height='100%' fill='{PAPER}'/>"
        return "\n".join([head, paper, *self.parts, "</svg>", ""])
