"""A small canvas that writes SVG: boxes, arrows and texts in one style. The figures' scripts import it."""
import os
from xml.sax.saxutils import escape

HERE = os.path.dirname(os.path.realpath(__file__))
INK, SOFT, PAPER = "#1f2933", "#5f6b7a", "#ffffff"
COLOURS = {
    "plain": ("#f4f6f8", "#9aa5b1"), "blue": ("#e3effb", "#3d7ebf"), "green": ("#e4f4e8", "#3f9152"), "amber": ("#fdf1d7", "#c48a12"),
    "red": ("#fbe6e3", "#c0503f"), "violet": ("#efe8f8", "#7a5bb0"),
}


class Canvas:
    """Shapes in pixels from the top left; `save` writes them beside the scripts, or into the folder that FIGURES_TO names."""

    def __init__(self, width, height, title):
        self.width, self.height, self.title, self.parts = width, height, title, []

    def box(self, x, y, width, height, text="", colour="plain", size=14, bold=False, dashed=False, radius=8):
        fill, line = COLOURS[colour]
        dash = ' stroke-dasharray="5 4"' if dashed else ""
        self.parts.append(f'<rect x="{x}" y="{y}" width="{width}" height="{height}" rx="{radius}" fill="{fill}" stroke="{line}" stroke-width="1.4"{dash}/>')
        lines = text.split("\n") if text else []
        for at, line_ in enumerate(lines):
            middle = y + height / 2 + (at - (len(lines) - 1) / 2) * size * 1.3
            self.text(x + width / 2, middle + size * 0.35, line_, size=size, anchor="middle", bold=bold and at == 0)

    def text(self, x, y, text, size=14, anchor="start", bold=False, colour=INK, mono=False):
        weight = ' font-weight="600"' if bold else ""
        family = ' font-family="DejaVu Sans Mono, Menlo, Consolas, monospace"' if mono else ""
        self.parts.append(f'<text x="{x:.1f}" y="{y:.1f}" font-size="{size}" text-anchor="{anchor}" fill="{colour}"{weight}{family}>{escape(text)}</text>')

    def arrow(self, points, text="", dashed=False, colour=SOFT, at=0.5, dx=0, dy=-6, anchor="middle", size=12, head=True):
        path = " ".join(f"{'M' if n == 0 else 'L'}{x} {y}" for n, (x, y) in enumerate(points))
        dash = ' stroke-dasharray="5 4"' if dashed else ""
        mark = ' marker-end="url(#head)"' if head else ""
        self.parts.append(f'<path d="{path}" fill="none" stroke="{colour}" stroke-width="1.6"{dash}{mark}/>')
        if text:
            (x0, y0), (x1, y1) = points[0], points[-1]
            if len(points) > 2:
                (x0, y0), (x1, y1) = points[len(points) // 2 - 1], points[len(points) // 2]
            for row, line in enumerate(text.split("\n")):
                self.text(x0 + (x1 - x0) * at + dx, y0 + (y1 - y0) * at + dy + row * size * 1.25, line, size=size, anchor=anchor, colour=SOFT)

    def line(self, x0, y0, x1, y1, colour="#d3dae1", width=1.0, dashed=False):
        dash = ' stroke-dasharray="4 4"' if dashed else ""
        self.parts.append(f'<line x1="{x0:.1f}" y1="{y0:.1f}" x2="{x1:.1f}" y2="{y1:.1f}" stroke="{colour}" stroke-width="{width}"{dash}/>')

    def dot(self, x, y, colour, radius=3.5):
        self.parts.append(f'<circle cx="{x:.1f}" cy="{y:.1f}" r="{radius}" fill="{colour}"/>')

    def curve(self, points, colour, width=2.2):
        path = " ".join(f"{'M' if n == 0 else 'L'}{x:.1f} {y:.1f}" for n, (x, y) in enumerate(points))
        self.parts.append(f'<path d="{path}" fill="none" stroke="{colour}" stroke-width="{width}" stroke-linejoin="round"/>')

    def save(self, name):
        head = (
            f'<svg xmlns="http://www.w3.org/2000/svg" viewBox="0 0 {self.width} {self.height}" width="{self.width}" height="{self.height}" '
            f'font-family="DejaVu Sans, Verdana, Helvetica, Arial, sans-serif" role="img" aria-label="{escape(self.title)}">'
            f"<title>{escape(self.title)}</title>"
            f'<defs><marker id="head" viewBox="0 0 10 10" refX="9" refY="5" markerWidth="7" markerHeight="7" orient="auto-start-reverse">'
            f'<path d="M0 0 L10 5 L0 10 z" fill="{SOFT}"/></marker></defs>'
            f'<rect width="{self.width}" height="{self.height}" fill="{PAPER}"/>'
        )
        with open(f"{os.environ.get('FIGURES_TO', HERE)}/{name}.svg", "w", encoding="utf-8") as file:
            file.write(head + "\n" + "\n".join(self.parts) + "\n</svg>\n")
