"""An SVG as it grows."""

# About how wide a letter is at the size of most texts, for places that depend on words.
LETTER = 6.2


class Picture:
    """A white page with rectangles, lines, circles and texts; `text_of` is the file."""

    def __init__(self, width: float, height: float) -> None:
        self.width, self.height = width, height
        box = f'viewBox="0 0 {width:.0f} {height:.0f}" font-family="sans-serif" font-size="12"'
        self.lines = [f'<svg xmlns="http://www.w3.org/2000/svg" {box}>']
        self.rect(0, 0, width, height, "white")

    def rect(self, x: float, y: float, width: float, height: float, fill: str, more: str = "") -> None:
        self.lines.append(f'<rect x="{x:.1f}" y="{y:.1f}" width="{width:.1f}" height="{height:.1f}" fill="{fill}"{more}/>')

    def box(self, x: float, y: float, width: float, height: float, fill: str) -> None:
        """A rectangle with an edge."""
        self.rect(x, y, width, height, fill, ' stroke="black"')

    def line(self, x1: float, y1: float, x2: float, y2: float, stroke: str = "gray", more: str = "") -> None:
        self.lines.append(f'<line x1="{x1:.1f}" y1="{y1:.1f}" x2="{x2:.1f}" y2="{y2:.1f}" stroke="{stroke}"{more}/>')

    def dashed(self, x1: float, y1: float, x2: float, y2: float, stroke: str = "gray") -> None:
        self.line(x1, y1, x2, y2, stroke, ' stroke-dasharray="6 4"')

    def path(self, points: list[tuple[float, float]], fill: str = "none", stroke: str = "black") -> None:
        """A line through points."""
        places = " ".join(f"{x:.1f},{y:.1f}" for x, y in points)
        self.lines.append(f'<polyline points="{places}" fill="{fill}" stroke="{stroke}"/>')

    def arrow(self, points: list[tuple[float, float]]) -> None:
        """A line through points with an arrow at its end, which goes to the right or down."""
        self.path(points)
        (x, y), (before, _) = points[-1], points[-2]
        sides = [(x - 8, y - 4), (x - 8, y + 4)] if before != x else [(x - 4, y - 8), (x + 4, y - 8)]
        self.path([sides[0], (x, y), sides[1]], fill="black")

    def circle(self, x: float, y: float, radius: float, fill: str, stroke: str = "black") -> None:
        self.lines.append(f'<circle cx="{x:.1f}" cy="{y:.1f}" r="{radius}" fill="{fill}" stroke="{stroke}"/>')

    def text(self, x: float, y: float, words: str, anchor: str = "start", size: int = 12) -> None:
        words = words.replace("&", "&amp;").replace("<", "&lt;")
        small = "" if size == 12 else f' font-size="{size}"'
        self.lines.append(f'<text x="{x:.1f}" y="{y:.1f}" text-anchor="{anchor}"{small}>{words}</text>')

    def text_of(self) -> str:
        return "\n".join([*self.lines, "</svg>"]) + "\n"
