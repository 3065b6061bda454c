"""Pictures in SVG, which are read in light and in dark."""
from html import escape

STYLE = """
.back { fill: #fff } text { font: 13px sans-serif; fill: #1f2328 } .code { font: 12px monospace } .dim { font-size: 12px; fill: #59636e }
.small { font-size: 11px } .end { text-anchor: end } .middle { text-anchor: middle } .box { fill: #eaf2fb; stroke: #4a7ab0 }
.line { fill: none; stroke: #59636e } .head { fill: #59636e } .low { fill: #4a90c2 } .high { fill: #dd8452 }
@media (prefers-color-scheme: dark) { .back { fill: #0d1117 } text { fill: #e6edf3 } .dim { fill: #9da7b3 } .head { fill: #9da7b3 }
.box { fill: #15263a; stroke: #6ca0dc } .line { stroke: #9da7b3 } }
"""


class Picture:
    def __init__(self, width, height, title):
        self.head = f'<svg xmlns="http://www.w3.org/2000/svg" viewBox="0 0 {width} {height}" width="{width}" role="img">\n' \
            f"<title>{escape(title)}</title>\n<style>{STYLE}</style>\n"
        self.parts = [f'<rect class="back" width="{width}" height="{height}" rx="6"/>']

    def text(self, x, y, words, style=""):
        self.parts.append(f'<text x="{x:g}" y="{y:g}"{self.named(style)}>{escape(words)}</text>')

    def box(self, x, y, width, height, style="box"):
        self.parts.append(f'<rect x="{x:g}" y="{y:g}" width="{width:g}" height="{height:g}"{self.named(style)}/>')

    def line(self, x, y, to_x, to_y):
        self.parts.append(f'<path class="line" d="M{x:g} {y:g}L{to_x:g} {to_y:g}"/>')

    def arrow(self, x, y, to_x, to_y):
        """A line along one axis, with its head at the second place."""
        along_x, along_y = (to_x > x) - (to_x < x), (to_y > y) - (to_y < y)
        base_x, base_y = to_x - 8 * along_x, to_y - 8 * along_y
        self.line(x, y, base_x, base_y)
        sides = f"{base_x + 4 * along_y:g} {base_y + 4 * along_x:g}L{base_x - 4 * along_y:g} {base_y - 4 * along_x:g}"
        self.parts.append(f'<path class="head" d="M{to_x:g} {to_y:g}L{sides}z"/>')

    @staticmethod
    def named(style):
        return f' class="{style}"' if style else ""

    def drawn(self):
        return self.head + "\n".join(self.parts) + "\n</svg>\n"
