#!/usr/bin/env python3
"""Draws the pictures of the pages: tools/pictures.py [--check]

They are docs/pictures/NAME.svg, of plain shapes and text, for light and dark screens. With --check nothing is written, and the status
is 1 where a file is not what would be drawn, or no page shows it.
"""

import glob
import os
import sys
from collections.abc import Callable
from xml.sax.saxutils import escape

TOP = os.path.dirname(os.path.dirname(os.path.abspath(__file__)))
_FOLDER = "docs/pictures"
_STYLE = """
  text { font: 14px sans-serif; fill: #1b1f24 } .small { font-size: 12px } .title { font-weight: bold }
  .proved { fill: #cfe8d5; stroke: #2b7a41 } .tested { fill: #e6e8ec; stroke: #5c6670 } .trusted { fill: #fff; stroke: #5c6670; stroke-dasharray: 4 3 }
  .put { stroke: #a8480f; fill: none } .get { stroke: #1f5fa8; fill: none } .band { fill: #1f5fa8; fill-opacity: .1 } .pillar { fill: #a8480f; fill-opacity: .1 }
  rect { stroke-width: 1.5 } line, path { stroke-width: 2 }
  @media (prefers-color-scheme: dark) {
    text { fill: #e8eaed } .proved { fill: #1f4a2c; stroke: #7fc796 } .tested { fill: #30363d; stroke: #9aa4ae } .trusted { fill: #15181c; stroke: #9aa4ae }
    .put { stroke: #f0a070 } .get { stroke: #8fbcf0 }
  }
"""


class _Drawing:
    """A picture of this width and height, with what it says to who can't see it."""

    def __init__(self, width: int, height: int, says: str) -> None:
        self._parts = [
            f'<svg xmlns="http://www.w3.org/2000/svg" viewBox="0 0 {width} {height}" width="{width}" height="{height}" role="img">',
            f"<title>{escape(says)}</title>",
            f"<style>{_STYLE}</style>",
            '<defs><marker id="tip" viewBox="0 0 8 8" refX="7" refY="4" markerWidth="7" markerHeight="7" orient="auto-start-reverse">'
            '<path d="M0 0 L8 4 L0 8 z" fill="context-stroke" stroke="none"/></marker></defs>',
        ]

    def box(self, at: tuple[int, int], size: tuple[int, int], kind: str, *lines: str) -> None:
        (x, y), (width, height) = at, size
        self._parts.append(f'<rect class="{kind}" x="{x}" y="{y}" width="{width}" height="{height}" rx="5"/>')
        for number, line in enumerate(lines):
            self.text((x + width // 2, y + height // 2 + 5 + 17 * number - 17 * (len(lines) - 1) // 2), line, "title" if number == 0 else "small")

    def area(self, at: tuple[int, int], size: tuple[int, int], kind: str) -> None:
        self._parts.append(f'<rect class="{kind}" x="{at[0]}" y="{at[1]}" width="{size[0]}" height="{size[1]}" rx="9"/>')

    def text(self, at: tuple[int, int], line: str, kind: str = "", anchor: str = "middle") -> None:
        self._parts.append(f'<text class="{kind}" x="{at[0]}" y="{at[1]}" text-anchor="{anchor}">{escape(line)}</text>')

    def arrow(self, start: tuple[int, int], end: tuple[int, int], kind: str, both: bool = False) -> None:
        begins = ' marker-start="url(#tip)"' if both else ""
        self._parts.append(f'<line class="{kind}" x1="{start[0]}" y1="{start[1]}" x2="{end[0]}" y2="{end[1]}" marker-end="url(#tip)"{begins}/>')

    def written(self) -> str:
        return "\n".join([*self._parts, "</svg>\n"])


def _nodes(drawing: _Drawing, left: int, top: int) -> None:
    for number in range(4):
        at = (left + 110 * (number % 2), top + 60 * (number // 2))
        drawing.box(at, (90, 40), "proved", f"node {number}")


def _quorums() -> str:
    drawing = _Drawing(620, 190, "A put is stored by a whole column, a get asks a whole row, and every row meets every column.")
    for left, kind, at, size in ((30, "pillar", (22, 42), (106, 116)), (350, "band", (342, 42), (216, 56))):
        drawing.area(at, size, kind)
        _nodes(drawing, left, 50)
    drawing.text((130, 20), "put: both nodes of a column", "title")
    drawing.text((450, 20), "get: both nodes of a row", "title")
    for y in (70, 130):
        drawing.arrow((4, 100), (28, y), "put")
    for x in (395, 505):
        drawing.arrow((450, 28), (x, 48), "get")
    drawing.text((310, 180), "Row 0 meets column 0 at node 0: the get finds there what was put.", "small")
    return drawing.written()


def _parts() -> str:
    drawing = _Drawing(640, 226, "Nodes are proved; clients, the gateway of S3 and what carries messages are tested; disks and the system are trusted.")
    drawing.box((10, 12), (160, 44), "tested", "command, Python", "names and contents")
    drawing.box((10, 70), (160, 44), "tested", "gateway of S3", "names and contents")
    drawing.box((10, 128), (160, 44), "tested", "lines by hand", "numbered files")
    drawing.box((230, 70), (130, 44), "tested", "carriers", "links, MQTT, pipes")
    drawing.box((430, 12), (200, 60), "proved", "node", "requests, rounds, chunks")
    drawing.box((430, 82), (200, 44), "proved", "journal, shelf", "what is synced, and when")
    drawing.box((430, 136), (200, 36), "trusted", "calls to the disk")
    for y, to in ((34, 80), (92, 92), (150, 104)):
        drawing.arrow((172, y), (228, to), "get")
    drawing.arrow((362, 92), (428, 42), "get", both=True)
    for x, kind, word in ((10, "proved", "proved"), (160, "tested", "tested"), (310, "trusted", "trusted")):
        drawing.area((x, 194), (22, 16), kind)
        drawing.text((x + 32, 207), word, "small", "start")
    return drawing.written()


_PICTURES: dict[str, Callable[[], str]] = {"rows-and-columns": _quorums, "what-is-proved": _parts}


def _shown() -> str:
    pages = [f"{TOP}/README.md", *glob.glob(f"{TOP}/docs/*.md")]
    text = ""
    for page in pages:
        with open(page, encoding="utf-8") as file:
            text += file.read()
    return text


def main(words: list[str]) -> int:
    if words not in ([], ["--check"]):
        sys.exit(__doc__)
    wrong, pages = 0, _shown()
    for name, draw in _PICTURES.items():
        path = f"{TOP}/{_FOLDER}/{name}.svg"
        if not words:
            os.makedirs(os.path.dirname(path), exist_ok=True)
            with open(path, "w", encoding="utf-8") as file:
                file.write(draw())
            continue
        is_there = os.path.isfile(path)
        if not is_there or open(path, encoding="utf-8").read() != draw():
            wrong += 1
            print(f"pictures: {_FOLDER}/{name}.svg is not what is drawn")
        if f"pictures/{name}.svg" not in pages:
            wrong += 1
            print(f"pictures: no page shows {name}.svg")
    return min(1, wrong)


if __name__ == "__main__":
    sys.exit(main(sys.argv[1:]))
