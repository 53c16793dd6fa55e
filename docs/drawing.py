"""What draw_crates.py and draw_states.py share: rectangles, and boxes, arrows and lines of text as SVG."""

from html import escape
from typing import NamedTuple

LINE_COLOUR = "#34495e"
BOX_COLOUR = "#eef2f7"
HEAD_LENGTH = 10
HEAD_HALF_WIDTH = 4


class Rect(NamedTuple):
    left: float
    top: float
    right: float
    bottom: float


def closer(a, b, distance):
    """Whether two rectangles are less than a distance apart, across as well as down; with 0, whether they overlap."""
    return (
        a.left < b.right + distance
        and b.left < a.right + distance
        and a.top < b.bottom + distance
        and b.top < a.bottom + distance
    )


def text_width(text, size):
    """A width that no label and no line of names in these pictures exceeds in the font DejaVu Sans."""
    return 0.63 * size * len(text)


def text_lines(x, middle, lines, size, anchor="middle", weight="normal"):
    """Lines of text, one below the other, with their middle at a height."""
    first = middle - line_height(size) * (len(lines) - 1) / 2 + 0.35 * size
    return [
        f'<text x="{x:g}" y="{first + k * line_height(size):g}" font-size="{size}" '
        f'text-anchor="{anchor}" font-weight="{weight}">{escape(line)}</text>'
        for k, line in enumerate(lines)
    ]


def line_height(size):
    return 1.25 * size


def box(rect, fill=BOX_COLOUR):
    """A box with round corners."""
    return (
        f'<rect x="{rect.left:g}" y="{rect.top:g}" width="{rect.right - rect.left:g}" height="{rect.bottom - rect.top:g}" '
        f'rx="8" fill="{fill}" stroke="{LINE_COLOUR}"/>'
    )


def arrow(points):
    """A line through points, with a head at the last."""
    (x0, y0), (x1, y1) = points[-2:]
    length = ((x1 - x0) ** 2 + (y1 - y0) ** 2) ** 0.5
    dx, dy = (x1 - x0) / length, (y1 - y0) / length
    x, y = x1 - HEAD_LENGTH * dx, y1 - HEAD_LENGTH * dy
    side_x, side_y = HEAD_HALF_WIDTH * -dy, HEAD_HALF_WIDTH * dx
    head = [(x1, y1), (x + side_x, y + side_y), (x - side_x, y - side_y)]
    return (
        f'<polyline points="{joined(points[:-1] + [(x, y)])}" fill="none" stroke="{LINE_COLOUR}"/>'
        f'<polygon points="{joined(head)}" fill="{LINE_COLOUR}"/>'
    )


def joined(points):
    return " ".join(f"{x:g},{y:g}" for x, y in points)


def document(width, height, title, parts):
    """The whole picture, on white."""
    return "\n".join(
        [
            f'<svg xmlns="http://www.w3.org/2000/svg" width="{width:g}" height="{height:g}" '
            f'viewBox="0 0 {width:g} {height:g}" font-family="sans-serif">',
            f"<title>{escape(title)}</title>",
            '<rect width="100%" height="100%" fill="white"/>',
            *parts,
            "</svg>\n",
        ]
    )
