"""The few shapes that a picture is made of, as SVG text."""
import math
from html import escape


def attributes(named):
    return "".join(f' {name.replace("_", "-")}="{escape(str(value))}"' for name, value in named.items())


def number(x):
    """As short as it can be said."""
    return f"{x:.2f}".rstrip("0").rstrip(".")


def rect(x, y, width, height, fill, title=None, **more):
    """A filled rectangle; `title` is shown where the pointer rests on it."""
    shape = f'<rect x="{number(x)}" y="{number(y)}" width="{number(width)}" height="{number(height)}" fill="{fill}"{attributes(more)}'
    return f"{shape}/>" if title is None else f"{shape}><title>{escape(title)}</title></rect>"


def line(x1, y1, x2, y2, stroke):
    return f'<line x1="{number(x1)}" y1="{number(y1)}" x2="{number(x2)}" y2="{number(y2)}" stroke="{stroke}"/>'


def polyline(points, stroke, **more):
    """A line through points."""
    through = " ".join(f"{number(x)},{number(y)}" for x, y in points)
    return f'<polyline points="{through}" fill="none" stroke="{stroke}"{attributes(more)}/>'


def head_of(x, y, towards_x, towards_y, fill):
    """The head of an arrow whose tip is at x, y and which comes along the direction given."""
    long = math.hypot(towards_x, towards_y)
    dx, dy = 7 * towards_x / long, 7 * towards_y / long
    points = ((x, y), (x - dx - dy / 2, y - dy + dx / 2), (x - dx + dy / 2, y - dy - dx / 2))
    return f'<polygon points="{" ".join(f"{number(a)},{number(b)}" for a, b in points)}" fill="{fill}"/>'


def arrow(start, end, stroke, by=None, **more):
    """An arrow from one point to another, bent towards the point `by`."""
    (x1, y1), (x2, y2) = start, end
    bx, by = by or ((x1 + x2) / 2, (y1 + y2) / 2)
    course = " ".join(map(number, (x1, y1))) + " Q " + " ".join(map(number, (bx, by, x2, y2)))
    return f'<path d="M {course}" fill="none" stroke="{stroke}"{attributes(more)}/>' + head_of(x2, y2, x2 - bx, y2 - by, stroke)


def circle(x, y, radius, fill, title):
    """A dot; `title` is shown where the pointer rests on it."""
    return f'<circle cx="{number(x)}" cy="{number(y)}" r="{number(radius)}" fill="{fill}"><title>{escape(title)}</title></circle>'


def text(x, y, words, size=11, **more):
    return f'<text x="{number(x)}" y="{number(y)}" font-size="{size}"{attributes(more)}>{escape(words)}</text>'


def marker(x, y, half, fill):
    """A triangle whose tip is at x, y, from below."""
    points = f"{number(x)},{number(y)} {number(x - half)},{number(y + 2 * half)} {number(x + half)},{number(y + 2 * half)}"
    return f'<polygon points="{points}" fill="{fill}"/>'


def whole(width, height, shapes):
    head = f'<svg xmlns="http://www.w3.org/2000/svg" width="{width}" height="{number(height)}" viewBox="0 0 {width} {number(height)}"'
    return "\n".join([head + ' font-family="sans-serif">', rect(0, 0, width, height, "#ffffff"), *shapes, "</svg>", ""])


def runs(values):
    """Stretches of equal values: first place, one past the last, value."""
    first = 0
    for k in range(1, len(values) + 1):
        if k == len(values) or values[k] != values[first]:
            yield first, k, values[first]
            first = k
