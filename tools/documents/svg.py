"""Writes and compares the drawings of docs/: a few elements of SVG, and the command that the drawing scripts share."""

import os
import sys

import library

# dark enough on white, and told apart without colour vision
COLOURS = {"blue": "#0072b2", "orange": "#d55e00", "green": "#007a5a", "grey": "#5f6b7a", "ink": "#1b2733"}


def escaped(text):
    return text.replace("&", "&amp;").replace("<", "&lt;").replace(">", "&gt;")


def words(x, y, text, size=13, anchor="start", colour="ink", bold=False):
    weight = ' font-weight="bold"' if bold else ""
    place = f'x="{x:.1f}" y="{y:.1f}" font-size="{size}" text-anchor="{anchor}"'
    return f'<text {place} fill="{COLOURS[colour]}"{weight}>{escaped(text)}</text>'


def line(x1, y1, x2, y2, colour="ink", width=1.0, dashes=""):
    dash = f' stroke-dasharray="{dashes}"' if dashes else ""
    ends = f'x1="{x1:.1f}" y1="{y1:.1f}" x2="{x2:.1f}" y2="{y2:.1f}"'
    return f'<line {ends} stroke="{COLOURS[colour]}" stroke-width="{width}"{dash}/>'


def path(points, colour, width=2.0, dashes=""):
    dash = f' stroke-dasharray="{dashes}"' if dashes else ""
    places = " ".join(f"{x:.1f},{y:.1f}" for x, y in points)
    return f'<polyline points="{places}" fill="none" stroke="{COLOURS[colour]}" stroke-width="{width}"{dash}/>'


def area(points, colour):
    places = " ".join(f"{x:.1f},{y:.1f}" for x, y in points)
    return f'<polygon points="{places}" fill="{COLOURS[colour]}" fill-opacity="0.14"/>'


def box(x, y, width, height, fill="#ffffff", colour="ink", round_by=4):
    place = f'x="{x:.1f}" y="{y:.1f}" width="{width:.1f}" height="{height:.1f}" rx="{round_by}"'
    return f'<rect {place} fill="{fill}" stroke="{COLOURS[colour]}"/>'


def document(width, height, title, parts):
    head = f'<svg xmlns="http://www.w3.org/2000/svg" viewBox="0 0 {width} {height}" width="{width}" height="{height}"'
    head += ' font-family="Helvetica, Arial, sans-serif" role="img">'
    ground = f'<rect width="{width}" height="{height}" fill="#ffffff"/>'
    return "\n".join([head, f"<title>{escaped(title)}</title>", ground, *parts, "</svg>"]) + "\n"


def command(name, help_text, drawing):
    """Writes docs/NAME.svg, or with --check says whether it is what would be written. Answers the exit status."""
    arguments = sys.argv[1:]
    target = library.REPOSITORY / "docs" / f"{name}.svg"
    if arguments == ["--help"]:
        print(help_text.strip())
        return 0
    if arguments not in ([], ["--check"]):
        print(help_text.strip(), file=sys.stderr)
        return 2
    try:
        text = drawing()
        if not arguments:
            temporary = target.with_suffix(".part")
            temporary.write_text(text)
            os.replace(temporary, target)
        elif target.read_text() != text:
            print(f"docs/{name}.svg is not what {sys.argv[0]} draws: run it again", file=sys.stderr)
            return 1
    except (OSError, ValueError) as fault:
        print(f"{sys.argv[0]}: {fault}", file=sys.stderr)
        return 1
    except KeyError as missing:
        print(f"{sys.argv[0]}: its data has no {missing}: make the data again", file=sys.stderr)
        return 1
    return 0
