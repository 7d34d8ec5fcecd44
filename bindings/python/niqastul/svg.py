"""Pictures as SVG text, the same for the same input: lines, dots and rings, and how blocks look."""

# The colours of Okabe and Ito, which colour-blind readers tell apart, without the yellow that is faint on white. Further blocks have
# the same colours dashed, and then lighter.
COLOURS = ("#0072b2", "#d55e00", "#009e73", "#cc79a7", "#e69f00", "#56b4e9", "#000000")
DASHES = ("", "5 2.5", "1.5 1.5", "6 2 1.5 2")
LOOKS = 2 * len(COLOURS) * len(DASHES)

INK, GREY = "#222222", "#888888"

PLOT = 700     # the width of what is drawn
EDGE = 20      # around it


def colour(block):
    its = COLOURS[block % len(COLOURS)]
    if block % LOOKS < LOOKS // 2:
        return its
    return "#" + "".join(f"{(int(its[at:at + 2], 16) + 255) // 2:02x}" for at in (1, 3, 5))


def number(value):
    return f"{value:.1f}".rstrip("0").rstrip(".")


def element(name, content=None, **attributes):
    words = "".join(f' {key.replace("_", "-")}="{value}"' for key, value in attributes.items() if value != "")
    return f"<{name}{words}/>" if content is None else f"<{name}{words}>{content}</{name}>"


def text(x, y, content, **attributes):
    return element("text", content, x=number(x), y=number(y), **attributes)


def lines(pairs, width, stroke, dash=""):
    """Lines of one look, each a pair of points, as one path."""
    path = "".join(f"M{number(x)} {number(y)}L{number(u)} {number(v)}" for (x, y), (u, v) in pairs)
    return element("path", d=path, stroke=stroke, stroke_width=number(width), stroke_dasharray=dash, stroke_linecap="" if dash else "round",
                   fill="none") if path else ""


def block_lines(block, pairs, width):
    return lines(pairs, width, colour(block), DASHES[block // len(COLOURS) % len(DASHES)])


def dots(points, radius, fill):
    return element("g", "".join(element("circle", cx=number(x), cy=number(y), r=number(radius)) for x, y in points), fill=fill) if points else ""


def rings(points, radius):
    """Rings with white in them, to be drawn over lines and under dots."""
    its = "".join(element("circle", cx=number(x), cy=number(y), r=number(radius)) for x, y in points)
    return element("g", its, fill="white", stroke=INK, stroke_width=number(max(0.6, radius / 4))) if points else ""


def document(width, height, parts):
    content = "\n" + "".join(part + "\n" for part in parts if part)
    return element("svg", content, xmlns="http://www.w3.org/2000/svg", viewBox=f"0 0 {width} {height}", width=width, height=height,
                   font_family="sans-serif", font_size="14", fill=INK) + "\n"
