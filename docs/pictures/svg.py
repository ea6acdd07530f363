"""Draws SVG pictures: cards with a background of their own, readable on light and on dark pages.
Text stays text, and numbers are rounded, so that the same drawing always gives the same file."""

INK, GREY, FAINT = "#222831", "#6b7280", "#d5d9de"
BLUE, RED, GOLD, GREEN = "#3b74a8", "#c2566b", "#e0a526", "#3f8f58"

STYLE = """text{font-family:'DejaVu Sans',Verdana,sans-serif;fill:#222831}
.title{font-size:16px;font-weight:bold}
.plain{font-size:13px}
.small{font-size:11px;fill:#6b7280}
.tiny{font-size:10px}
.micro{font-size:9px}
.sign{font-size:19px;font-family:'DejaVu Sans Mono',Menlo,monospace}
.strong{font-size:13px;font-weight:bold}"""

ESCAPES = {"&": "&amp;", "<": "&lt;", ">": "&gt;"}


def escaped(words):
    return "".join(ESCAPES.get(sign, sign) for sign in str(words))


def short(value):
    return f"{value:.2f}".rstrip("0").rstrip(".")


def tag(name, content=None, **attributes):
    """One element. Numbers are rounded; `stroke_width` stands for `stroke-width`."""
    words = [name]
    for key, value in attributes.items():
        if value is not None:
            value = short(value) if isinstance(value, (int, float)) else value
            words.append(f'{key.rstrip("_").replace("_", "-")}="{value}"')
    opening = "<" + " ".join(words)
    return f"{opening}/>" if content is None else f"{opening}>{content}</{name}>"


class Picture:
    def __init__(self, width, height, title):
        self.width, self.height, self.title = width, height, title
        self.parts = []

    def add(self, name, content=None, **attributes):
        self.parts.append(tag(name, content, **attributes))

    def text(self, x, y, words, style="plain", anchor="start", fill=None):
        self.add("text", escaped(words), x=x, y=y, class_=style, text_anchor=anchor,
                 style=f"fill:{fill}" if fill else None)

    def line(self, x1, y1, x2, y2, colour=FAINT, width=1.0, dash=None, end=None):
        self.add("line", x1=x1, y1=y1, x2=x2, y2=y2, stroke=colour, stroke_width=width, stroke_dasharray=dash,
                 marker_end=f"url(#{end})" if end else None)

    def path(self, points, colour=INK, width=2.0, dash=None):
        way = "M" + " L".join(f"{short(x)} {short(y)}" for x, y in points)
        self.add("path", d=way, fill="none", stroke=colour, stroke_width=width, stroke_dasharray=dash,
                 stroke_linejoin="round")

    def arc(self, x1, x2, y, drop, colour=GREY, width=1.5):
        """A half loop below the line from x1 to x2."""
        here, there, low = short(x1), short(x2), short(y + drop)
        way = f"M{here} {short(y)} C{here} {low} {there} {low} {there} {short(y)}"
        self.add("path", d=way, fill="none", stroke=colour, stroke_width=width)

    def dot(self, x, y, colour=INK, radius=4.5, stroke=None):
        self.add("circle", cx=x, cy=y, r=radius, fill=colour, stroke=stroke, stroke_width=1.5 if stroke else None)

    def box(self, x, y, width, height, fill="#ffffff", stroke=GREY, thick=1.2, dash=None, radius=5, opacity=None):
        self.add("rect", x=x, y=y, width=width, height=height, rx=radius, fill=fill, fill_opacity=opacity,
                 stroke=stroke, stroke_width=thick, stroke_dasharray=dash)

    def whole(self):
        heads = "".join(tag("marker", tag("path", d="M0 0 L8 4 L0 8 z", fill=colour), id=name, viewBox="0 0 8 8",
                            refX=7, refY=4, markerWidth=7, markerHeight=7, orient="auto-start-reverse")
                        for name, colour in (("blue", BLUE), ("red", RED), ("green", GREEN), ("grey", GREY)))
        parts = [tag("title", escaped(self.title)), f"<style>{STYLE}</style>", tag("defs", heads),
                 tag("rect", width=self.width, height=self.height, rx=10, fill="#fcfcfa"), *self.parts]
        body = "\n".join(parts)
        return tag("svg", f"\n{body}\n", xmlns="http://www.w3.org/2000/svg", viewBox=f"0 0 {self.width} {self.height}",
                   width=self.width, height=self.height) + "\n"
