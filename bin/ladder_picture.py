"""The SVG picture of a ladder.

Requests are blue, responses green, repeats orange and dashed. What was dropped, or isn't a message,
is red. What is only computed, not captured, is pale. Texts can be selected, and each arrow has its
whole label as a title.
"""

from collections import namedtuple
from html import escape

from captured import shown

# A row: its moment in ms, its label, its kind (request, response, again, bad or note), and the
# columns where its arrow begins and ends, or None.
Row = namedtuple("Row", "moment label kind way is_ours", defaults=[None, False])

LEFT, TOP, ROW, COLUMN = 90, 64, 26, 190
STYLE = """
text { font: 12px ui-monospace, monospace; fill: #222 }
.peer { font-weight: bold; text-anchor: middle }
.ms { fill: #777; text-anchor: end }
.note { fill: #555 }
.column { stroke: #bbb }
.request { stroke: #1f5fa8; fill: #1f5fa8 }
.response { stroke: #2a7d3f; fill: #2a7d3f }
.again { stroke: #c77700; fill: #c77700; stroke-dasharray: 5 3 }
.bad { stroke: #b3261e; fill: #b3261e }
.ours { opacity: 0.5 }
text.request, text.response, text.again, text.bad { stroke: none }
"""


def kind_of(label):
    words = label.split()
    if label.startswith("?"):
        return "bad"
    if "again" in words[:4]:
        return "again"
    return "response" if words and words[0].isdigit() else "request"


def arrow(y, row, start, end):
    back = -7 if end > start else 7
    first = " ".join(row.label.split()[:2])
    return (
        f'<g class="{classes(row)}"><title>{escape(shown(row.label))}</title>'
        f'<line x1="{start}" y1="{y}" x2="{end}" y2="{y}"/>'
        f'<path stroke-dasharray="none" d="M{end} {y} l{back} -4 v8 z"/></g>'
        f'<text class="{classes(row)}" x="{(start + end) / 2}" y="{y - 4}" text-anchor="middle">'
        f"{escape(shown(first))}</text>"
    )


def classes(row):
    return f"{row.kind} ours" if row.is_ours else row.kind


def picture(names, rows):
    """The lines of the picture of these columns and rows."""
    xs = [LEFT + COLUMN * column for column in range(len(names))]
    right, height = xs[-1] + 30, TOP + ROW * (len(rows) + 1)
    out = [
        f'<svg xmlns="http://www.w3.org/2000/svg" width="{right + 520}" height="{height}">',
        f"<style>{STYLE}</style>",
        '<rect width="100%" height="100%" fill="white"/>',
    ]
    for x, name in zip(xs, names):
        out.append(f'<text class="peer" x="{x}" y="24">{escape(shown(name))}</text>')
        out.append(f'<line class="column" x1="{x}" y1="34" x2="{x}" y2="{height - 10}"/>')
    for index, row in enumerate(rows):
        y = TOP + ROW * index
        out.append(f'<text class="ms" x="{LEFT - 14}" y="{y + 4}">{row.moment} ms</text>')
        if row.way is None:
            out.append(f'<circle class="{row.kind}" cx="{LEFT}" cy="{y}" r="3"/>')
        else:
            out.append(arrow(y, row, xs[row.way[0]], xs[row.way[1]]))
        label = escape(shown(row.label))
        out.append(f'<text class="{classes(row)}" x="{right}" y="{y + 4}">{label}</text>')
    return out + ["</svg>"]
