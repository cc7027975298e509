"""The colours of a picture, and what they mean."""

from pictures.svg import element, line, text

COLOURS = {"sent": "#2f6fab", "again": "#c46a00", "altered": "#b3001b", "outside": "#7a3fa0", "stub": "#666666"}
STYLE = """
text { font-family: monospace; font-size: 10px; fill: #333333 }
.title { font-size: 13px; font-weight: bold }
.name { font-size: 13px; font-weight: bold; text-anchor: middle }
.again.word, text.again { font-size: 10px; fill: #999999; text-anchor: end }
.scale { fill: #777777; text-anchor: end }
.word, .thread, .words { paint-order: stroke; stroke: white; stroke-width: 3px; stroke-linejoin: round }
.signal { fill: #b3001b; font-weight: bold }
.mark { text-anchor: end; fill: #666666 }
.mark.outside { fill: #7a3fa0 }
.row { stroke: #eeeeee }
.life { stroke: #444444; stroke-width: 1.5 }
.after { stroke-dasharray: 2 4 }
line.end { stroke: #222222; stroke-width: 3 }
line.end.bad { stroke: #b3001b }
text.bad { fill: #b3001b; font-weight: bold }
.behind { fill: white }
.dot { stroke: white; stroke-width: 1; fill: #8a8a8a }
.dot.traffic { fill: #2f6fab }
.dot.print, .dot.note { fill: #d99a00 }
.dot.exit { fill: #222222 }
.dot.refused { fill: white; stroke: #b3001b; stroke-width: 1.5 }
.arrow { stroke: #2f6fab; stroke-width: 1.2; fill: none }
.arrow.again { stroke: #c46a00; stroke-dasharray: 5 3 }
.arrow.altered { stroke: #b3001b }
.touch { stroke: #ffffff; stroke-opacity: 0; stroke-width: 7 }
.stub { stroke: #666666; stroke-width: 1.2 }
.stub.lost { stroke: #b3001b }
.stub.outside { stroke: #7a3fa0 }
.cross { stroke: #b3001b; stroke-width: 2; fill: none }
"""


def heads():
    """The heads of the arrows; each colour needs its own."""
    shape = {"viewBox": "0 0 8 8", "refX": 7, "refY": 4, "markerWidth": 8, "markerHeight": 8, "orient": "auto"}
    made = [
        element("marker", element("path", d="M 0 1 L 8 4 L 0 7 z", fill=colour), id=name, markerUnits="userSpaceOnUse", **shape)
        for name, colour in COLOURS.items()
    ]
    return element("defs", *made)


def arrow_sample(x, y, kind, head):
    return line((x, y), (x + 34, y), kind, marker_end="url(#%s)" % head)


def dot_sample(x, y, kind):
    return element("circle", cx=x + 17, cy=y, r=4, kind="dot " + kind)


def cross_sample(x, y):
    return line((x, y), (x + 24, y), "stub lost") + element("path", d="M %d %d l 6 6 m 0 -6 l -6 6" % (x + 24, y - 3), kind="cross")


def mark_sample(mark):
    return lambda x, y: text(mark, x + 24, y + 3, "mark outside" if mark == "in" else "mark")


SAMPLES = (
    (lambda x, y: arrow_sample(x, y, "arrow", "sent"), "a datagram, from its send to the event that took it"),
    (lambda x, y: arrow_sample(x, y, "arrow again", "again"), "the same datagram once more"),
    (lambda x, y: arrow_sample(x, y, "arrow altered", "altered"), "it came with other bytes"),
    (cross_sample, "no event took it: lost, or still waiting"),
    (mark_sample("in"), "taken from outside the group"),
    (mark_sample("out"), "sent out of the group"),
    (mark_sample("cut"), "the cut kept no event that took it"),
    (mark_sample("?"), "the logs given lack its send, or its receiver"),
    (lambda x, y: dot_sample(x, y, "traffic"), "sent or took a datagram"),
    (lambda x, y: dot_sample(x, y, "print"), "print or note"),
    (lambda x, y: dot_sample(x, y, "plain"), "another call"),
    (lambda x, y: dot_sample(x, y, "refused"), "an entry that replay does not accept"),
    (lambda x, y: line((x + 9, y), (x + 25, y), "end"), "the process ended; where the line is dotted, it did not"),
    (lambda x, y: text("2: lock", x, y + 3, "said"), "a call of thread 2"),
    (lambda x, y: text("signal 5", x, y + 3, "signal"), "the event delivered this signal"),
)


def legend(title):
    parts = [text(title, 16, 24, "title")]
    for place, (sample, words) in enumerate(SAMPLES):
        x, y = 16 + 400 * (place // 8), 44 + 15 * (place % 8)
        parts += [sample(x, y), text(words, x + 54, y + 3, "said")]
    return "".join(parts)
