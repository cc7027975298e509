"""Elements of an SVG picture as text."""

from xml.sax.saxutils import escape, quoteattr


def element(name, *inside, **attributes):
    """An element with these attributes, where _ stands for - and kind for class, around text that is escaped already."""
    spelled = "".join(" %s=%s" % (attribute_name(key), quoteattr(str(value))) for key, value in attributes.items())
    return "<%s%s>%s</%s>" % (name, spelled, "".join(inside), name) if inside else "<%s%s/>" % (name, spelled)


def attribute_name(key):
    return "class" if key == "kind" else key.replace("_", "-")


def text(words, x, y, kind, **attributes):
    return element("text", escape(words), x=number(x), y=number(y), kind=kind, **attributes)


def line(start, end, kind, **attributes):
    (x1, y1), (x2, y2) = start, end
    return element("line", x1=number(x1), y1=number(y1), x2=number(x2), y2=number(y2), kind=kind, **attributes)


def told(lines, *inside):
    """What is drawn inside, with lines that show where the mouse rests on it."""
    return element("g", element("title", escape("\n".join(lines))), *inside)


def number(value):
    return ("%.1f" % value).rstrip("0").rstrip(".")
