"""Elements of SVG as text."""
from xml.sax import saxutils


def number(value):
    """With one digit behind the point, where it is not 0."""
    return f"{value:.1f}".removesuffix(".0")


def attribute(name, value):
    shown = number(value) if isinstance(value, (int, float)) else str(value)
    return f" {name.rstrip('_').replace('_', '-')}={saxutils.quoteattr(shown)}"


def element(name, *inside, **attributes):
    head = name + "".join(attribute(key, value) for key, value in attributes.items())
    return f"<{head}>{''.join(inside)}</{name}>" if inside else f"<{head}/>"


def printable(words):
    """For XML, which does not take every character that a file's name may have."""
    return saxutils.escape("".join(c if c.isprintable() or c == "\n" else "?" for c in words))


def text(words, x, y, **attributes):
    return element("text", printable(words), x=x, y=y, **attributes)


def title(words):
    return element("title", printable(words))


def group(inside, **attributes):
    """Nothing where there is nothing inside."""
    return element("g", *inside, **attributes) if inside else ""
