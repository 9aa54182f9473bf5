"""Elements of HTML, SVG and RSS as text. What is given as text becomes text and never markup: titles are written by
people."""
import html
import types

# Elements of HTML that have no end.
ALONE = ("meta", "link")


class Markup(str):
    """Text that is markup already."""


def joined(children):
    """The children one after another; what isn't text among them is taken apart, and None is left out."""
    parts = []
    for it in children:
        if isinstance(it, (list, tuple, types.GeneratorType)):
            parts.append(joined(it))
        elif it is not None:
            parts.append(it if isinstance(it, Markup) else html.escape(str(it), quote=False))
    return Markup("".join(parts))


def tag(name, /, *children, **attributes):
    """An element. An attribute's name is written with `_` for a dash, and with one at its end where Python has the
    word; an attribute that is None is left out."""
    words = "".join(f' {word.rstrip("_").replace("_", "-")}="{html.escape(str(value))}"'
                    for word, value in attributes.items() if value is not None)
    end = f"{joined(children)}</{name}>" if children or name not in ALONE else ""
    return Markup(f"<{name}{words}>{end}")
