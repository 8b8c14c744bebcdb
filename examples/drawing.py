"""What draw_tree and draw_round have in common."""
from xml.sax.saxutils import escape

LETTER = 7.2  # pixels of a letter of 12 pixels, about


def shown(text, ascii_alone=False):
    """The text with Python's escapes for what has no shape, as a line feed, or for all that is beyond ASCII."""
    return "".join(
        letter if letter.isprintable() and (letter.isascii() or not ascii_alone) else escape_of(letter)
        for letter in text
    )


def escape_of(letter):
    return letter.encode("unicode_escape").decode()


def text_at(x, y, text, more=""):
    return f'<text x="{x:g}" y="{y:g}"{more}>{escape(shown(text))}</text>'


def svg(width, height, parts):
    """The parts on white, so that a dark page doesn't hide them."""
    head = f'<svg xmlns="http://www.w3.org/2000/svg" width="{width:g}" height="{height:g}"'
    return "\n".join(
        [
            f'{head} viewBox="0 0 {width:g} {height:g}" font-family="monospace" font-size="12">',
            f'<rect width="{width:g}" height="{height:g}" fill="#ffffff"/>',
            *parts,
            "</svg>",
        ]
    )
