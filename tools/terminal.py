"""Texts as a terminal shows them: how wide they are, and characters that it would not show, or would obey."""

import unicodedata

# They are part of words of some scripts, and take no place.
JOINERS = "\u200c\u200d"


def picture(character):
    """Returns what is written for a character."""
    if character.isprintable() or character in JOINERS:
        return character
    code = ord(character)
    if code < 32:
        return chr(0x2400 + code)
    return "\u2421" if code == 127 else f"<U+{code:04X}>"


def visible(text):
    """Returns a text with something to see for each character that moves the cursor, turns the direction of writing, or
    shows nothing: `\u240a` for a line end, `<U+202E>` for a mark of direction."""
    return text if text.isprintable() else "".join(map(picture, text))


def width_of(character):
    """Returns how many columns of a terminal a character takes."""
    if character in JOINERS or unicodedata.category(character) in ("Mn", "Me"):
        return 0
    return 2 if unicodedata.east_asian_width(character) in "WF" else 1


def width(text):
    """Returns how many columns a text takes."""
    return len(text) if text.isascii() else sum(map(width_of, text))


def cut(text, most):
    """Returns a text that takes at most so many columns, with `\u2026` for what is left out."""
    if most is None or width(text) <= most:
        return text
    taken, end = 1, 0
    while end < len(text) and taken + width_of(text[end]) <= most:
        taken += width_of(text[end])
        end += 1
    return text[:end] + "\u2026"


def padded(text, to):
    """Returns a text with as many blanks behind it as there are columns left."""
    return text + " " * (to - width(text))
