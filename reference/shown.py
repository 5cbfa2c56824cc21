"""A text on one line, as the programs print it: what hides stands behind a backslash.

By Unicode's categories of control characters, formats and separators of lines; the programs have a table of their own,
which also has characters without a shape that bear other categories.
"""

import unicodedata

BY_LETTER = {"\n": "\\n", "\t": "\\t", "\\": "\\\\"}
HIDDEN = {"Cc", "Cf", "Zl", "Zp"}


def shown_char(char):
    if char in BY_LETTER:
        return BY_LETTER[char]
    if unicodedata.category(char) in HIDDEN:
        return "".join(f"\\x{byte:02x}" for byte in char.encode())
    return char


def shown(text):
    return "".join(map(shown_char, text))
