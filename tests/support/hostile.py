"""What somebody else says, and how it is printed: nothing in it moves the cursor, begins a line, or turns the text after it around."""

HOSTILE = "a\x1b[2J\x07\x7f\x9bm\u202e\u2066ü\u200bé".encode() + b"\xff\xc2z\x1b\xc3\xbc\xff"
SAFE = r"a\u{1b}[2J\u{7}\u{7f}\u{9b}m\u{202e}\u{2066}" + "ü\u200bé" + r"\xff\xc2z\u{1b}ü\xff"

# Their beginnings, which are text and may be the name of a service, and what of the name a terminal would not show.
NAME, SAFE_NAME = HOSTILE.partition(b"\xff")[0].decode(), SAFE.partition("\\xff")[0]


def unsafe_in(text):
    """The characters of this text that a terminal would not show."""
    return set(text) & set(NAME) - set(SAFE_NAME)
