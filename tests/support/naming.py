"""Names for the rows of a table: each in one line that is not too long."""
import pytest

MOST = 60


def shown(text):
    """A text that may have several lines, or be long. What is left out is told by the length of the whole."""
    text = text.decode("latin-1") if isinstance(text, bytes) else text
    name = text.replace("\r\n", " CRLF / ").replace("\r", " CR ").replace("\n", " / ").encode("unicode_escape").decode() or "nothing"
    if len(name) <= MOST:
        # pytest has its own way to show what cannot be printed
        return name.encode().decode("unicode_escape")
    return f"{name[:30]}..{name[-12:]} of {len(text)}".replace("\\", "")


def rows(table, name):
    """The rows of a table, each with the name that this makes of it."""
    return [pytest.param(*row, id=shown(name(*row))) for row in table]


def command_line(words, *_):
    """The name of a row that begins with the words of a command line."""
    return " ".join(word or "''" for word in words)
