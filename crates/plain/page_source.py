"""Makes the constant of the program that has page.html.

    crates/plain/page_source.py                    prints it
    crates/plain/page_source.py FILE               puts it into FILE, in place of the one that stands there
    crates/plain/page_source.py --compare FILE     exits with status 1 unless it stands in FILE
"""
import os
import re
import sys

HERE = os.path.dirname(os.path.realpath(__file__))
COLUMNS = 100
INDENT = "    "
STANDING = re.compile(r'pub const PAGE: &\[u8\] =\s+b"(?:[^"\\]|\\.)*";', re.DOTALL)


def page():
    return read(f"{HERE}/page.html")


def read(path):
    with open(path, encoding="utf-8", newline="") as file:
        return file.read()


def escaped(byte):
    named = {0x0A: r"\n", 0x0D: r"\r", 0x09: r"\t", 0x22: r"\"", 0x5C: r"\\"}
    return named.get(byte) or (chr(byte) if 0x20 <= byte < 0x7F else f"\\x{byte:02x}")


def literal(value):
    """A literal of bytes over several lines: a `\\` at the end of a line takes the white space that begins the next one away."""
    lines, line = [], ""
    for byte in value:
        part = escaped(byte)
        if len(INDENT) + len(line) + len(part) + len("\\") > COLUMNS:
            lines.append(line)
            line = ""
        if not line and part == " ":
            part = r"\x20"
        line += part
        if byte == 0x0A:
            lines.append(line)
            line = ""
    if line:
        lines.append(line)
    return 'b"\\\n' + "\\\n".join(INDENT + line for line in lines) + '"'


def constant(text):
    return f"pub const PAGE: &[u8] = {literal(text.encode())};"


def main(words):
    made = constant(page())
    if not words:
        print(made)
    elif words[0] == "--compare":
        sys.exit(0 if STANDING.findall(read(words[1])) == [made] else f"{words[1]} does not have crates/plain/page.html")
    else:
        text = read(words[0])
        if len(STANDING.findall(text)) != 1:
            sys.exit(f"{words[0]} has no such constant")
        with open(words[0], "w", encoding="utf-8", newline="") as file:
            file.write(STANDING.sub(lambda _: made, text))


if __name__ == "__main__":
    main(sys.argv[1:])
