"""What the tests of the documents read in them."""
import re
from pathlib import Path

ROOT = Path(__file__).resolve().parents[2]
CRATES = [line.partition(":")[0] for line in (ROOT / "crates.txt").read_text(encoding="utf-8").splitlines() if line and not line.startswith("#")]


def ticked(text):
    """What is between backticks."""
    return re.findall(r"`([^`]+)`", text)


def table_rows(text):
    """The cells of each row of its tables, without heads."""
    rows = []
    for line in text.splitlines():
        if re.fullmatch(r"\|[-|: ]+\|", line):
            rows.pop()  # the line before was the head
        elif line.startswith("|"):
            rows.append([cell.strip() for cell in re.split(r"(?<!\\)\|", line.strip("|"))])
    return rows


def without_tables(text):
    return re.sub(r"(?m)^\|.*\n", "", text)


def prose(text):
    """The text without blocks of code, with each cell of a table, each item and each title as a paragraph of its own."""
    text = re.sub(r"(?ms)^```.*?^```$|^ {4,}\S.*?$|<!--.*?-->", "", text)
    text = re.sub(r"`[^`]*`", "X", text)
    text = re.sub(r"\[([^\]]*)\]\([^)]*\)", r"\1", text)
    text = re.sub(r"(?m)^\|(.*)\|$", lambda row: "\n\n" + row[1].replace("|", "\n\n") + "\n\n", text)
    return re.sub(r"(?m)^(#+ .*|\s*[-*] |\s*\d+\. )", r"\n\n\1", text)


def sentences(text):
    for paragraph in re.split(r"\n\s*\n", text):
        yield from (it.strip() for it in re.split(r"(?<=[.:;?!])\s+", " ".join(paragraph.split())) if it.strip())
