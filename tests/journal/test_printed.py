"""What `journal` prints of a file, by its bytes."""
import pytest

from support.command import ran
from support.journal import AT, DOWN, EPOCH, PREFACE, REGISTER, THREE, THREE_LINES, TIME, TWO_LINES, file_of, title


def condensed(base, count, *records):
    """A file in which so many entries stand for older ones."""
    return file_of(title(3, base, count), *PREFACE[1:], *records)


@pytest.mark.parametrize("data, text", [
    pytest.param(THREE, THREE_LINES, id="three entries"),
    pytest.param(file_of(*PREFACE, REGISTER, DOWN) + b"\x0e", TWO_LINES, id="whatever is after a closed gate"),
    pytest.param(THREE[:-1] + b"\x09", THREE_LINES, id="a gate that is neither open nor 0"),
    # Two entries stand for 4,711 older ones: those after them have the numbers of the history.
    pytest.param(condensed(4709, 2, REGISTER, DOWN, DOWN),
                 f"- {TIME} setup register api manual: done\n- {TIME} session 3 down api: done\n4711 {TIME} session 3 down api: done\n",
                 id="entries after those that stand for older ones"),
    pytest.param(condensed((1 << 32) - 3, 1, REGISTER, DOWN),
                 f"- {TIME} setup register api manual: done\n4294967294 {TIME} session 3 down api: done\n",
                 id="the last number that a history may come to"),
])
def test_journal_prints(command, data, text):
    assert command(data) == (0, text, "")


@pytest.mark.parametrize("options", [(), ("--json",)], ids=["as text", "as JSON"])
@pytest.mark.parametrize("data", [b"", b"\0", b"\1", b"\0\0", b"\0\1\x1ehealthd journal"])
def test_journal_prints_nothing_of_a_file_without_entries(command, data, options):
    assert command(data, *options) == (0, "", "")


def test_journal_prints_objects_of_json(command):
    assert command(file_of(*PREFACE, REGISTER, DOWN), "--json") == (
        0, f'{{"entry":0,"time":"{TIME}","who":"setup","call":"register api manual","reply":"done"}}\n'
        f'{{"entry":1,"time":"{TIME}","who":"session 3","call":"down api","reply":"done"}}\n', "")


def test_a_name_as_json_has_whatever_a_script_s_word_may_have(command):
    assert command(file_of(title(2, 8, 1), b"", 'größe: "\\'.encode(), AT + b"\0\7\0\0\4\1"), "--json") == (
        0, f'{{"entry":null,"time":"{TIME}","who":"setup","call":"up größe: \\"\\\\","reply":"done"}}\n', "")


# The bytes of an entry, written out by the format, and its line.
SIXTEEN = (title(16), b"db", b"api", b"", *(bytes([letter]) for letter in b"abcdefghijklm"))
ENTRIES = {
    bytes([8, 7, 6, 5, 4, 3, 2, 1]) + b"\0\0\0\0\0\0\0\2\0\0\0\1\0\0\0\0": "4271-05-11T22:23:10.382856Z setup register db threshold 2 1: done",
    # The longest one.
    b"\1\0\0\0\0\0\0\0\1\x0d\x0c\x0b\x0a\2\1\1\0\x0f\0\xe8\3\0\0\xe7\3\0\0\1":
        "1970-01-01T00:00:00.000001Z session 168496141 register m threshold 1000 999 unknown: replaced",
    # The greatest numbers.
    b"\xff" * 8 + b"\1" + b"\xff" * 6 + b"\0\0\1\0" + b"\xff" * 8 + b"\0":
        "9999-12-31T23:59:59.999999Z session 4294967295 register api threshold 4294967295 4294967295: done",
    b"\0\1" + bytes(6) + b"\0\0\0\0\0\2\1": "1970-01-01T00:00:00.000256Z setup register - manual: done",
    EPOCH + b"\0\0\0\0\0\3\2\6\x80": "1970-01-01T00:00:00.000000Z setup register a depends api - m: done",
    EPOCH + b"\1\1\0\0\0\0\0\2\1\5": "1970-01-01T00:00:00.000000Z session 1 retire c: missing",
    EPOCH + b"\1\1\0\0\0\0\0\3\2\0": "1970-01-01T00:00:00.000000Z session 1 pass db: wrong kind",
    EPOCH + b"\2\7\0\4\3\x0f": "1970-01-01T00:00:00.000000Z expiry fail m: ignored",
    EPOCH + b"\0\0\0\0\4\4": "1970-01-01T00:00:00.000000Z setup up b: done",
    EPOCH + b"\0\0\0\0\5\4": "1970-01-01T00:00:00.000000Z setup down b: done",
    EPOCH + b"\0\0\0\0\6": "1970-01-01T00:00:00.000000Z setup shutdown: done",
    EPOCH + b"\0\0\0\0\7": "1970-01-01T00:00:00.000000Z setup resume: done",
}


@pytest.mark.parametrize("record, line", ENTRIES.items(), ids=[line.partition("Z ")[2] for line in ENTRIES.values()])
def test_journal_prints_the_entry(command, record, line):
    assert command(file_of(*SIXTEEN, record)) == (0, f"0 {line}\n", "")


# What can't be read, and what takes no more than a part of what is printed.

def test_journal_reads_no_device(program):
    assert ran(program, "journal", "/dev/null") == (1, "", "healthd: journal /dev/null: not a file\n")


@pytest.mark.parametrize("options", [(), ("--json",)], ids=["as text", "as JSON"])
def test_where_a_part_can_be_printed_journal_prints_it_and_says_so(command, folder, options):
    many = file_of(*PREFACE, *[REGISTER] * 399)  # what is printed of it is longer than this limit
    limited = ("/bin/sh", "-c", 'ulimit -f 20; exec /usr/bin/env --ignore-signal=XFSZ "$@"', "sh")
    with open(f"{folder}/part", "w+", encoding="utf-8") as part:
        assert command(many, *options, before=limited, stdout=part) == (1, "", "healthd: write: file too large\n")
        part.seek(0)
        front, text = part.read(), command(many, *options).printed
    assert front and front != text and text.startswith(front)
