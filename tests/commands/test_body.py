"""What `body` prints: worked bodies of a Check, where the empty name and `b` are serving, `a` is not, and `c` is unknown."""
import pytest

from support.command import ran
from support.wire import request

OK = b"\x80\0\0\0\x0fgrpc-status:0\r\n"
SERVING, NOT_SERVING, UNKNOWN = b"\0\0\0\0\2\x08\1" + OK, b"\0\0\0\0\2\x08\2" + OK, b"\0\0\0\0\0" + OK
MALFORMED = b"\x80\0\0\0\x30grpc-status:13\r\ngrpc-message:malformed request\r\n"
COMPRESSED = b"\x80\0\0\0\x31grpc-status:12\r\ngrpc-message:compressed message\r\n"
TOO_LARGE = b"\x80\0\0\0\x2fgrpc-status:8\r\ngrpc-message:request too large\r\n"
UNKNOWN_SERVICE = b"\x80\0\0\0\x2dgrpc-status:5\r\ngrpc-message:unknown service\r\n"
LISTED = ["a=not_serving", "=serving", "b=serving", "c=unknown"]
# The service `a`, an unknown field 9 and the service `b`.
TWO_SERVICES = b"\0\0\0\0\x08\x0a\1a\x48\5\x0a\1b"
LONGEST = b"\0\0\0\x1f\xfb".ljust(8_192, b"\x80")


def framed(message):
    return b"\0" + len(message).to_bytes(4, "big") + message


FRAMES = {
    "an empty message": (b"\0\0\0\0\0", SERVING), "the service a": (b"\0\0\0\0\3\x0a\1a", NOT_SERVING),
    "a service that is not listed": (b"\0\0\0\0\4\x0a\2zz", UNKNOWN_SERVICE), "the service c": (b"\0\0\0\0\3\x0a\1c", UNKNOWN),
    "two services and an unknown field": (TWO_SERVICES, SERVING), "the length 1 spelled in two bytes": (b"\0\0\0\0\4\x0a\x81\0a", NOT_SERVING),
    "a frame that is cut": (b"\0\0\0\0\4\x0a\1a", MALFORMED), "two frames": (b"\0\0\0\0\0\0\0\0\0\0", MALFORMED),
    "a field that is cut": (b"\0\0\0\0\3\x0a\2a", MALFORMED), "a name that is no text": (b"\0\0\0\0\3\x0a\1\xff", MALFORMED),
    "a compressed message, which is also cut": (b"\1", COMPRESSED), "trailers": (b"\x80\0\0\0\0", MALFORMED),
    "a flag that no frame has": (b"\2\0\0\0\0", MALFORMED), "a message and then a byte": (b"\0\0\0\0\0\0", MALFORMED),
    "8,192 bytes": (LONGEST, MALFORMED), "8,193 bytes": (LONGEST + b"\0", TOO_LARGE),
    "a frame that says more than there is": (b"\0\3\0\0\0\x0a\1a", MALFORMED), "the flags 7f, which no request has": (b"\x7f\0\0\0\0", MALFORMED),
    "the flags ff alone, which no request has": (b"\xff", MALFORMED), "a message and trailers": (b"\0\0\0\0\0" + OK, MALFORMED),
    "two frames and then a byte": (b"\0\0\0\0\0\0\0\0\0\0\1", MALFORMED),
    "a message and a compressed one": (b"\0\0\0\0\3\x0a\1a\1\0\0\0\0", COMPRESSED),
}
# What comes of each front of a message with a name, a field that is not known, and another name.
FRONTS = [SERVING, MALFORMED, MALFORMED, NOT_SERVING, MALFORMED, NOT_SERVING, MALFORMED, MALFORMED, SERVING]
MESSAGES = {
    "an unknown field alone": (b"\x08\1", SERVING), "the empty name of a later field": (b"\x0a\1a\x0a\0", SERVING),
    "a name that is no text before one that is": (b"\x0a\1\xff\x0a\1a", NOT_SERVING),
    "a name that is no text before one that is cut": (b"\x0a\1\xff\x0a", MALFORMED),
    "fields of eight bytes and of four": (b"\x0a\1a\x09\1\2\3\4\5\6\7\x08\x0d\1\2\3\4", NOT_SERVING),
    "a field of eight bytes that is cut": (b"\x09\1\2\3\4\5\6\7", MALFORMED), "a field of four bytes that is cut": (b"\x0d\1\2\3", MALFORMED),
    "a field whose number is one less than the least": (b"\0", MALFORMED), "the greatest number of a field": (b"\xf8\xff\xff\xff\x0f\0", SERVING),
    "a number of a field that is one more": (b"\x80\x80\x80\x80\x10\0", MALFORMED),
    **{f"wire type {number}, which there is not": (bytes([8 + number]), MALFORMED) for number in (3, 4, 6, 7)},
    "a number of a field that is cut": (b"\x80\x80", MALFORMED), "a varint of ten bytes": (b"\x08" + b"\xff" * 9 + b"\x7f", SERVING),
    "a number of a field whose varint goes on after ten bytes": (b"\x80" * 10, MALFORMED),
    "a length whose varint goes on after ten bytes": (b"\x0a" + b"\x80" * 10, MALFORMED),
}
# Words of the command line, the name that is asked for, and its status.
WORDS = {
    "=unknown": (["=unknown"], "", UNKNOWN), "a=serving": (["a=serving"], "a", SERVING), "a=not_serving": (["a=not_serving"], "a", NOT_SERVING),
    "=serving": (["=serving"], "", SERVING),
}
# A word is cut at its last equals sign.
EQUALS = {"a=b": (["a=b=serving"], "a=b", SERVING), "a": (["a=b=serving"], "a", UNKNOWN_SERVICE)}


def is_answered(command, answer):
    assert command == (0, answer.hex() + "\n", "")


@pytest.mark.parametrize("body, answer", FRAMES.values(), ids=FRAMES)
def test_a_body_is_answered(program, body, answer):
    is_answered(ran(program, "body", body.hex(), *LISTED), answer)


@pytest.mark.parametrize("length", range(len(TWO_SERVICES)))
def test_a_body_that_is_cut_is_malformed(program, length):
    is_answered(ran(program, "body", TWO_SERVICES[:length].hex(), *LISTED), MALFORMED)


@pytest.mark.parametrize("length, answer", enumerate(FRONTS), ids=range(len(FRONTS)))
def test_each_front_of_a_message_in_a_frame_is_answered(program, length, answer):
    is_answered(ran(program, "body", framed(TWO_SERVICES[5:][:length]).hex(), *LISTED), answer)


@pytest.mark.parametrize("message, answer", MESSAGES.values(), ids=MESSAGES)
def test_a_message_in_a_frame_is_answered(program, message, answer):
    is_answered(ran(program, "body", framed(message).hex(), *LISTED), answer)


@pytest.mark.parametrize("words, name, answer", WORDS.values(), ids=WORDS)
def test_a_word_tells_the_status_of_a_name(program, words, name, answer):
    is_answered(ran(program, "body", request(name).hex(), *words), answer)


def test_of_two_words_with_one_name_the_first_counts(program):
    is_answered(ran(program, "body", request("").hex(), "=not_serving", "=serving"), NOT_SERVING)


@pytest.mark.parametrize("words, name, answer", EQUALS.values(), ids=EQUALS)
def test_a_word_is_cut_at_its_last_equals_sign(program, words, name, answer):
    is_answered(ran(program, "body", request(name).hex(), *words), answer)


@pytest.mark.parametrize("word", ["a", "serving", "a=SERVING", "a=service_unknown", "a=serving="])
def test_a_word_that_tells_no_status_is_refused(program, word):
    assert ran(program, "body", "0000000000", word) == (1, "", "healthd: bad service\n")


def test_what_is_no_hex_is_refused(program):
    assert ran(program, "body", "zz") == (1, "", "healthd: bad hex\n")


def test_body_says_where_nothing_can_be_printed(program):
    with open("/dev/full", "w", encoding="utf-8") as full:
        assert ran(program, "body", "0000000000", stdout=full) == (1, "", "healthd: write\n")
