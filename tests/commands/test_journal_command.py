"""Why `journal` can print nothing of a file."""
import os

from support.command import ran


def secret_at(path, mode):
    """A file that is no journal."""
    with open(path, "wb") as file:
        file.write(b"\1\0")
    os.chmod(path, mode)
    return path


def test_a_folder_is_no_journal(program, folder):
    assert ran(program, "journal", folder) == (1, "", f"healthd: journal {folder}: not a file\n")


def test_another_file_is_a_journal_that_is_damaged(program, folder):
    secret = secret_at(f"{folder}/secret", 0o600)
    assert ran(program, "journal", secret) == (1, "", f"healthd: journal {secret}: damaged at byte 0\n")


def test_nothing_is_printed_of_an_empty_file(program, folder):
    with open(f"{folder}/empty", "wb"):
        pass
    assert ran(program, "journal", f"{folder}/empty") == (0, "", "")


def test_a_journal_that_it_may_not_read_is_told(program, folder):
    secret = secret_at(f"{folder}/secret", 0)
    nobody = ("setpriv", "--reuid=nobody", "--clear-groups") if os.geteuid() == 0 else ()
    assert ran(program, "journal", secret, before=nobody) == (1, "", f"healthd: journal {secret}: permission denied\n")


def test_journal_says_where_nothing_can_be_printed(program, start, folder):
    start("--journal", f"{folder}/journal").stop()
    with open("/dev/full", "w", encoding="utf-8") as full:
        assert ran(program, "journal", f"{folder}/journal", stdout=full) == (1, "", "healthd: write: no storage space\n")
