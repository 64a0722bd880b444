"""What ends a start over a journal before anything is bound, apart from damage, and what it leaves."""
import os

import pytest

from support.journal import entries, write
from support.server import SCRIPT


@pytest.mark.parametrize("script", [
    pytest.param(SCRIPT.replace("db", "dc"), id="has other names"),
    pytest.param(SCRIPT.replace("catalogue a db", "catalogue db a"), id="has the names in another order"),
])
def test_a_run_does_not_go_on_from_a_journal_where_its_script(begin, common_fault, journal, script):
    begin().stop()
    assert common_fault(script=script) == f"journal {journal}: another catalogue"


def test_a_folder_is_no_journal(common_fault, folder):
    assert common_fault(folder) == f"journal {folder}: not a file"


def test_a_device_is_no_journal(common_fault):
    assert common_fault("/dev/full") == "journal /dev/full: not a file"


def test_a_journal_in_a_folder_that_is_not_there_is_not_found(common_fault, folder):
    assert common_fault(f"{folder}/none/journal") == f"journal {folder}/none/journal: not found"


def test_a_link_is_no_journal(common_fault, folder, journal):
    write(journal, b"")
    os.symlink(journal, f"{folder}/link")
    assert common_fault(f"{folder}/link") == f"journal {folder}/link: not a file"


def test_nor_is_a_link_that_leads_nowhere_where_no_file_is_made(common_fault, folder):
    os.symlink(f"{folder}/nowhere", f"{folder}/astray")
    assert common_fault(f"{folder}/astray") == f"journal {folder}/astray: not a file"
    assert not os.path.exists(f"{folder}/nowhere")


@pytest.mark.parametrize("line", ["pass a", "expect a 5"])
def test_a_setup_that_is_refused_leaves_no_file_where_there_was_none(common_fault, journal, line):
    assert common_fault(script=f"{SCRIPT}{line}\n") == "script line 5: wrong kind"
    assert not os.path.exists(journal)


def test_a_setup_that_is_refused_leaves_an_empty_file_without_entries_which_another_setup_begins(common_fault, journal, kept, begin):
    write(journal, b"")
    assert common_fault(script=SCRIPT + "pass a\n") == "script line 5: wrong kind"
    assert kept() == []
    assert len(entries(begin())) == 3
