"""Where a control place may be, which file a socket has there, and whose files stay."""
import os
import socket
import stat

import pytest

from support.server import port_of

OWNERS, GROUPS = (True, 0o600), (True, 0o660)


def found_at(path):
    """Whether the file there is a socket, and its mode."""
    found = os.lstat(path)
    return stat.S_ISSOCK(found.st_mode), stat.S_IMODE(found.st_mode)


def ends_at(program, place, *options):
    """A run at these places ends at once, and says that this place is in use."""
    ran = program.run("run", "--listen", "127.0.0.1:0", "--connections", "10", *(options or ("--control", place)), given="catalogue -\n")
    assert (ran.returncode, ran.stdout, ran.stderr.splitlines()[-1:]) == (1, "", [f"healthd: bind {place}: address in use"])


def talks_at(server, place):
    """A client's line is answered, and so is its last one, which has no end but that of its session; that ends then."""
    with server.session(place) as session:
        assert session.ask("check a") == "serving"
        session.send("check db")
        session.say_that_it_is_all()
        assert session.rest() == b"serving\n"


@pytest.fixture
def control(folder):
    return f"{folder}/control"


@pytest.fixture
def report(folder):
    return f"{folder}/report"


@pytest.fixture(params=["127.0.0.1", "[::1]"])
def at_address(request, start):
    """A server whose control place is a port that the system picks, which no other server has then."""
    server = start(control=f"{request.param}:0")
    assert server.control.startswith(f"{request.param}:") and port_of(server.control)
    return server


def test_a_port_is_told_and_answers_to_the_end_of_a_session(at_address):
    with at_address.session() as session:
        assert session.ask("check a") == "serving"
        session.say_that_it_is_all()
        assert session.rest() == b""


def test_a_port_that_another_server_has_is_refused_and_that_one_goes_on(program, at_address):
    ends_at(program, at_address.control)
    assert at_address.tell("check", "a") == ("serving", 0)


@pytest.mark.parametrize("umask", ["0000", "0022", "0077", "0177"])
def test_the_mode_of_a_socket_is_its_own_and_its_file_goes_with_the_server(start, control, report, umask):
    server = start("--report", report, control=control, before=("sh", "-c", f'umask {umask}; exec "$@"', "sh"))
    assert (found_at(control), found_at(report)) == (OWNERS, GROUPS)
    talks_at(server, control)
    server.stop()
    assert not os.path.lexists(control) and not os.path.lexists(report)


def test_where_nobody_is_a_client_says_so(program, control):
    ran = program.run("tell", "--control", control, "list")
    assert (ran.returncode, ran.stdout, ran.stderr) == (1, "", f"healthd: connect {control}: not found\n")


@pytest.fixture
def left(start, control):
    """The file that a server leaves which is killed."""
    start(control=control).kill()
    assert found_at(control) == OWNERS
    return control


def test_where_a_server_was_killed_a_client_says_that_nobody_listens(program, left):
    ran = program.run("tell", "--control", left, "list")
    assert (ran.returncode, ran.stdout, ran.stderr) == (1, "", f"healthd: connect {left}: connection refused\n")


def test_a_file_that_was_left_is_taken_over_with_the_mode_of_its_new_place(start, left):
    server = start("--report", left)
    assert found_at(left) == GROUPS
    talks_at(server, left)
    server.stop()
    assert not os.path.lexists(left)


@pytest.mark.parametrize("option", ["--control", "--report"])
@pytest.mark.parametrize("has", ["--control", "--report"])
def test_a_socket_at_which_another_server_listens_is_refused_and_stays(program, start, folder, has, option):
    place = f"{folder}/taken"
    server = start(control=place) if has == "--control" else start("--report", place)
    number = os.lstat(place).st_ino
    ends_at(program, place, option, place)
    assert os.lstat(place).st_ino == number
    talks_at(server, place)


def test_a_server_whose_file_was_replaced_by_another_s_leaves_that(start, control):
    first = start(control=control)
    session = first.session()
    os.remove(control)
    later = start(control=control)
    number = os.lstat(control).st_ino
    assert (session.ask("stop"), session.rest()) == ("stopping", b"")
    session.close()
    assert first.end()[0] == 0
    assert os.lstat(control).st_ino == number
    talks_at(later, control)
    later.stop()
    assert not os.path.lexists(control)


def test_a_plain_file_stays(program, control):
    with open(control, "w", encoding="utf-8") as file:
        file.write("kept")
    ends_at(program, control)
    with open(control, encoding="utf-8") as file:
        assert file.read() == "kept"


@pytest.mark.parametrize("make, is_one", [(os.mkdir, stat.S_ISDIR), (os.mkfifo, stat.S_ISFIFO)], ids=["folder", "pipe"])
def test_a_file_of_another_kind_stays(program, control, make, is_one):
    make(control)
    ends_at(program, control)
    assert is_one(os.lstat(control).st_mode)


def test_a_link_stays_and_so_does_the_socket_that_it_leads_to(program, folder, left):
    link = f"{folder}/link"
    os.symlink(left, link)
    ends_at(program, link)
    assert os.path.islink(link) and found_at(left) == OWNERS


def test_a_link_to_nowhere_stays(program, folder):
    link = f"{folder}/link"
    os.symlink(f"{folder}/nowhere", link)
    ends_at(program, link)
    assert os.path.islink(link) and not os.path.lexists(f"{folder}/nowhere")


def test_a_socket_of_another_program_at_which_nobody_listens_is_taken_over(start, control):
    with socket.socket(socket.AF_UNIX) as other:
        other.bind(control)
    talks_at(start(control=control), control)
