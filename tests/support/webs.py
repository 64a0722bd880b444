"""What a server is set up with that other people's programs ask: two web servers, a job that nobody has checked yet, and the whole server."""

WEBS = "catalogue web1 web2 job -\nregister - manual\nregister web1 manual\nregister web2 manual\nregister job threshold 2 1 unknown\n"


def flip(server, name):
    """Changes a service forty times, as fast as a session can."""
    with server.session() as session:
        session.send(f"down {name}\nup {name}\n" * 20)
        assert session.answers.read(len("done\n") * 40) == b"done\n" * 40
