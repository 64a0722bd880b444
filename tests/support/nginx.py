"""nginx before a server, with the configuration and the page that people copy from examples/."""
import contextlib
import os
import shutil
import subprocess
import tempfile

import pytest

from support.serving import free_port
from support.waiting import until
from support.wire import exchange, get

# A machine has it where only root has its path.
NGINX = shutil.which("nginx", path=f"{os.environ['PATH']}:/usr/sbin:/sbin")
wants_nginx = pytest.mark.skipif(not NGINX, reason="there is no nginx")

# What is in /etc/nginx/nginx.conf of a machine, with all files in one folder.
MAIN = """daemon off;
user root;
worker_processes 1;
pid nginx.pid;
error_log nginx.log;
events {}
http {
    # Without a time of its own a Watch is cut after a second of silence, and not only after a minute.
    proxy_read_timeout 1s;
    types { text/html html; }
    access_log off;
    client_body_temp_path body;
    proxy_temp_path proxy;
    fastcgi_temp_path fastcgi;
    uwsgi_temp_path uwsgi;
    scgi_temp_path scgi;
    include healthd.conf;
}
"""


def serves(process, port):
    """Whether it answers with the page."""
    assert process.poll() is None, f"nginx has ended with status {process.returncode}"
    with contextlib.suppress(ConnectionRefusedError):
        return exchange(port, get("/watch.html", "connection: close")).startswith(b"HTTP/1.1 200 ")


@contextlib.contextmanager
def nginx_before(server, sources, within, without=None):
    """One that is before this server, where its configuration may be without a line. Its files are in a folder within this one."""
    port, folder = free_port(), tempfile.mkdtemp(prefix="nginx-", dir=within)
    os.chmod(folder, 0o755)
    configuration = (sources / "examples/nginx/nginx.conf").read_text(encoding="utf-8")
    for there, here in (("127.0.0.1:8000", f"127.0.0.1:{port}"), ("127.0.0.1:8080", f"127.0.0.1:{server.port}"),
                        ("/var/www/healthd", f"{folder}/www"), *([(without, "")] if without else [])):
        assert configuration.count(there) == 1, f"{there} is not once in nginx.conf"
        configuration = configuration.replace(there, here)
    for name, text in (("nginx.conf", MAIN), ("healthd.conf", configuration)):
        with open(f"{folder}/{name}", "w", encoding="utf-8") as file:
            file.write(text)
    shutil.copytree(sources / "examples/browser", f"{folder}/www")
    process = subprocess.Popen([NGINX, "-p", folder, "-c", "nginx.conf", "-e", "nginx.log"], stdin=subprocess.DEVNULL)
    try:
        until(lambda: serves(process, port), True)
        yield port
    finally:
        process.terminate()
        process.wait(20)
