"""What the documents show is what the files have: configurations, links, commands and what they print. They are short."""
import os
import re
import subprocess

import pytest

from support.documents import ROOT, prose, sentences
from support.serving import free_port

WRITTEN = sorted([*ROOT.glob("*.md"), *ROOT.glob("docs/**/*.md")])
PAGES = [str(page.relative_to(ROOT)) for page in [*WRITTEN, *sorted([*ROOT.glob("examples/*.md"), *ROOT.glob("crates/*/README.md")])]]
MOST_BYTES, MOST_WORDS = 150_000, 35


def whole(path):
    return (ROOT / path).read_text(encoding="utf-8")


README = whole("README.md")


def lines(text):
    """The lines without comments, and without what they are set in by."""
    return [line.strip() for line in text.split("\n") if line.strip() and not line.strip().startswith("#")]


@pytest.mark.parametrize("begin, end, file", [
    pytest.param("location /grpc", "}", "nginx/nginx.conf", id="the location of nginx"),
    pytest.param("option httpchk GET", "default-server check", "haproxy/haproxy-httpchk.cfg", id="the plain check of HAProxy"),
    pytest.param("tcp-check connect port", "server web2", "haproxy/haproxy.cfg", id="the check of HAProxy"),
])
def test_a_configuration_that_is_shown_stands_once_in_its_file(begin, end, file):
    found = re.search(rf"(?ms)^( *{re.escape(begin)}.*?^ *{re.escape(end)}[^\n]*)", whole("docs/INTEGRATION.md"))
    shown, stands = lines(found[1]), lines(whole(f"examples/{file}"))
    assert [stands[at:at + len(shown)] for at in range(len(stands))].count(shown) == 1


def heads_of(text):
    """What a link to a head of the page names."""
    return {re.sub(r"[^\w\- ]", "", head.lower()).strip().replace(" ", "-") for head in re.findall(r"(?m)^#+ (.*)$", text)}


def leads_somewhere(page, target):
    path, _, part = target.partition("#")
    to = os.path.normpath(os.path.join(os.path.dirname(page), path)) if path else page
    return (ROOT / to).exists() and (not part or not to.endswith(".md") or part in heads_of(whole(to)))


@pytest.mark.parametrize("page", PAGES)
def test_each_link_of_a_document_leads_somewhere(page):
    targets = [target for target in re.findall(r"\]\(([^)\s]+)\)", whole(page)) if "://" not in target]
    assert [target for target in targets if not leads_somewhere(page, target)] == []


@pytest.mark.parametrize("page", PAGES)
def test_each_command_that_a_document_names_is_one(program, page):
    listed = program.run("help").stdout.split("Commands:\n")[1].split("\n\n")[0]
    named = set(re.findall(r"(?m)(?:^ {4}\$?|`)(?:\./)?healthd ([a-z]+)\b", whole(page)))
    assert named - {line.split()[0] for line in listed.split("\n")} - {"help"} == set()


@pytest.mark.parametrize("page", [str(page.relative_to(ROOT)) for page in WRITTEN])
def test_the_sentences_of_a_document_are_short(page):
    assert [it for it in sentences(prose(whole(page))) if len(it.split()) > MOST_WORDS] == []


def test_the_documents_are_short_together():
    assert sum(page.stat().st_size for page in WRITTEN) <= MOST_BYTES


def test_the_readme_has_120_lines_at_most_of_100_columns():
    shown = README.rstrip("\n").split("\n")
    assert len(shown) <= 120 and max(map(len, shown)) <= 100


def test_the_first_command_of_the_readme_and_what_it_prints_are_in_its_first_forty_lines():
    first = [line for line in README.split("\n")[:40] if line.startswith("    ")]
    assert first[0].startswith("    make demo") and "Ctrl-C" in first[-1]


def test_the_readme_names_the_toolchain():
    assert re.search(r"`rattle-kit-\w+ logic \w+`, as `rt\nversion`", README)


def test_what_the_readme_has_to_be_pasted_prints_what_it_says_but_for_the_port_and_times(program, folder):
    paste, prints = [re.sub(r"(?m)^    ", "", block).strip("\n") for block in re.findall(r"(?m)(?:^    .*\n)+", README)
                     if "healthd stop\n" in block or "stopping\n" in block]
    port = str(free_port())
    words = paste.replace("8080", port).replace("healthd run ", f"healthd run --listen 127.0.0.1:{port} ")
    os.mkdir(f"{folder}/out")
    os.symlink(str(program), f"{folder}/out/healthd")
    ran = subprocess.run(["bash"], input=f"{words}\nwait\ncat log >&2\ntail -n 1 out\n", cwd=folder, capture_output=True, text=True, timeout=60,
                         env={**program.environment, "TMPDIR": folder})
    found, expected = [re.sub(r"\d{4}-\d\d-\d\dT[\d:.]+Z", "TIME", text) for text in (ran.stdout, f"{prints}\njournal 5\n")]
    assert found == expected, ran.stderr
