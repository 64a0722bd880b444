#!/usr/bin/env python3
"""Writes the man page and the completions of shells, from what the program's own help says.

  packaging/pages.py PROGRAM           writes packaging/healthd.1 and packaging/completions/
  packaging/pages.py PROGRAM --check   says which of them differ from what PROGRAM makes, and fails if one does
"""
import os
import re
import subprocess
import sys

HERE = os.path.dirname(os.path.realpath(__file__))
STATUSES = [
    ("0", "all is well; of ask with --expect: the status is the one that was expected"),
    ("1", "it could not be done; standard error has a line that says why"),
    ("2", "the command line is wrong"),
    ("3", "of ask with --expect: another status; of tell: an answer that refuses what was asked"),
]


class Option:
    """An option or an argument: its name, the name of its value, what is said of it, the values that it may have, and whether it may be
    without one."""

    def __init__(self, short, name, value, text, may_lack=False):
        self.short, self.name, self.value, self.text, self.may_lack = short, name, value, text, may_lack

    @property
    def values(self):
        found = re.search(r"\[possible values: ([^]]*)\]", self.text)
        return found[1].split(", ") if found else []

    @property
    def brief(self):
        """The words up to the first stop."""
        return re.split(r"[:;,] |\. | \[", self.text)[0]

    @property
    def takes_file(self):
        return self.value in ("FILE", "PATH", "PLACE")


class Page:
    """The help of the program, or of one of its commands."""

    def __init__(self, text):
        about, _, rest = text.partition("\n\n")
        self.about, self.usage, self.after = " ".join(about.split()), "", ""
        self.commands, self.arguments, self.options = [], [], []
        parts = re.split(r"(?m)^(Usage|Commands|Arguments|Options):", rest)
        for head, body in zip(parts[1::2], parts[2::2]):
            if head == "Usage":
                self.usage = " ".join(body.split())
                continue
            body, _, after = body.partition("\n\n")
            self.after += after.strip("\n")
            for rows in re.split(r"\n(?= {2}\S| {6}--)", body):
                row = " ".join(rows.split())
                if not row:
                    continue
                if head == "Commands":
                    name, _, text = row.partition(" ")
                    self.commands.append((name, text))
                elif head == "Arguments":
                    found = re.fullmatch(r"([<[](\w+)[]>](?:\.\.\.)?) ?(.*)", row)
                    self.arguments.append(Option("", found[1], found[2], found[3]))
                else:
                    found = re.fullmatch(r"(?:(-\w), )?(--[\w-]+)(?: (\[?)<(\w+)>\]?)? ?(.*)", row)
                    self.options.append(Option(found[1] or "", found[2], found[4] or "", found[5], bool(found[3])))


def said_by(program, *words):
    env = {name: value for name, value in os.environ.items() if name != "HEALTHD_CONTROL"}
    ran = subprocess.run([program, *words], stdout=subprocess.PIPE, check=True, env={**env, "COLUMNS": "100000"})
    return ran.stdout.decode()


def roff(text):
    text = text.replace("\\", "\\e").replace("-", "\\-")
    return re.sub(r"(?m)^([.'])", r"\\&\1", text)


def man_text(text):
    """Paragraphs, and lines that are set in, as they stand."""
    out = []
    for part in text.split("\n\n"):
        if part.startswith("  "):
            out += [".IP", ".nf", roff(part.replace("\n  ", "\n")[2:]), ".fi"]
        else:
            out += [".PP", roff(part)]
    return out


def man_page(version, page, commands):
    out = [f'.TH HEALTHD 1 "" "healthd {version}" "User Commands"']
    out += [".SH NAME", f"healthd \\- {roff(page.about)}"]
    out += [".SH SYNOPSIS"]
    for name, command in commands:
        out += [f"\\fB{roff('healthd ' + name)}\\fR {roff(command.usage.removeprefix('healthd ' + name).strip())}".rstrip(), ".br"]
    out += [".SH COMMANDS"]
    for name, command in commands:
        out += [f".SS {roff(name)}", roff(command.about) + "."]
        for it in [*command.arguments, *command.options]:
            if it.name == "--help":
                continue
            flags = ", ".join(f"\\fB{roff(flag)}\\fR" for flag in (it.short, it.name) if flag)
            value = f"\\fI{roff(it.value)}\\fR" if it.value and it.name.startswith("-") else ""
            out += [".TP", f"{flags} [{value}]" if it.may_lack else f"{flags} {value}".rstrip(), roff(it.text)]
        out += man_text(command.after) if command.after else []
    out += [".SH EXIT STATUS"]
    for number, text in STATUSES:
        out += [".TP", f"\\fB{number}\\fR", roff(text)]
    return "\n".join(out) + "\n"


def bash(page, commands):
    names = " ".join([name for name, _ in commands] + ["help"])
    out = ["# bash completion for healthd; made by packaging/pages.py", "_healthd() {"]
    out += ["  local word=${COMP_WORDS[COMP_CWORD]} last=${COMP_WORDS[COMP_CWORD-1]} command=${COMP_WORDS[1]}", "  COMPREPLY=()"]
    out += ["  if ((COMP_CWORD == 1)); then", f'    mapfile -t COMPREPLY < <(compgen -W "{names} --help --version" -- "$word")', "    return", "  fi"]
    out += ['  case "$command $last" in']
    files, plain = [], []
    for name, command in commands:
        for it in command.options:
            if it.values:
                out += [f'    "{name} {it.name}") mapfile -t COMPREPLY < <(compgen -W "{" ".join(it.values)}" -- "$word") && return ;;']
            elif it.takes_file:
                files.append(f'"{name} {it.name}"')
            elif it.value and not it.may_lack:
                plain.append(f'"{name} {it.name}"')
    out += [f"    {' | '.join(files)}) compopt -o filenames 2>/dev/null; mapfile -t COMPREPLY < <(compgen -f -- \"$word\") && return ;;"]
    out += [f"    {' | '.join(plain)}) return ;;", "  esac", "  case $command in"]
    for name, command in commands:
        flags = " ".join(it.name for it in command.options)
        out += [f'    {name}) mapfile -t COMPREPLY < <(compgen -W "{flags}" -- "$word") ;;']
    takes = [name for name, command in commands if any(it.takes_file for it in command.arguments)]
    out += [f'    help) mapfile -t COMPREPLY < <(compgen -W "{names}" -- "$word") ;;', "  esac"]
    if takes:
        files = 'compopt -o filenames 2>/dev/null; mapfile -t COMPREPLY < <(compgen -f -- "$word");'
        out += [f"  case $command in {' | '.join(takes)}) [[ $word == -* ]] || {{ {files} }} ;; esac"]
    return "\n".join([*out, "}", "complete -F _healthd healthd"]) + "\n"


def quoted(text):
    return text.replace("'", "'\\''")


def zsh(page, commands):
    def words(it):
        value = f"{':' * (1 + it.may_lack)}{it.value}:" if it.value else ""
        value += f"({' '.join(it.values)})" if it.values else "_files" if it.takes_file else ""
        brief = quoted(it.brief).replace("[", "\\[").replace("]", "\\]").replace(":", "\\:")
        return f"'{it.name}[{brief}]{value}'"

    out = ["#compdef healthd", "# zsh completion for healthd; made by packaging/pages.py", "_healthd() {", "  local -a commands", "  commands=("]
    out += [f"    '{name}:{quoted(command.about)}'" for name, command in commands] + ["  )"]
    out += ["  if ((CURRENT == 2)); then", "    _describe command commands", "    return", "  fi"]
    out += ["  local command=$words[2]", "  shift words", "  ((CURRENT--))", "  case $command in"]
    for name, command in commands:
        rows = [words(it) for it in command.options]
        rows += [f"'*:{it.value}:{'_files' if it.takes_file else ''}'" for it in command.arguments[-1:]]
        out += [f"    {name})", "      _arguments \\", " \\\n".join(f"        {it}" for it in rows), "      ;;"]
    return "\n".join([*out, "  esac", "}", '_healthd "$@"']) + "\n"


def fish(page, commands):
    out = ["# fish completion for healthd; made by packaging/pages.py", "complete -c healthd -f"]
    for name, command in commands:
        out += [f"complete -c healthd -n __fish_use_subcommand -a {name} -d '{quoted(command.about)}'"]
        for it in command.options:
            row = f"complete -c healthd -n '__fish_seen_subcommand_from {name}' -l {it.name[2:]}"
            row += f" -s {it.short[1:]}" if it.short else ""
            row += f" -x -a '{' '.join(it.values)}'" if it.values else " -r -F" if it.takes_file else " -x" if it.value and not it.may_lack else ""
            out += [f"{row} -d '{quoted(it.brief)}'"]
        if any(it.takes_file for it in command.arguments):
            out += [f"complete -c healthd -n '__fish_seen_subcommand_from {name}' -F"]
    return "\n".join(out) + "\n"


def main(program, *flags):
    program = os.path.abspath(program)
    page = Page(said_by(program, "help"))
    commands = [(name, Page(said_by(program, name, "--help"))) for name, _ in page.commands if name != "help"]
    version = said_by(program, "--version").split()[1]
    made = {
        "healthd.1": man_page(version, page, commands),
        "completions/healthd.bash": bash(page, commands),
        "completions/_healthd": zsh(page, commands),
        "completions/healthd.fish": fish(page, commands),
    }
    differ = []
    for name, text in made.items():
        path = f"{HERE}/{name}"
        if flags == ("--check",):
            try:
                with open(path, encoding="utf-8") as it:
                    differ += [name] if it.read() != text else []
            except OSError:
                differ.append(name)
            continue
        os.makedirs(os.path.dirname(path), exist_ok=True)
        with open(path, "w", encoding="utf-8") as it:
            it.write(text)
    for name in differ:
        print(f"packaging/{name} differs from what the program's help makes: packaging/pages.py PROGRAM writes it")
    return 1 if differ else 0


if __name__ == "__main__":
    if len(sys.argv) not in (2, 3) or sys.argv[2:] not in ([], ["--check"]):
        print(__doc__, end="", file=sys.stderr)
        sys.exit(2)
    sys.exit(main(*sys.argv[1:]))
