"""The program, as commands are given to it."""
import functools
import os
import subprocess


class Program:
    def __init__(self, path):
        self.path = str(path)

    def __str__(self):
        return self.path

    @property
    def environment(self):
        """That of the tests, where it says neither which server is asked nor by which program."""
        return {name: value for name, value in os.environ.items() if name not in ("HEALTHD_CONTROL", "HEALTHD")}

    @functools.cached_property
    def has_sanitizer(self):
        """Whether it has checks of memory in it, as what `make try` compiles."""
        with open(self.path, "rb") as file:
            return b"__asan_init" in file.read()

    def run(self, *words, given=None, env=None, before=(), timeout=30):
        """A command that ends by itself, with its status and what it printed and said. It is given a text, or nothing, on standard input."""
        options = {"stdin": subprocess.DEVNULL} if given is None else {"input": given}
        return subprocess.run([*before, self.path, *words], capture_output=True, text=True, timeout=timeout,
                              env={**self.environment, **(env or {})}, **options)
