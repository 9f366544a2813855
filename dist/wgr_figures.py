"""Figures for Prometheus, in a text file that its node exporter reads."""

import os
import sys
import tempfile
from pathlib import Path


def fail(why):
    sys.exit(f"{Path(sys.argv[0]).name}: {why}")


def replace_file(path, text):
    """Puts a file in its place at once, so that nobody reads a part of it; everybody may read it."""
    path = Path(path)
    file = tempfile.NamedTemporaryFile("w", dir=path.parent, prefix=f".{path.name}.", delete=False)
    try:
        with file:
            file.write(text)
        os.chmod(file.name, 0o644)
        os.rename(file.name, path)
    except BaseException:
        os.unlink(file.name)
        raise


def write_whole(path, text):
    try:
        replace_file(path, text)
    except OSError as error:
        fail(f"{path} can't be written: {error.strerror}")


class Figures:
    """A text in the format that Prometheus reads: `add` begins a figure, `put` gives it a value."""

    def __init__(self, **labels):
        self.lines = []
        self.labels = labels

    def add(self, name, what, value=None, kind="gauge"):
        self.name = name
        self.lines += [f"# HELP {name} {what}", f"# TYPE {name} {kind}"]
        if value is not None:
            self.put(value)

    def put(self, value, **labels):
        shown = ",".join(f'{name}="{label}"' for name, label in {**self.labels, **labels}.items())
        self.lines.append(f"{self.name}{f'{{{shown}}}' if shown else ''} {value}")

    def text(self):
        return "".join(f"{line}\n" for line in self.lines)

    def write(self, path):
        write_whole(path, self.text())
