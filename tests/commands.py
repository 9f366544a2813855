"""The commands of a page's blocks, and what is printed below them."""

import re
from pathlib import Path

TOP = Path(__file__).resolve().parent.parent
# A moment or a span of time in a text.
TIME = re.compile(r"\d{8}T\d{6}\.\d{3}Z|\d{4}-\d\d-\d\dT[\d:.]+Z|\b\d+ ms|\b\d+\.\d+ s")


def blocks_of(page):
    """The blocks below each heading of the page, in a dictionary by heading; subsections have their own."""
    found, heading, block = {}, None, None
    for line in (TOP / page).read_text().splitlines(keepends=True):
        if line.startswith("```"):
            if block is not None:
                found.setdefault(heading, []).append(block)
            block = "" if block is None else None
        elif block is not None:
            block += line
        elif line.startswith("#"):
            heading = line.strip("# \n")
    return found


def commands_of(block):
    """Each command of a block, with what is printed below it."""
    for part in re.split(r"^[$#] ", block, flags=re.MULTILINE)[1:]:
        command, _, printed = part.partition("\n")
        yield command, printed


def is_printed(printed, told):
    """Whether this was printed where the page has that: other times, and anything for `..`."""
    parts = [".*".join(map(re.escape, part.split(".."))) for part in TIME.split(printed.rstrip("\n"))]
    times = [re.sub(r"\d+", r"\\d+", re.escape(time)) for time in TIME.findall(printed)] + [""]
    pattern = "".join(part + time for part, time in zip(parts, times, strict=True))
    return re.fullmatch(pattern, told.replace("\r", "").rstrip("\n"), flags=re.DOTALL) is not None
