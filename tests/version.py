"""The version that the sources give the program."""

import re
from pathlib import Path

SOURCE = Path(__file__).resolve().parent.parent / "crates/wgr_command_line/src/commands.rt"


def version():
    (found,) = re.findall(r'\.version\("(.*)"\)', SOURCE.read_text())
    return found
