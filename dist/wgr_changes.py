"""What the tools that change a register, while it isn't served, have in common.

The change is made on a copy. wgr opens the copy and tests all its rows, and then the copy takes the register's
place; the register as it was is kept beside it. Where wgr refuses the copy, nothing is changed.
"""

import fcntl
import os
import shutil
import tempfile
from datetime import datetime, timezone
from pathlib import Path

from wgr_copies import ask, explain, fail, has_log

# The bytes of a database's file by whose locks SQLite, and wgr, keep others out (its file format has them).
LOCK_START, LOCK_LENGTH = 0x4000_0000, 512


def refuse(why):
    fail(f"wgr refuses the change: {why}")


def lock(file, register, kind):
    try:
        fcntl.lockf(file, kind | fcntl.LOCK_NB, LOCK_LENGTH, LOCK_START)
    except OSError:
        fail(f"another program has {register} open")


def copy_to(path, file):
    file.seek(0)
    with open(path, "wb") as made:
        shutil.copyfileobj(file, made)


def put_in_place(file, copy, register):
    """The register as it was gets another name, a copy of the same bytes, and the changed copy gets its name."""
    now = datetime.now(timezone.utc)
    kept = register.with_name(f"{register.name}.until-{now:%Y%m%dT%H%M%S}.{now.microsecond // 1000:03}Z")
    copy_to(kept, file)
    for path in [copy, kept]:
        own = os.fstat(file.fileno())
        os.chown(path, own.st_uid, own.st_gid)
        os.chmod(path, own.st_mode & 0o777)
        with open(path, "rb") as made:
            os.fsync(made.fileno())
    os.rename(copy, register)
    folder = os.open(register.parent, os.O_RDONLY)
    os.fsync(folder)
    os.close(folder)
    return kept


def change_register(register, edit):
    """Lets `edit` change a copy of the register, which takes its place, and says how the old one is called."""
    os.umask(0o077)
    # What a link leads to is changed, and not the link.
    register = Path(register).resolve()
    # It tests all rows, and puts the log into the file.
    _, why = ask("show", register)
    if why:
        fail(f"{register} can't be opened: {explain(why, register)}")
    # From here until the copy has its place, nobody else opens the register. In this process the file is opened
    # this once, since a lock ends where any file of the process on it is closed.
    with open(register, "r+b") as file, tempfile.TemporaryDirectory(dir=register.parent, prefix=".new.") as folder:
        lock(file, register, fcntl.LOCK_EX)
        if has_log(register):
            fail(f"another program has just changed {register}: try again")
        copy = Path(folder) / "register.db"
        copy_to(copy, file)
        edit(copy)
        _, why = ask("show", copy)
        if why:
            refuse(why)
        print(f"done; {put_in_place(file, copy, register)} is the register as it was")
