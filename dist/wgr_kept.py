"""What is kept of a network on a WireGuard server between two rounds: texts in a folder, without a secret."""

import os
import re
from pathlib import Path

# What a file holds may be rubbish, if the disk was full or somebody wrote there; that must stop no round.
NUMBER = re.compile(r"[0-9]{1,18}")
END = re.compile(r"([0-9]{1,18}) ([A-Za-z0-9+/]{43}=)")
ENDPOINT = re.compile(r"([A-Za-z0-9+/]{43}=)\t((?:[0-9]+\.[0-9.]+|\[[0-9a-f:.]+(?:%\w+)?\]):[0-9]{1,5})")


class Kept:
    def __init__(self, folder):
        self.folder = Path(folder)

    def read(self, name):
        """The text that was kept, or nothing."""
        try:
            return (self.folder / name).read_text()
        except (OSError, ValueError):
            return ""

    def write(self, name, text):
        """Puts a text in the place of the one that was kept, whole, unless it is the same, also where somebody else has changed it."""
        if self.read(name) == text and self.has(name):
            return
        new = self.folder / f"{name}.new"
        try:
            new.write_text(text)
            os.replace(new, self.folder / name)
        except OSError:
            new.unlink(missing_ok=True)
            raise

    def remove(self, name):
        (self.folder / name).unlink(missing_ok=True)

    def has(self, name):
        return (self.folder / name).exists()

    def number(self, name):
        """A number that was kept, 0 where none was."""
        text = self.read(name).strip()
        return int(text) if NUMBER.fullmatch(text) else 0

    def ends(self):
        """When the lease of each peer of the last good round ends, by key, 0 for never."""
        lines = map(END.fullmatch, self.read("ends").splitlines())
        return {found[2]: int(found[1]) for found in lines if found}

    def over(self, now):
        """The keys of the peers whose lease is over at a moment."""
        return [key for key, end in self.ends().items() if 0 < end <= now]

    def endpoints(self):
        """From where each peer was last heard, by key."""
        lines = map(ENDPOINT.fullmatch, self.read("endpoints").splitlines())
        return {found[1]: found[2] for found in lines if found}
