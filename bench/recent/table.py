"""Runs the program of main.rs on networks of two sizes, and prints what each request takes."""

import subprocess
import sys
from pathlib import Path
from tempfile import TemporaryDirectory

sys.dont_write_bytecode = True
sys.path.insert(0, str(Path(__file__).resolve().parent.parent))

import register  # noqa: E402

SIZES = (1024, 4096)
CASES = ("not in memory", "asked again", "in memory", "after an order")
OFFICE = register.Network(1)


def measure(program, size, rounds):
    """The milliseconds of each request."""
    with TemporaryDirectory() as name:
        folder = Path(name)
        register.make(folder / "register.db", 1, size)
        (folder / "request").write_bytes(OFFICE.owner(1, size))
        words = [program, folder / "register.db", folder / "request", str(rounds)]
        return [int(line) / 1e6 for line in subprocess.run(words, check=True, stdout=subprocess.PIPE, text=True).stdout.split()]


def main(program, rounds):
    times = [measure(program, size, rounds) for size in SIZES]
    print(f"best of {rounds} rounds, ms of one request for an address's owner, by the network's peers")
    print(f"{'network':<16}{''.join(f'{size:>10,}' for size in SIZES)}")
    for place, case in enumerate(CASES):
        print(f"{case:<16}{''.join(f'{spent[place]:10.3f}' for spent in times)}")


main(sys.argv[1], int(sys.argv[2]))
