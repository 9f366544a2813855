"""Runs the program of main.rs on a small and a large network, and prints what each command takes."""

import subprocess
import sys

SIZES = (1024, 4096)


def micros(calls, nanos):
    """The microseconds of one call, or none where the command makes no change."""
    return None if nanos == "-" else int(nanos) / int(calls) / 1000


def measure(program, size, rounds):
    """The microseconds of each network's command: of its answer, and of its change."""
    lines = subprocess.run(
        [program, str(size), str(rounds)], check=True, stdout=subprocess.PIPE, text=True
    ).stdout.splitlines()
    times = {}
    for line in lines:
        layout, kind, calls, act, apply = line.split()
        times[layout, kind] = (micros(calls, act), micros(calls, apply))
    return times


def cells(small, large):
    """The times of one call on both networks, and how they grow."""
    if small is None or large is None:
        return f"{'-':>11}{'-':>11}{'-':>8}"
    return f"{small:11.2f}{large:11.2f}{large / small:8.2f}"


def main(program, rounds):
    small, large = (measure(program, size, rounds) for size in SIZES)
    few, many = (f"{size:,}" for size in SIZES)
    print(f"best of {rounds} rounds, µs of one call on {few} and on {many} peers and as many routes")
    print("growth: 4 is linear in peers and routes, and 16 quadratic")
    head = f"{few:>11}{many:>11}{'growth':>8}"
    print(f"{'':<22}{'act':>30}{'apply':>30}")
    print(f"{'network':<9}{'command':<13}{head}{head}")
    for layout, kind in small:
        one, other = small[layout, kind], large[layout, kind]
        print(f"{layout:<9}{kind.replace('_', ' '):<13}{cells(one[0], other[0])}{cells(one[1], other[1])}")


main(sys.argv[1], int(sys.argv[2]))
