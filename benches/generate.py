#!/usr/bin/env python3
"""Writes a benchmark script to standard output.

    generate.py PILE [N]

PILE is flat, direct, lru8 or four; N is the number of reads and writes
(200000 without it). The same arguments always give the same
script.
"""

import random
import sys

SIZE = 4096
READS = 0.7

# Layers from the bottom up.
PILES = {
    "flat": [],
    "direct": ["direct 8 64 1 1"],
    "lru8": ["lru 8 8 8 1"],
    "four": ["lru 16 8 8 20", "direct 8 64 1 8", "lru 4 8 4 3", "direct 4 8 1 1"],
}


def addresses(rng):
    """Walks and repeats mixed with jumps, so that layers both hit and miss."""
    here = 0
    recent = [0] * 32
    while True:
        kind = rng.random()
        if kind < 0.45:
            here = (here + 1) % SIZE
        elif kind < 0.80:
            here = recent[int(rng.random() * len(recent))]
        else:
            here = int(rng.random() * SIZE)
        recent[int(rng.random() * len(recent))] = here
        yield here


def main():
    if len(sys.argv) not in (2, 3) or sys.argv[1] not in PILES:
        sys.exit(__doc__.strip())
    pile = sys.argv[1]
    count = int(sys.argv[2]) if len(sys.argv) == 3 else 200_000

    rng = random.Random(20)
    out = [f"store flat 100 120 {SIZE}\n"]
    out += [f"layer {layer}\n" for layer in PILES[pile]]
    for _, address in zip(range(count), addresses(rng)):
        if rng.random() < READS:
            out.append(f"read {address}\n")
        else:
            out.append(f"write {address} {rng.getrandbits(32):x}\n")
    sys.stdout.write("".join(out))


if __name__ == "__main__":
    main()
