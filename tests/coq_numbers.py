#!/usr/bin/env python3
"""Compares the numbers of coq/natural.ml with Python's: coq_numbers.py PROGRAM, which is built of coq_numbers.ml."""

import itertools
import random
import subprocess
import sys

# Where digits, bits and signs end.
ENDS = [0, 9, 10, 65_535, 2**31, 2**61, 2**62, 2**63, 10**18, 10**19, 2**64 - 1]


def wanted(m, n):
    truths = (str(holds).lower() for holds in (m == n, m < n, m <= n))
    total = m + n if m + n < 2**64 else "-"
    return " ".join(map(str, (m, m, f"{m:b}", *truths, max(m, n), total)))


def main():
    chosen = random.Random(1)
    near = {end + step for end in ENDS for step in (-1, 0, 1) if 0 <= end + step < 2**64}
    some = {chosen.getrandbits(chosen.randint(1, 64)) for _ in range(200)}
    pairs = list(itertools.product(sorted(near | some), repeat=2))
    given = "".join(f"{m} {n}\n" for m, n in pairs)
    done = subprocess.run([sys.argv[1]], input=given, capture_output=True, text=True, check=True)
    for pair, got in itertools.zip_longest(pairs, done.stdout.splitlines()):
        assert got == wanted(*pair), (pair, got)
    print(f"natural.ml: {len(pairs)} pairs of numbers, as Python has them.")


if __name__ == "__main__":
    main()
