"""Writes a problem with a path of many swaps, as `layout check` reads it: python3 bench/swaps.py ATTRIBUTES SWAPS.

Each attribute has a row that wants it to be 1 at least, and a stay at 0. A swap takes the row's mark out for the stay's,
or the other way round, by a Gray code: so no corner comes twice, for up to 2 to the power of the attributes less 1 swaps.
"""
import sys

ATTRIBUTES, SWAPS = int(sys.argv[1]), int(sys.argv[2])

for attr in range(1, ATTRIBUTES + 1):
    print(f"row {attr} 500 1 >= 1 1 {attr}:1")
for attr in range(1, ATTRIBUTES + 1):
    print(f"stay {attr} 0")
print("path primal")
inside = [True] * (ATTRIBUTES + 1)
for attr in range(1, ATTRIBUTES + 1):
    print(f"in {attr}-")
for count in range(1, SWAPS + 1):
    attr = (count & -count).bit_length()
    row, stay = f"{attr}-", f"s{attr}+"
    print(f"swap {stay} {row}" if inside[attr] else f"swap {row} {stay}")
    inside[attr] = not inside[attr]
