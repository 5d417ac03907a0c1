"""Writes a problem with a path to a corner far from where the checker begins, as `layout check` reads it:
python3 bench/dense.py ROWS STAYS TERMS.

Each attribute is wished above the one before it; of the rows beyond these each has TERMS attributes, drawn with a fixed
seed. The path's corner has the marks of the stays in place of those of the first rows, and no swap.
"""
import random
import sys

ROWS, STAYS, TERMS = int(sys.argv[1]), int(sys.argv[2]), int(sys.argv[3])

drawn = random.Random(5)
for row in range(1, STAYS + 1):
    print(f"row {row} 500 1 >= 1 1 " + (f"{row - 1}:-1 {row}:1" if row > 1 else "1:1"))
for row in range(STAYS + 1, ROWS + 1):
    attrs = sorted(drawn.sample(range(1, STAYS + 1), TERMS))
    print(f"row {row} 500 1 >= 1 {row} " + " ".join(f"{attr}:{drawn.choice((-1, 1))}" for attr in attrs))
for attr in range(1, STAYS + 1):
    print(f"stay {attr} 0")
print("path primal")
for row in range(STAYS + 1, ROWS + 1):
    print(f"in {row}-")
for attr in range(1, STAYS + 1):
    print(f"in s{attr}+")
