"""Writes a problem with a certificate that its values are best: python3 certificate.py ROWS STAYS.

Each attribute is one more than the one before it by a required row, and each stay is drawn to 0, so that every stay has
an error and a level of its own, in which all rows up to its attribute's are named. Of the rows beyond these, every
second one is a bound that holds, and the others are wishes that fail.
"""

import sys


def by_lines(times):
    """The lines of a level's multipliers, rows by number and then stays."""
    return [f"by {count} row {name}" for name, count in times if count != 0]


def chain(count_from, stays):
    """The multipliers of the required rows: `count_from[i]` failing rows stand on the attribute i."""
    times = []
    total = 0
    for attr in range(stays, 0, -1):
        total += count_from.get(attr, 0)
        times.append((attr, total))
    return times[::-1]


def problem(rows, stays):
    lines = ["row 1 1000 1 == 1 1 1:1"]
    lines += [f"row {i} 1000 1 == 1 1 {i - 1}:-1 {i}:1" for i in range(2, stays + 1)]
    wishes = []
    for row in range(stays + 1, rows + 1):
        attr = 1 + row * 7 % stays
        if row % 2 == 0:
            lines.append(f"row {row} 500 1 >= 1 0 {attr}:1")
        else:
            wishes.append((row, attr))
            lines.append(f"row {row} 20 1 == 1 0 {attr}:1")
    lines += [f"stay {attr} 0" for attr in range(1, stays + 1)]
    return lines, wishes


def claim(wishes, stays):
    lines = [f"value {attr} {attr}" for attr in range(1, stays + 1)]
    lines += ["best", "level 20 1"]
    counts = {}
    for _, attr in wishes:
        counts[attr] = counts.get(attr, 0) + 1
    lines += by_lines(chain(counts, stays) + [(row, -1) for row, _ in wishes])
    for attr in range(1, stays + 1):
        lines.append(f"level s{attr} 1")
        lines += by_lines(chain({attr: 1}, stays) + [(f"s{attr}", -1)])
    return lines


def main():
    rows, stays = int(sys.argv[1]), int(sys.argv[2])
    lines, wishes = problem(rows, stays)
    sys.stdout.write("\n".join(lines + claim(wishes, stays)) + "\n")


main()
