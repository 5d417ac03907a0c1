"""Writes a problem with the path of a refusal, as `layout check` reads it: python3 bench/path.py LAYOUT SEED VIEWS.

LAYOUT is the proved program. The script is the one of `made` without the `undo` at its end (`scripts.py changes`). After it
comes a wish for half of the last view's width, with a budget of one exchange, which it spends. The problem has the rows that
are held and the wish, with the stays at the values before it.
"""
import os
import subprocess
import sys

PROGRAM, SEED, VIEWS = sys.argv[1], sys.argv[2], sys.argv[3]
SCRIPTS = os.path.join(os.path.dirname(os.path.abspath(__file__)), "scripts.py")


def replies(lines):
    text = "\n".join(lines) + "\n"
    return subprocess.run([PROGRAM, "run"], input=text, capture_output=True, text=True).stdout.split("\n")


def block(out, head):
    """The lines of the reply that begins with this front, up to its `ok`, and what is behind it."""
    begin = next(at for at, line in enumerate(out) if line.startswith(head))
    end = out.index("ok", begin)
    return out[begin:end], out[end + 1:]


script = subprocess.run(
    [sys.executable, SCRIPTS, "changes", SEED, VIEWS], capture_output=True, text=True, check=True
).stdout.split("\n")[:-1]
wish = f"constrain z v1.width == 1/2*v{VIEWS}.width + 33 @950"
held, rest = block(replies(script + ["rows", "certify", "budget 1", wish]), "# ")
certified, rest = block(rest, "# ")
attrs = {line.split()[2]: int(line.split()[1]) for line in held if line.startswith("# ")}
rows = [line for line in held if line.startswith("row ")]
stays = [line.split()[1] for line in held if line.startswith("stay ")]
values = {line.split()[1]: line.split()[2] for line in certified if line.startswith("value ")}
number = 1 + max(int(row.split()[1]) for row in rows)
terms = sorted([(attrs["v1.width"], 2), (attrs[f"v{VIEWS}.width"], -1)])
path = rest[rest.index("refused 8 spent") + 1:]
print("\n".join(rows))
print(f"row {number} 950 1 == 2 66 " + " ".join(f"{attr}:{by}" for attr, by in terms))
print("\n".join(f"stay {attr} {values[attr]}" for attr in stays))
print("\n".join(line for line in path if line))
