"""Counts what a step of a live resize takes, for ours and for kiwi: a form that becomes narrower and wider again.

    python3 bench/live.py ARCHIVE LIBC [PROGRAM KIWI]

ARCHIVE is the library that `rt lib` makes in crates/layout_c, and LIBC the kit's liblibc_c.a, with which hosts link it.
PROGRAM is the built `layout`, which turns the form into operations for kiwi, and KIWI a python3 that has kiwisolver.
It needs valgrind with its headers, and a C compiler.

A step of ours is a call of layout_resize. If the library has names of functions, as an unproved build has, it also
prints how many exchanges the dual run made. Turns, which swap the two marks of one line, aren't counted. A step of kiwi
is suggestValue and updateVariables, its C++ alone.
"""
import re
import subprocess
import sys
import tempfile
from pathlib import Path

HERE = Path(__file__).parent
FORMS = [("50", "8"), ("120", "24")]
EXCHANGE = "corner_exchange::exchange::exchange_of"


def instructions(text):
    return int(re.search(r"^(?:totals|summary): (\d+)", text, re.MULTILINE).group(1))


def calls(text, function):
    """How often the function is called. Callgrind writes a name once, and then its number."""
    found = re.search(rf"\((\d+)\) {re.escape(function)}(?:::<\S*>)?$", text, re.MULTILINE)
    if not found:
        return None
    sites = re.findall(rf"^cfn=\({found.group(1)}\)[^\n]*\ncalls=(\d+)", text, re.MULTILINE)
    return sum(int(count) for count in sites)


def built(room, archive, libc):
    program = Path(room, "live")
    words = ["cc", "-O2", f"-I{HERE.parent}/examples/embed", HERE / "live.c", archive, libc, "-o", program]
    subprocess.run(words, check=True)
    return program


def ours(program, script, room):
    """The instructions of each step, and its exchanges where the functions have names."""
    out = Path(room, "ours")
    words = ["valgrind", "--tool=callgrind", "--compress-strings=yes", f"--callgrind-out-file={out}", program]
    subprocess.run(words, input=script.encode(), capture_output=True, check=True)
    steps = []
    for part in Path(room).glob("ours.*"):
        text = part.read_text()
        steps.append((instructions(text), calls(text, EXCHANGE)))
        part.unlink()
    return steps


def kiwi(python, layout, script, room):
    """The instructions of all steps."""
    operations = Path(room, "operations")
    words = [sys.executable, HERE / "peers" / "operations.py", layout]
    with operations.open("w") as file:
        subprocess.run(words, input=script, text=True, stdout=file, check=True)
    words = [python, HERE / "peers" / "kiwi_alone.py", operations, "live"]
    return int(subprocess.run(words, capture_output=True, text=True, check=True).stdout)


def main(archive, libc, layout=None, python=None):
    with tempfile.TemporaryDirectory() as room:
        program = built(room, archive, libc)
        for widgets, step in FORMS:
            words = [sys.executable, HERE / "scripts.py", "live", widgets, step]
            script = subprocess.run(words, capture_output=True, text=True, check=True).stdout
            steps = ours(program, script, room)
            costs, exchanges = [cost for cost, _ in steps], [count or 0 for _, count in steps]
            print(f"{widgets} widgets by {step}, {len(steps)} steps")
            print(f"  layout: {sum(costs) // len(steps):,} instructions a step, at most {max(costs):,}")
            if any(exchanges):
                print(f"  layout: {sum(exchanges)} exchanges, at most {max(exchanges)} in one step")
            if python:
                print(f"  kiwi: {kiwi(python, layout, script, room) // len(steps):,} instructions a step", flush=True)


if len(sys.argv) not in (3, 5):
    sys.exit(__doc__)
main(*sys.argv[1:])
