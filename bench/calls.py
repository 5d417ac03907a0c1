"""Counts what single calls take, for ours and for kiwi, on the same form: a window, a suggestion, a line in and out.

    python3 bench/calls.py ARCHIVE LIBC [PROGRAM KIWI]

ARCHIVE is the library that `rt lib` makes in crates/layout_c, and LIBC the kit's liblibc_c.a, with which hosts link it.
PROGRAM is the built `layout`, which turns the form into operations for kiwi, and KIWI a python3 that has kiwisolver.
It needs valgrind and a C compiler. Both engines get the form of examples/embed.

Ours is what embed.c calls, with layout_moved after a window. Kiwi's is its C++ alone: the changes of the edit variables
or of the constraint, and updateVariables after each of them, without which no value can be read.
"""
import re
import subprocess
import sys
import tempfile
from pathlib import Path

HERE = Path(__file__).parent
FORM = HERE.parent / "examples" / "embed" / "form.script"
OURS, KIWIS = 1000, 100
LINES = {
    "resize": ["window 320 480", "window 375 667"],
    "suggest": [f"suggest cancel.width {100 + i}" for i in range(50)],
    "remove": ["constrain extra cancel.width >= 10", "remove extra"],
}
CHANGES = {"resize": 2, "suggest": 1, "remove": 2}  # changes of kiwi's for one call of ours


def built(room, archive, libc):
    program = Path(room, "embed")
    words = ["cc", "-O2", f"-I{HERE.parent}/examples/embed", HERE / "embed.c", archive, libc, "-o", program]
    subprocess.run(words, check=True)
    return program


def instructions(program, room, what):
    out = Path(room, "ours")
    words = ["valgrind", "--tool=callgrind", f"--callgrind-out-file={out}", program, what, str(OURS)]
    with FORM.open() as form:
        subprocess.run(words, stdin=form, capture_output=True, check=True)
    return int(re.search(r"^(?:totals|summary): (\d+)", out.read_text(), re.MULTILINE).group(1))


def operations(layout, lines):
    words = [sys.executable, HERE / "peers" / "operations.py", layout]
    done = subprocess.run(words, input="\n".join(lines) + "\n", capture_output=True, text=True, check=True)
    return done.stdout.splitlines()


def kiwi(python, layout, room, what):
    """The instructions of one call, by those of so many."""
    form = FORM.read_text().splitlines()
    if what == "suggest":
        form.append("suggest cancel.width 99")  # the first one of an attribute is a new edit variable
    more = [LINES[what][i % len(LINES[what])] for i in range(KIWIS * len(LINES[what]) // len(LINES["resize"]) * 2)]
    start = operations(layout, form)
    rest = operations(layout, form + more)[len(start) :]
    path = Path(room, "operations")
    path.write_text("\n".join([*start, "count", *rest]) + "\n")
    words = [python, HERE / "peers" / "kiwi_alone.py", path, "live"]
    cost = int(subprocess.run(words, capture_output=True, text=True, check=True).stdout)
    return cost * CHANGES[what] // len(rest)


def main(archive, libc, layout=None, python=None):
    with tempfile.TemporaryDirectory() as room:
        program = built(room, archive, libc)
        start = instructions(program, room, "none")
        print(f"the form: {start:,} instructions")
        for what in LINES:
            ours = (instructions(program, room, what) - start) // OURS
            theirs = f", kiwi {kiwi(python, layout, room, what):,}" if python else ""
            print(f"{what}: layout {ours:,} instructions a call{theirs}", flush=True)


if len(sys.argv) not in (3, 5):
    sys.exit(__doc__)
main(*sys.argv[1:])
