"""Measures the memory that an earlier scene takes: bytes of the heap, for each of the 32 that are kept.

    python3 bench/earlier.py PROGRAM

It needs valgrind. A script ends in changes, long comments, 32 times `undo`, and long comments again, which take time and
no memory. By valgrind's massif the heap during the first comments less that during the second is what 32 scenes take.
"""
import re
import subprocess
import sys
import tempfile
from pathlib import Path

HERE = Path(__file__).parent
KEPT = 32
PAUSE = ("# " + "x" * 3900 + "\n") * 100
SCRIPTS = {
    "60 views, suggestions": ["changes", "1", "60"],
    "120 views, suggestions": ["changes", "1", "120"],
    "login form, windows": ["resize", "40"],
}


def heap_over_time(program, script):
    """Pairs of the instructions so far and the bytes of the heap."""
    with tempfile.TemporaryDirectory() as folder:
        out = Path(folder, "heap")
        words = ["valgrind", "--tool=massif", f"--massif-out-file={out}", "--max-snapshots=1000", "--time-unit=i"]
        subprocess.run([*words, program, "run"], input=script.encode(), capture_output=True, check=True)
        text = out.read_text()
    times = [int(it) for it in re.findall(r"^time=(\d+)", text, re.M)]
    return list(zip(times, [int(it) for it in re.findall(r"^mem_heap_B=(\d+)", text, re.M)]))


def bytes_a_scene(program, words):
    changes = subprocess.run([sys.executable, HERE / "scripts.py", *words], capture_output=True, text=True, check=True)
    found = heap_over_time(program, changes.stdout + PAUSE + "undo\n" * KEPT + PAUSE)
    # A pause is a long time between two snapshots.
    pauses = sorted(zip(found, found[1:]), key=lambda pair: pair[0][0] - pair[1][0])[:2]
    before, after = sorted(pauses)
    return (before[1][1] - after[0][1]) / KEPT


for name, words in SCRIPTS.items():
    print(f"{name}: {bytes_a_scene(sys.argv[1], words):.0f} bytes a scene")
