#!/usr/bin/env python3
"""Says what a gate costs, crate by crate, and writes the table of CONTRIBUTING.

    tests/gate_costs.py sample FILE     reads every second the processor time of each check; ends with an interrupt
    tests/gate_costs.py table FILE..    sums what was sampled, and writes the table into CONTRIBUTING.md

Start `sample` in the background before `.ci/run`, in any folder; sample only one gate at a time, from nothing
(`rt ci --anew`), with nothing beside it. A check counts once, with its last reading: the proof of a crate with the builds
of a program, and its wrong bodies with the second proof that they are tried over.
"""
import collections, json, os, re, sys, textwrap, time

TOP = os.path.dirname(os.path.dirname(os.path.abspath(__file__)))
TICK = os.sysconf("SC_CLK_TCK")
BEGIN, END = "<!-- costs: written by tests/gate_costs.py -->\n", "<!-- costs end -->\n"


def checks():
    """Process, crate, whether it is a wrong body, and processor seconds of each running check."""
    for pid in filter(str.isdigit, os.listdir("/proc")):
        try:
            if not open(f"/proc/{pid}/comm").read().startswith("rattle"): continue
            words = open(f"/proc/{pid}/cmdline").read().split("\0")
            times = open(f"/proc/{pid}/stat").read().rsplit(")", 1)[1].split()[11:15]
            folder, start = os.readlink(f"/proc/{pid}/cwd"), os.stat(f"/proc/{pid}").st_mtime
        except (OSError, IndexError): continue
        if "--crate-name" in words:
            crate = words[words.index("--crate-name") + 1]
            yield f"{pid}.{int(start)}", crate, "/rt-edit-" in folder, sum(map(int, times)) / TICK


def sample(path):
    read = {}
    while True:
        read.update((key, rest) for key, *rest in checks())
        json.dump(list(read.values()), open(path + ".new", "w"))
        os.replace(path + ".new", path)
        time.sleep(1)


def rows(paths):
    proofs, bodies = collections.Counter(), collections.Counter()
    for crate, is_body, seconds in (row for path in paths for row in json.load(open(path))):
        (bodies if is_body else proofs)[crate] += seconds
    for crate in (line.split(":")[0].split()[0] for line in open(f"{TOP}/crates.txt") if ":" in line):
        folder = f"{TOP}/crates/{crate}/must-fail"
        count = len(os.listdir(folder)) if os.path.isdir(folder) else 0
        yield crate, round(proofs[crate]), round(bodies[crate]), count


def chain(seconds):
    """The longest way of proofs from a crate with nothing below it to one with nothing above it, lowest first."""
    below = {}
    for line in open(f"{TOP}/crates.txt"):
        name, colon, rest = line.split("#")[0].partition(":")
        if colon: below[name.split()[0]] = rest.split()
    best = {}

    def to(crate):
        if crate not in best:
            best[crate] = max((to(it) for it in below[crate] if it in below), default=(0, []))
            best[crate] = best[crate][0] + seconds[crate], [*best[crate][1], crate]
        return best[crate]

    return max(map(to, below))


def table(paths):
    all_rows = sorted(rows(paths), key=lambda row: (-row[1] - row[2], row[0]))
    lines = ["| Crate | Proof | Wrong bodies |", "|---|---|---|"]
    lines += [f"| `{crate}` | {proof} | {f'{body} ({count})' if count else ''} |" for crate, proof, body, count in all_rows]
    lines += [f"| all | {sum(row[1] for row in all_rows)} | {sum(row[2] for row in all_rows)} ({sum(row[3] for row in all_rows)}) |"]
    took, way = chain({row[0]: row[1] for row in all_rows})
    said = f"The longest chain of proofs takes {took / 60:.0f} minutes of a processor: " + ", ".join(f"`{it}`" for it in way) + "."
    lines += ["", *textwrap.wrap(said, 120, break_long_words=False, break_on_hyphens=False)]
    page = open(f"{TOP}/CONTRIBUTING.md").read()
    if BEGIN not in page: sys.exit("CONTRIBUTING.md has no place for the table")
    text = re.sub(re.escape(BEGIN) + ".*?" + re.escape(END), lambda _: BEGIN + "\n".join(lines) + "\n" + END, page, flags=re.S)
    open(f"{TOP}/CONTRIBUTING.md", "w").write(text)


if len(sys.argv) < 3 or sys.argv[1] not in ("sample", "table"): sys.exit(__doc__)
sample(sys.argv[2]) if sys.argv[1] == "sample" else table(sys.argv[2:])
