#!/bin/sh
# Times the built program on scripts of 12, 24, 60 and 120 views, and on the login form under windows of two sizes in turn.
# Build it first, from the top of the repository:
#   (cd crates/layout && rt run -- run) < examples/windows.script
# Usage: bench/scripts.sh [PROGRAM [TURNS]]
#
# For each script it prints the time of a whole process (the least of TURNS, by default 5). If valgrind is installed, it
# also prints the instructions, and the functions that take most of them.
set -eu
here=$(cd "$(dirname "$0")" && pwd)
program=${1:-$here/../crates/layout/out/layout}
turns=${2:-5}
work=$(mktemp -d)
trap 'rm -rf "$work"' EXIT

measure() {
    name=$1
    shift
    python3 "$here/scripts.py" "$@" > "$work/script"
    python3 - "$program" "$work/script" "$turns" "$name" <<'PYTHON'
import subprocess, sys, time

program, script, turns, name = sys.argv[1], sys.argv[2], int(sys.argv[3]), sys.argv[4]
least = None
for turn in range(turns):
    with open(script, "rb") as text:
        begin = time.monotonic()
        done = subprocess.run([program, "run"], stdin=text, capture_output=True, check=False)
        took = time.monotonic() - begin
    least = took if least is None else min(least, took)
refused = sum(line.startswith(b"refused") for line in done.stdout.splitlines())
with open(script, "rb") as text:
    lines = sum(1 for line in text)
print("%s: %d lines, %d refused, status %d, %.1f ms" % (name, lines, refused, done.returncode, 1000 * least))
PYTHON
    if command -v valgrind > /dev/null && [ "${CALLGRIND:-no}" = yes ]; then
        valgrind --tool=callgrind --callgrind-out-file="$work/calls" "$program" run < "$work/script" 2>&1 > /dev/null |
            sed -n 's/.*Collected : /  instructions: /p'
        callgrind_annotate "$work/calls" | grep -v '^--' | sed -n '/%)/p' | head -12
    fi
}

for views in 12 24 60 120; do
    measure "$views views" chain 1 "$views"
done
for what in none add remove; do
    measure "60 views, one row: $what" row 60 "$what"
done
measure "login form, 10,000 suggestions" drag 10000
measure "66 views, no metric again" metric 66 0
measure "66 views, 1,000 values of a metric" metric 66 1000
measure "login form, 10,000 windows" resize 10000
measure "login form, 10,000 windows with frames" frames 10000
for what in none sweep windows; do
    measure "login form, its widths: $what" widths "$what"
done
for what in none sweep; do
    measure "a row of 40 views with preferred widths: $what" bends 40 "$what"
done
