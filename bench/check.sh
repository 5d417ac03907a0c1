#!/bin/sh
# Times the mode `check` of the built program on certificates of two sizes. Build it first, from the top of the repository:
#   (cd crates/layout && rt run -- run) < examples/windows.script
# Usage: bench/check.sh [PROGRAM]
set -eu
here=$(cd "$(dirname "$0")" && pwd)
program=${1:-$here/../crates/layout/out/layout}
work=$(mktemp -d)
trap 'rm -rf "$work"' EXIT

for size in "482 244" "2000 800"; do
    # shellcheck disable=SC2086
    python3 "$here/certificate.py" $size > "$work/input"
    echo "rows and stays: $size, $(wc -l < "$work/input") lines, $(wc -c < "$work/input") bytes"
    python3 - "$program" "$work/input" <<'PYTHON'
import subprocess, sys, time

begin = time.monotonic()
with open(sys.argv[2], "rb") as text:
    done = subprocess.run([sys.argv[1], "check"], stdin=text, capture_output=True, check=False)
print(done.stdout.decode().strip(), "in %.2f s" % (time.monotonic() - begin))
PYTHON
done
