#!/bin/sh
# Prints the average cost of a probe, and the cost of a row of `constrain` that joins the same scene, in instructions.
# Usage: bench/diagnose.sh PROGRAM
#
# It needs valgrind. An attribute has one probe if it can move up, and two otherwise.
set -eu
here=$(cd "$(dirname "$0")" && pwd)
program=$1
work=$(mktemp -d)
trap 'rm -rf "$work"' EXIT

instructions() {
    python3 "$here/scripts.py" "$@" > "$work/script"
    valgrind --tool=callgrind --callgrind-out-file="$work/calls" "$program" run < "$work/script" 2>&1 > "$work/reply" |
        sed -n 's/.*Collected : //p'
}

probes() {
    awk 'function value(word, parts) { return split(word, parts, "/") == 2 ? parts[1] / parts[2] : word + 0 }
        $1 == "frame" { at[$2 ".left"] = value($3); at[$2 ".top"] = value($4)
            at[$2 ".width"] = value($5); at[$2 ".height"] = value($6); count += 8 }
        $1 == "ambiguous" && value($3) > at[$2] { count -= 1 }
        END { print count }' "$work/reply"
}

for views in 12 24 60; do
    none=$(instructions row "$views" none)
    joined=$(instructions row "$views" add)
    found=$(instructions diagnose "$views")
    count=$(probes)
    echo "$views views: $count probes, $(((found - none) / count)) instructions each;" \
        "a row that joins takes $((joined - none))"
done
