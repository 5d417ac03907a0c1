#!/bin/sh
# Measures `make` of the built program as a whole process, and two float engines on the same scripts if they are installed.
# Build the program first, from the top of the repository:
#   (cd crates/layout && rt run -- run) < examples/windows.script
# Usage: bench/peers/peers.sh [PROGRAM [CASSOWARY [KIWI]]]
#
# CASSOWARY is the folder with the source of the crate cassowary 0.3.0. KIWI is a python3 that has kiwisolver, by default
# python3. For each number of views it prints the least time of a whole process of TURNS (20), and the instructions if
# valgrind is installed. The cost of reading the operations is subtracted from the engines'. For kiwi it also prints the
# cost of its C++ alone, without python and the making of terms and constraints (kiwi_alone.py).
set -eu
here=$(cd "$(dirname "$0")" && pwd)
program=${1:-$here/../../crates/layout/out/layout}
cassowary=${2:-}
kiwi=${3:-python3}
turns=${TURNS:-20}
work=$(mktemp -d)
trap 'rm -rf "$work"' EXIT

if [ ! -x "$program" ]; then
    echo "no program at $program: build it as the first lines of this script say"
    exit 1
fi

least() {
    python3 - "$turns" "$@" <<'PYTHON'
import subprocess, sys, time

turns, words = int(sys.argv[1]), sys.argv[2:]
took = []
for turn in range(turns):
    begin = time.monotonic()
    subprocess.run(words, stdin=subprocess.DEVNULL, stdout=subprocess.DEVNULL, check=False)
    took.append(time.monotonic() - begin)
print("%.1f ms" % (1000 * min(took)))
PYTHON
}

counted() {
    valgrind --tool=callgrind --callgrind-out-file=/dev/null "$@" 2>&1 > /dev/null < /dev/null |
        sed -n 's/.*Collected : //p'
}

has_valgrind=no
if command -v valgrind > /dev/null; then
    has_valgrind=yes
else
    echo "no valgrind: instructions are left out"
fi

peer=
if [ -z "$cassowary" ]; then
    echo "no cassowary: give the folder of its source as the second word"
elif [ ! -f "$cassowary/Cargo.toml" ]; then
    echo "no cassowary: $cassowary has no Cargo.toml"
elif ! command -v cargo > /dev/null; then
    echo "no cassowary: there is no cargo to build its driver"
else
    cp -r "$here/cassowary_peer" "$work/cassowary_peer"
    sed "s,SOURCE,$cassowary," "$here/cassowary_peer/Cargo.toml" > "$work/cassowary_peer/Cargo.toml"
    if (cd "$work/cassowary_peer" && RUSTFLAGS="-A warnings" cargo build --release --offline --quiet --target-dir "$work/target"); then
        peer=$work/target/release/cassowary_peer
    else
        echo "no cassowary: its driver isn't built"
    fi
fi

has_kiwi=no
if "$kiwi" -c "import kiwisolver" 2> /dev/null; then
    has_kiwi=yes
else
    echo "no kiwi: $kiwi has no kiwisolver"
fi

report() {
    name=$1
    shift
    echo "  $name: $(least "$@")"
}

count_without() {
    name=$1
    operations=$2
    shift 2
    whole=$(counted "$@" "$operations")
    reading=$(counted "$@" "$operations" read)
    echo "  $name: $((whole - reading)) instructions"
}

for views in 12 24 60 120; do
    echo "$views views: $("$program" make 1 "$views" < /dev/null | tr '\n' ' ')"
    report "layout" "$program" make 1 "$views"
    if [ "$has_valgrind" = yes ]; then
        echo "  layout: $(counted "$program" make 1 "$views") instructions"
    fi
    python3 "$here/../scripts.py" made 1 "$views" | python3 "$here/operations.py" "$program" > "$work/operations"
    if [ -n "$peer" ]; then
        report "cassowary" "$peer" "$work/operations"
        if [ "$has_valgrind" = yes ]; then
            count_without "cassowary" "$work/operations" "$peer"
        fi
    fi
    if [ "$has_kiwi" = yes ]; then
        report "kiwi" "$kiwi" "$here/kiwi_peer.py" "$work/operations"
        if [ "$has_valgrind" = yes ]; then
            count_without "kiwi" "$work/operations" "$kiwi" "$here/kiwi_peer.py"
            echo "  kiwi, its C++ alone: $("$kiwi" "$here/kiwi_alone.py" "$work/operations") instructions"
        fi
    fi
done
