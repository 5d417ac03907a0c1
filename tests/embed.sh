#!/usr/bin/env bash
# Builds the examples in C, Rust and Python over the static library, runs them, and compares what they print with
# examples/embed/login.out. If a compiler isn't installed, it says so and goes on.
#   tests/embed.sh [ARCHIVE]     by default the archive that `rt lib` makes in crates/layout_c
cd "$(dirname "$0")/.." || exit
top=$PWD
archive=$(realpath "${1:-crates/layout_c/out/liblayout_c.a}")
if [ ! -f "$archive" ]; then echo "no $archive: (cd crates/layout_c && rt lib) makes it"; exit 1; fi
kit=$(dirname "$(rt doc | head -1)")
below=$kit/c/liblibc_c.a
room=$(mktemp -d) && trap 'rm -rf "$room"' EXIT
cd examples/embed || exit
failed=0

judge() {
    if diff login.out "$room/$1.out" >"$room/$1.diff"; then echo "$1: as stored"
    else echo "$1: differs"; head -20 "$room/$1.diff"; failed=1; fi
}

if command -v cc >/dev/null; then
    cc -std=c99 -Wall -Werror -O1 login.c "$archive" "$below" -o "$room/c" && "$room/c" <form.script >"$room/c.out"
    judge c
    cc -std=c99 -Wall -Werror -O1 script.c "$archive" "$below" -o "$room/script" || failed=1
    "$room/script" <"$top/examples/login.script" | cmp - "$top/examples/login.out" || failed=1
else echo "c: no cc"; fi
if command -v rustc >/dev/null; then
    rustc --edition 2024 -O login.rs -C link-arg="$archive" -C link-arg="$below" -o "$room/rust" 2>"$room/rust.log" \
        && "$room/rust" <form.script >"$room/rust.out" || cat "$room/rust.log"
    judge rust
else echo "rust: no rustc"; fi
if command -v python3 >/dev/null && command -v cc >/dev/null; then
    cc -shared -o "$room/liblayout.so" -Wl,--whole-archive "$archive" -Wl,--no-whole-archive "$below" \
        && LAYOUT_SO=$room/liblayout.so PYTHONDONTWRITEBYTECODE=1 python3 login.py <form.script >"$room/python.out"
    judge python
else echo "python: no python3, or no cc"; fi
exit $failed
