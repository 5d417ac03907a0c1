#!/usr/bin/env bash
# Unpacks a release into a folder of its own, and builds and runs the examples of examples/embed against it, without the
# kit: in C, C++, Rust and Python. What they print is compared with what is stored. What isn't installed is skipped, with a line.
#   tests/release.sh FOLDER     the folder that tools/release made, such as out/layout-0.2.0-x86_64-linux
release=$(realpath "${1:?the folder of a release}") || exit
cd "$(dirname "$0")/../examples" || exit
examples=$PWD
version=$(basename "$release" -x86_64-linux) && version=${version#layout-}
room=$(mktemp -d) && trap 'rm -rf "$room"' EXIT
tar -xzf "$release.tar.gz" -C "$room" && mv "$room/$(basename "$release")" "$room/layout" || exit
to=$room/layout
export PKG_CONFIG_PATH=$to/lib/pkgconfig
failed=0
# A PATH without the kit's `rt`: a folder of links to what is used here.
mkdir "$room/bin"
for tool in bash env cc c++ gcc g++ as ld ar nm readelf rustc cargo pkg-config diff cmp cat grep head sed tar gzip rm mkdir cp; do
    path=$(command -v $tool) && ln -s "$path" "$room/bin/$tool"
done
python=$(python3 -c 'import sys; print(sys.executable)') && ln -s "$python" "$room/bin/python3"    # past a script that finds it
PATH=$room/bin

judge() {
    if diff "$examples/embed/login.out" "$room/$1.out" >"$room/$1.diff"; then echo "$1: as stored"
    else echo "$1: differs"; head -20 "$room/$1.diff"; failed=1; fi
}
bad() { echo "$1"; failed=1; }

if command -v rt >/dev/null; then bad "rt is on the path"; fi
grep -q "define LAYOUT_VERSION_TEXT \"$version\"" "$to/include/layout.h" || bad "layout.h has another version than the folder"
readelf -d "$to/lib/liblayout.so.1" | grep -q 'soname: \[liblayout.so.1\]' || bad "no soname"
nm -D --defined-only "$to/lib/liblayout.so.1" | grep -vE ' layout_| A LAYOUT_1' && bad "the shared object exports more than the calls"
nm -g --defined-only "$to/lib/liblayout.a" | grep -vE ' T layout_|^$|layout.o:' && bad "the archive shows more than the calls"
for call in $(grep -oE '^[a-z0-9_]+ \*?layout_[a-z_]+\(|^const char \*layout_[a-z_]+\(' "$to/include/layout.h" | grep -oE 'layout_[a-z_]+\(' | sed 's/(//'); do
    nm -D --defined-only "$to/lib/liblayout.so.1" | grep -q " $call" || bad "no $call in the shared object"
done
test -s "$to/share/layout/PROVED" || bad "no PROVED"

if command -v cc >/dev/null; then
    cc -std=c99 -Wall -Werror -O1 "-I$to/include" embed/login.c "$to/lib/liblayout.a" -o "$room/c" && "$room/c" <embed/form.script >"$room/c.out"
    judge c
    cc -std=c99 -Wall -Werror -O1 "-I$to/include" embed/script.c "$to/lib/liblayout.a" -o "$room/script" || failed=1
    "$room/script" <login.script | cmp - login.out || failed=1
    if command -v pkg-config >/dev/null; then
        cc embed/login.c $(pkg-config --cflags --libs layout) -o "$room/shared" && LD_LIBRARY_PATH=$to/lib "$room/shared" <embed/form.script >"$room/shared.out"
        judge shared
    else echo "shared: no pkg-config"; fi
else echo "c: no cc"; fi
if command -v c++ >/dev/null; then
    cp embed/login.c "$room/login.cc"
    c++ -Wall -Werror "-I$to/include" "$room/login.cc" "$to/lib/liblayout.a" -o "$room/c++" && "$room/c++" <embed/form.script >"$room/c++.out"
    judge c++
else echo "c++: no c++"; fi
crate=$release/../layout-sys-$version.crate
if command -v cargo >/dev/null && test -f "$crate"; then
    mkdir "$room/rust" && tar -xzf "$crate" -C "$room/rust" && cd "$room/rust/layout-sys-$version" || exit
    cargo run --quiet --offline --example login --target-dir "$room/target" <"$examples/embed/form.script" >"$room/rust.out" 2>"$room/rust.log" || cat "$room/rust.log"
    judge rust
    cd "$examples" || exit
else echo "rust: no cargo, or no crate"; fi
wheel=$(echo "$release/../layout-$version"-py3-none-*.whl)
if python3 -m pip --version >/dev/null 2>&1 && test -f "$wheel"; then
    python3 -m pip install --quiet --no-index --no-deps --disable-pip-version-check --target "$room/python" "$wheel" 2>"$room/pip.log" || cat "$room/pip.log"
    cp embed/login.py "$room/login.py"
    PYTHONPATH=$room/python python3 "$room/login.py" <embed/form.script >"$room/python.out"
    judge python
else echo "python: no pip, or no wheel"; fi
test -x "$to/bin/layout" && { "$to/bin/layout" run <login.script | cmp - login.out || failed=1; }
exit $failed
