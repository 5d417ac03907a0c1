#!/usr/bin/env bash
# wrong_bodies.sh CRATE..: lets the prover try all wrong bodies of these crates, also those that are too dear for each gate.
# Those are in wrong_bodies/CRATE, and in crates/CRATE/must-fail only while this runs. The libraries below are proved first,
# unless `rt check` has done it. The status is 0 if each body is refused.
set -e
cd "$(dirname "$0")/.."
for crate in "${@:-none}"; do
    if [ ! -d "tests/wrong_bodies/$crate" ]; then
        echo "usage: tests/wrong_bodies.sh CRATE.., each of $(ls tests/wrong_bodies | xargs)" >&2
        exit 2
    fi
done
put_back() {
    for crate in "$@"; do
        for body in "tests/wrong_bodies/$crate"/*.edit; do
            rm -f "crates/$crate/must-fail/$(basename "$body")"
        done
        [ ! -d "crates/$crate/must-fail" ] || rmdir --ignore-fail-on-non-empty "crates/$crate/must-fail"
    done
}
trap 'put_back "$@"' EXIT
for crate in "$@"; do
    mkdir -p "crates/$crate/must-fail"
    cp "tests/wrong_bodies/$crate"/*.edit "crates/$crate/must-fail/"
done
rt must-fail "$@"
