#!/bin/sh
# Refuses the program's first growth of memory, then in another run the second, and so on, over a script. Each run must
# write a prefix of the full output and end with the status 5, or write all of it and end as with ample memory.
# Usage: bench/refused.sh [PROGRAM [SCRIPT]]
#
# The program takes memory from the C library. A small C library that is loaded before it counts the growths and refuses
# one; cc compiles it. Without SCRIPT there are three scripts. In the first, two lines join, one leaves, and that is taken
# back. The second has unmet wishes, a conflict, and `diagnose`. The third has `certify`. The last line prints how many
# growths were refused in all.
set -eu
here=$(cd "$(dirname "$0")" && pwd)
program=${1:-$here/../crates/layout/out/layout}
work=$(mktemp -d)
trap 'rm -rf "$work"' EXIT

cc -O1 -shared -fPIC -x c -o "$work/refuse.so" - <<'C'
#include <errno.h>
#include <stdio.h>
#include <stdlib.h>

void *__libc_malloc(size_t), *__libc_calloc(size_t, size_t);
void *__libc_realloc(void *, size_t), *__libc_memalign(size_t, size_t);

static long calls, refused = -1;

static int is_refused(void) {
    if (refused < 0) {
        const char *text = getenv("REFUSED");
        refused = text ? atol(text) : 0;
    }
    if (++calls != refused) return 0;
    errno = ENOMEM;
    return 1;
}

void *malloc(size_t size) { return is_refused() ? NULL : __libc_malloc(size); }
void *calloc(size_t count, size_t size) { return is_refused() ? NULL : __libc_calloc(count, size); }
void *realloc(void *at, size_t size) { return is_refused() ? NULL : __libc_realloc(at, size); }
void *aligned_alloc(size_t align, size_t size) { return is_refused() ? NULL : __libc_memalign(align, size); }

int posix_memalign(void **at, size_t align, size_t size) {
    if (is_refused() || !(*at = __libc_memalign(align, size))) return ENOMEM;
    return 0;
}

__attribute__((destructor)) static void told(void) {
    long count = calls;
    const char *path = getenv("GROWTHS");
    FILE *file = path && path[0] ? fopen(path, "w") : NULL;
    if (file) { fprintf(file, "%ld\n", count); fclose(file); }
}
C

if [ $# -ge 2 ]; then
    cp "$2" "$work/given.script"
else
    cat > "$work/1 leaving.script" <<'SCRIPT'
view a
constrain g a.width == 100 @500
constrain h a.width == 200 @600
frames
remove h
frames
undo
frames
SCRIPT
    cat > "$work/2 diagnosis.script" <<'SCRIPT'
view a
vfl g [a(100@20)]
vfl h [a(200@30)]
frames
diagnose
window 100 50
constrain j a.width >= 60
constrain k a.width <= 50
diagnose
SCRIPT
    cat > "$work/3 certificate.script" <<'SCRIPT'
view a
view b
constrain g a.left + b.left == 10
frames
certify
SCRIPT
fi

python3 - "$program" "$work" <<'PYTHON'
import glob, os, subprocess, sys

program, work = sys.argv[1:]


def run(path, refused, growths=""):
    """What a run writes, and its status, where this growth is refused; 0 is none."""
    names = {"LD_PRELOAD": f"{work}/refuse.so", "REFUSED": str(refused), "GROWTHS": growths}
    with open(path, "rb") as script:
        env = {**os.environ, **names}
        done = subprocess.run([program, "run"], stdin=script, capture_output=True, env=env, check=False)
    return done.stdout, done.returncode


def refuse_each(path):
    """Prints what came of a script, and gives how many growths there are, and how many runs end otherwise."""
    name = os.path.basename(path).removesuffix(".script")
    whole, status = run(path, 0, f"{work}/growths")
    with open(f"{work}/growths", encoding="ascii") as file:
        count = int(file.read())
    bad = right = 0
    for i in range(1, count + 1):
        out, ended = run(path, i)
        if (out, ended) == (whole, status):
            right += 1
        elif ended != 5 or not whole.startswith(out):
            bad += 1
            print(f"{name}, growth {i}: status {ended}, {len(out)} bytes, prefix {whole.startswith(out)}")
    print(f"{name}: {count} growths, whole run of {len(whole)} bytes with status {status}, "
          f"{right} runs as with ample memory, {bad} runs that end otherwise")
    return count, bad


results = [refuse_each(path) for path in sorted(glob.glob(f"{work}/*.script"))]
growths = sum(count for count, _ in results)
bad = sum(bad for _, bad in results)
print(f"{growths} growths in all, {bad} runs that end otherwise")
sys.exit(1 if bad or not all(count for count, _ in results) else 0)
PYTHON
