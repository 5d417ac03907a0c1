/* Resizes a form in this process, by layout_c, for bench/live.py:

       cc -Iexamples/embed bench/live.c ARCHIVE KIT/c/liblibc_c.a -o live
       valgrind --tool=callgrind --callgrind-out-file=OUT ./live < SCRIPT

   Each `window` line of the script is a call of layout_resize, and each other line one of layout_answer. Callgrind
   writes what each window after the first one takes into a file of its own, OUT.1 and so on. ARCHIVE is what `rt lib`
   makes in crates/layout_c, and KIT the folder of the first line that `rt doc` prints. */
#include "layout.h"
#include <stdio.h>
#include <string.h>
#include <valgrind/callgrind.h>

static uint8_t reply[1 << 16];

int main(void) {
    layout_session session = {0};
    char line[4096];
    size_t used;
    int windows = 0;
    if (layout_new(&session) != LAYOUT_DONE) return 1;
    while (fgets(line, sizeof line, stdin)) {
        long long width, height;
        line[strcspn(line, "\n")] = 0;
        if (sscanf(line, "window %lld %lld", &width, &height) != 2) {
            const uint8_t *text = (const uint8_t *)line;
            if (layout_answer(&session, text, strlen(line), reply, sizeof reply, &used) != LAYOUT_DONE) return 1;
            continue;
        }
        layout_frac wide = {width, 1}, high = {height, 1};
        CALLGRIND_ZERO_STATS;
        if (layout_resize(&session, wide, high) != LAYOUT_DONE) return 1;
        if (windows++ > 0) CALLGRIND_DUMP_STATS;
    }
    layout_free(&session);
    return 0;
}
