/* Drags or resizes the login form in this process, by layout_c, without text:

       cc -Iexamples/embed bench/embed.c ARCHIVE KIT/c/liblibc_c.a -o embed
       valgrind --tool=callgrind ./embed WHAT TIMES < examples/embed/form.script

   WHAT is `none`, `resize` (a window of one of two sizes in turn, and the views that it moved), `suggest` (a new width
   each time), `remove` (a line that joins and leaves again) or `turns` (one of each, and at the end the peak memory of the
   process in kibibytes). The form is read before that. ARCHIVE is the archive that `rt lib` makes in crates/layout_c, and
   KIT the folder of the first line that `rt doc` prints. */
#include "layout.h"
#include <stdio.h>
#include <stdlib.h>
#include <string.h>
#include <sys/resource.h>

static const uint8_t view[] = "cancel";

static uint8_t say(layout_session *session, const char *line) {
    uint8_t reply[4096];
    size_t used;
    return layout_answer(session, (const uint8_t *)line, strlen(line), reply, sizeof reply, &used);
}

static uint8_t step(layout_session *session, const char *what, long i) {
    if (strcmp(what, "turns") == 0) {
        uint8_t end = step(session, "resize", i);
        if (end == LAYOUT_DONE) end = step(session, "suggest", i);
        return end == LAYOUT_DONE ? step(session, "remove", i) : end;
    }
    uint32_t moved[256];
    size_t count = 0;
    if (strcmp(what, "resize") == 0) {
        layout_frac width = {i % 2 ? 375 : 320, 1}, height = {i % 2 ? 667 : 480, 1};
        uint8_t end = layout_resize(session, width, height);
        return end == LAYOUT_DONE ? layout_moved(session, moved, 256, &count) : end;
    }
    if (strcmp(what, "remove") == 0) {
        uint8_t end = say(session, "constrain extra cancel.width >= 10");
        return end == LAYOUT_DONE ? say(session, "remove extra") : end;
    }
    layout_frac width = {100 + i % 50, 1};
    return layout_suggest(session, view, sizeof view - 1, LAYOUT_WIDTH, width);
}

int main(int argc, char **argv) {
    layout_session session = {0};
    char line[4096];
    if (argc < 3 || layout_new(&session) != LAYOUT_DONE) return 1;
    while (fgets(line, sizeof line, stdin)) {
        line[strcspn(line, "\n")] = 0;
        if (say(&session, line) != LAYOUT_DONE) return 1;
    }
    for (long i = 0; strcmp(argv[1], "none") != 0 && i < atol(argv[2]); i++)
        if (step(&session, argv[1], i) != LAYOUT_DONE) return 1;
    layout_free(&session);
    struct rusage used;
    if (strcmp(argv[1], "turns") == 0 && getrusage(RUSAGE_SELF, &used) == 0) printf("%ld\n", used.ru_maxrss);
    return 0;
}
