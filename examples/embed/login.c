/* Lays out the login form, drags a divider, and prints the frames and what moved. */
#include "layout.h"
#include <stdio.h>
#include <string.h>

enum { VIEWS = 16 };

static const char *names[VIEWS];
static uint32_t ids[VIEWS];
static int count;

static void say(layout_session *session, const char *line) {
    uint8_t reply[4096];
    size_t used;
    uint8_t end = layout_answer(session, (const uint8_t *)line, strlen(line), reply, sizeof reply, &used);
    if (end == LAYOUT_REFUSED) printf("refused: %.*s\n", (int)strcspn((const char *)reply, "\n"), (const char *)reply);
}

static void watch(layout_session *session, const char *name) {
    if (layout_view(session, (const uint8_t *)name, strlen(name), &ids[count]) == LAYOUT_DONE) names[count++] = name;
}

static void number(layout_frac f) {
    printf(f.den == 1 ? " %lld" : " %lld/%lld", (long long)f.num, (long long)f.den);
}

static void print_frame(layout_session *session, uint32_t view) {
    layout_frame_t at;
    for (int i = 0; i < count; i++) {
        if (ids[i] != view || layout_frame(session, view, &at) != LAYOUT_DONE) continue;
        printf("  %s", names[i]);
        number(at.left), number(at.top), number(at.width), number(at.height);
        puts("");
    }
}

/* What the latest change moved, and what an undo would move. */
static size_t moved(layout_session *session, uint32_t *views) {
    size_t found = 0;
    return layout_moved(session, views, VIEWS + 1, &found) == LAYOUT_DONE ? found : 0;
}

static void print_moved(layout_session *session) {
    uint32_t views[VIEWS + 1];
    size_t found = moved(session, views);
    for (size_t i = 0; i < found; i++) print_frame(session, views[i]);
}

/* All views of the session, by the names that it has for them. */
static void print_all(layout_session *session) {
    static layout_placed all[VIEWS + 1];
    uint8_t name[64];
    size_t found = 0, used = 0;
    if (layout_frames(session, all, VIEWS + 1, &found) != LAYOUT_DONE) return;
    for (size_t i = 0; i < found; i++) {
        if (layout_name(session, all[i].view, name, sizeof name, &used) != LAYOUT_DONE) continue;
        printf("  %.*s", (int)used, (const char *)name);
        number(all[i].frame.left), number(all[i].frame.top), number(all[i].frame.width), number(all[i].frame.height);
        puts("");
    }
}

static void print_status(uint8_t status) {
    uint8_t name[20];
    size_t used = 0;
    if (layout_status_name(status, name, sizeof name, &used) == LAYOUT_DONE)
        printf("status %d: %.*s\n", status, (int)used, (const char *)name);
}

int main(void) {
    layout_session session = {0};
    if (layout_version() != LAYOUT_VERSION) return 2;
    char line[256];
    if (layout_new(&session) != LAYOUT_DONE) return 1;
    while (fgets(line, sizeof line, stdin)) {
        line[strcspn(line, "\n")] = 0;
        say(&session, line);
        if (strncmp(line, "view ", 5) == 0) {
            static char text[VIEWS][32];
            watch(&session, strcpy(text[count], line + 5));
        }
    }
    puts("the form, 375 by 667");
    for (int i = 0; i < count; i++) print_frame(&session, ids[i]);
    puts("the labels' divider, dragged to 120");
    layout_suggest(&session, (const uint8_t *)"userLabel", 9, LAYOUT_WIDTH, (layout_frac){120, 1});
    print_moved(&session);
    puts("dragged past its limit");
    layout_suggest(&session, (const uint8_t *)"userLabel", 9, LAYOUT_WIDTH, (layout_frac){501, 2});
    print_moved(&session);
    puts("a window of 400 by 667");
    layout_resize(&session, (layout_frac){400, 1}, (layout_frac){667, 1});
    print_moved(&session);
    uint32_t views[VIEWS + 1];
    size_t found = moved(&session, views);
    layout_undo(&session);
    puts("undone");
    for (size_t i = 0; i < found; i++) print_frame(&session, views[i]);
    say(&session, "window 100 100");
    puts("all views");
    print_all(&session);
    layout_free(&session);
    print_status(layout_undo(&session));
    return 0;
}
