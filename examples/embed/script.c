/* Answers the script on the standard input, as `layout run` does. */
#include "layout.h"
#include <stdio.h>

static uint8_t script[1 << 20], out[1 << 22];

int main(void) {
    size_t used, length = fread(script, 1, sizeof script, stdin);
    uint8_t end = layout_run(script, length, out, sizeof out, &used);
    fwrite(out, 1, used, stdout);
    return end;
}
