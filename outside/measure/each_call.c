/* Calls for measuring: loads the paper on standard input, plans it, writes the key and marks what was written, and
   gives its argument; holds the text with every gap beside the one without gap 1, and hands the paper's own dependences
   over as a list; then puts and lifts a gap 20 times, and takes the 40 moves back. outside/measure/instructions counts
   the instructions inside the calls. */
#include "desk.h"
#include <stdio.h>
#include <stdlib.h>

enum { TURNS = 20 };

int main(int argc, char **argv) {
    static uint8_t text[8192], out[DESK_TEXT], argument[65536];
    static char every[DESK_TEXT + 1];
    size_t length = fread(text, 1, sizeof text, stdin);
    DeskReply loaded = desk_load(desk_new(), text, length);
    DeskReply planned = desk_plan(loaded.desk);
    DeskAnswer written = desk_write(planned.desk, out, sizeof out);
    DeskMark marked = desk_mark(planned.desk, out, written.value);
    Desk desk = planned.desk;
    DeskAnswer argued = desk_argue(desk, argument, sizeof argument);
    size_t gap = argc == 2 ? strtoul(argv[1], NULL, 16) : 0;
    size_t gaps = 0;
    for (size_t g = 1; g < desk.nest.count; g++) {
        gaps += sprintf(every + gaps, "21%02zx\n", g);
    }
    const uint8_t *all = (const uint8_t *)every;
    DeskCompared compared = desk_compare(desk, all, gaps, all + 5, gaps - 5);
    DeskAnswer listed = desk_list(desk, &desk.nest.deps[0].kind, desk.nest.many * sizeof desk.nest.deps[0]);
    int refused = loaded.number | planned.number | written.number | marked.number | compared.number | listed.number |
                  argued.number;
    for (int i = 0; i < TURNS; i++) {
        DeskMoved put = desk_put(desk, gap);
        DeskMoved lifted = desk_lift(put.desk, gap);
        refused |= put.number | lifted.number;
        desk = lifted.desk;
    }
    for (int i = 0; i < 2 * TURNS; i++) {
        DeskMoved back = desk_take_back(desk);
        refused |= back.number;
        desk = back.desk;
    }
    if (refused) {
        fprintf(stderr, "calls: a call was refused\n");
    }
    return refused != 0;
}
