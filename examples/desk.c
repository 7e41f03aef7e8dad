/* Reads a paper, works out its key, marks the placement 3, 9 beside it, and puts a barrier at gap 5 of a sitting.
     gcc -I crates/host examples/desk.c target/staticlib/libhost.a -o target/desk && target/desk examples/p.hex */
#include "desk.h"
#include <stdio.h>

int main(int argc, char **argv) {
    static uint8_t text[8192], key[DESK_TEXT];
    const uint8_t answer[] = "2103\n2109\n";
    const char *verdicts[] = {"Uncut", "Dearer", "Best"};
    if (desk_version().major != DESK_MAJOR) {
        fprintf(stderr, "the library is of another version than desk.h\n");
        return 2;
    }
    FILE *paper = fopen(argc == 2 ? argv[1] : "examples/p.hex", "rb");
    size_t length = paper ? fread(text, 1, sizeof text, paper) : 0;
    if (!paper || !feof(paper)) {
        fprintf(stderr, "the paper cannot be read, or is too long\n");
        return 2;
    }
    DeskReply reply = desk_load(desk_new(), text, length);
    if (reply.number == 0) {
        reply = desk_plan(reply.desk);
    }
    if (reply.number != 0) {
        printf("refused: number %d, line %zu\n", reply.number, reply.line);
        return 1;
    }
    Desk desk = reply.desk;
    printf("%.*s", (int)desk_write(desk, key, sizeof key).value, (char *)key);
    DeskMark mark = desk_mark(desk, answer, sizeof answer - 1);
    printf("%s %zu %zu %zu\n", verdicts[mark.verdict], mark.a, mark.b, mark.c);
    printf("gap 5 put: %zu uncut\n", desk_put(desk, 5).uncut);
}
