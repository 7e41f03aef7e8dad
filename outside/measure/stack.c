/* The stack that each call takes, on a thread of STACK bytes, of which the host's own frames take OWN (stack.py).

     stack < PAPER    a line for each call: its name, and the bytes that it took

   Before a call the rest of the stack is painted, and after it the lowest byte without paint tells how far down the
   call went: with its arguments, which are copied, and with what stands between the reply and where the host keeps it.
   A call that wants more than is left meets the page below the stack, which may not be touched. */
#define _GNU_SOURCE
#include "desk.h"
#include <pthread.h>
#include <stdio.h>
#include <sys/mman.h>

enum { PAGE = 4096, MARGIN = 256, PAINT = 0xa5, BUDGET = 40 };

static uint8_t text[8192], key[DESK_TEXT], out[DESK_JOINT], turns[DESK_POINTS], list[4 * DESK_DEPENDENCES];
static uint16_t durations[DESK_PROCESSORS * DESK_PHASES], waits[DESK_PROCESSORS * (DESK_PHASES - 1)];
static size_t length, loops, gap, written;

/* Two claims of the outermost loop, each with a step. */
static const uint8_t argument[] = "3100ff00\n34\n31000000\n330000\n";
static uint8_t *bottom;
static uint8_t argued[65536];

static Desk desk;
static DeskPlain plain;
static DeskReply reply;
static DeskAnswer answer;
static DeskMoved moved;
static DeskMark mark;
static DeskChosen chosen;
static DeskStanding standing;
static DeskShape shape;
static DeskCalls calls;
static DeskImproved improved;
static DeskRunEnds ends;
static DeskVersion version;
static DeskJoined joined;
static DeskCompared compared;
static DeskWeighed weighed;

#define CALL(name, does) static void name(void) { does; }
CALL(desk_version_, version = desk_version())
CALL(desk_new_, desk = desk_new())
CALL(desk_reset_, desk = desk_reset(desk))
CALL(desk_load_, reply = desk_load(desk, text, length))
CALL(desk_plan_, reply = desk_plan(desk))
CALL(desk_go_over_, desk = desk_go_over(plain))
CALL(desk_count_, answer = desk_count(desk, 0))
CALL(desk_write_, answer = desk_write(desk, key, sizeof key))
CALL(desk_mark_, mark = desk_mark(desk, key, written))
CALL(desk_list_, answer = desk_list(desk, list, sizeof list))
CALL(desk_put_, moved = desk_put(desk, gap))
CALL(desk_lift_, moved = desk_lift(moved.desk, gap))
CALL(desk_take_back_, moved = desk_take_back(moved.desk))
CALL(desk_sitting_, answer = desk_sitting(desk, out, sizeof out))
CALL(desk_standing_, standing = desk_standing(desk))
CALL(desk_shape_, shape = desk_shape(desk))
CALL(desk_gaps_, chosen = desk_gaps(desk, 0))
CALL(desk_textbook_, chosen = desk_textbook(desk))
CALL(desk_candidate_slip_, answer = desk_candidate_slip(desk, key, written, out, sizeof out))
CALL(desk_examiner_slip_, answer = desk_examiner_slip(desk, key, written, out, sizeof out))
CALL(desk_missing_runs_, chosen = desk_missing_runs(desk))
CALL(desk_relied_on_, chosen = desk_relied_on(desk, key, written, 0))
CALL(desk_one_end_, chosen = desk_one_end(desk, 0))
CALL(desk_count_calls_, calls = desk_count_calls(desk, turns, loops))
CALL(desk_placement_calls_, calls = desk_placement_calls(desk, key, written, turns, loops))
CALL(desk_join_, joined = desk_join(text, length, text, length, out, sizeof out))
CALL(desk_improve_, improved = desk_improve(desk, turns, loops, BUDGET))
CALL(desk_sheet_, ends = desk_sheet(DESK_PROCESSORS, DESK_PHASES, durations, DESK_PROCESSORS * DESK_PHASES, waits,
                                    DESK_PROCESSORS * (DESK_PHASES - 1)))
CALL(desk_compare_, compared = desk_compare(desk, key, written, key, written))
CALL(desk_weigh_, weighed = desk_weigh(desk, argument, sizeof argument - 1))
CALL(desk_weigh_placement_, weighed = desk_weigh_placement(desk, key, written, argument, sizeof argument - 1))
CALL(desk_argue_, answer = desk_argue(desk, argued, sizeof argued))

static __attribute__((noinline)) void tell(const char *name, void (*call)(void)) {
    volatile uint8_t *top = (volatile uint8_t *)__builtin_frame_address(0) - MARGIN;
    for (volatile uint8_t *p = bottom; p < top; p++) *p = PAINT;
    call();
    volatile uint8_t *p = bottom;
    while (p < top && *p == PAINT) p++;
    printf("%s %td\n", name, top - p + MARGIN);
}

#define TELL(name) tell(#name, name##_)

static bool is_barred(size_t gap) {
    for (size_t i = 0; i < desk.nest.bars; i++) {
        if (desk.nest.barred[i] == gap) return true;
    }
    return false;
}

/* What the calls after Plan are given. */
static void fill(void) {
    for (size_t i = 0; i < desk.nest.count; i++) {
        if (desk.nest.points[i] == DESK_DO) turns[loops++] = 2;
    }
    for (size_t i = 0; i < 4 * DESK_DEPENDENCES; i++) list[i] = ((uint8_t *)desk.nest.deps)[i];
    for (size_t i = 0; i < DESK_PROCESSORS * DESK_PHASES; i++) durations[i] = 1;
    for (size_t i = 0; i < DESK_PROCESSORS * (DESK_PHASES - 1); i++) waits[i] = 0xffff;
    plain = (DeskPlain){.loaded = true, .nest = desk.nest, .planned = true, .key = desk.key};
    for (gap = 1; is_barred(gap); gap++) {}
}

static void *day(void *number) {
    volatile uint8_t own[OWN];
    for (size_t i = 0; i < OWN; i++) own[i] = 0;
    TELL(desk_version);
    TELL(desk_new);
    TELL(desk_load);
    *(int *)number = reply.number;
    desk = reply.desk;
    TELL(desk_plan);
    desk = reply.desk;
    TELL(desk_write);
    written = answer.value;
    fill();
    TELL(desk_go_over);
    TELL(desk_count);
    TELL(desk_mark);
    TELL(desk_list);
    TELL(desk_put);
    TELL(desk_lift);
    TELL(desk_take_back);
    TELL(desk_sitting);
    TELL(desk_standing);
    TELL(desk_shape);
    TELL(desk_gaps);
    TELL(desk_textbook);
    TELL(desk_candidate_slip);
    TELL(desk_examiner_slip);
    TELL(desk_missing_runs);
    TELL(desk_relied_on);
    TELL(desk_one_end);
    TELL(desk_count_calls);
    TELL(desk_placement_calls);
    TELL(desk_join);
    TELL(desk_improve);
    TELL(desk_sheet);
    TELL(desk_compare);
    TELL(desk_weigh);
    TELL(desk_weigh_placement);
    TELL(desk_argue);
    TELL(desk_reset);
    *(int *)number |= own[OWN - 1];
    return NULL;
}

int main(void) {
    pthread_attr_t attributes;
    pthread_t thread;
    int number = 0;
    length = fread(text, 1, sizeof text, stdin);
    uint8_t *memory = mmap(NULL, PAGE + STACK, PROT_READ | PROT_WRITE, MAP_PRIVATE | MAP_ANONYMOUS, -1, 0);
    if (memory == MAP_FAILED || mprotect(memory, PAGE, PROT_NONE)) return 2;
    bottom = memory + PAGE;
    if (pthread_attr_init(&attributes) || pthread_attr_setstack(&attributes, bottom, STACK)) return 2;
    if (pthread_create(&thread, &attributes, day, &number) || pthread_join(thread, NULL)) return 2;
    return number != 0 || fflush(stdout) != 0;
}
