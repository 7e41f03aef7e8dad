/* An interpreter of papers with real threads: it runs a paper and tells which dependences raced, by ThreadSanitizer.
 *
 *   interpreter THREADS    reads lines of frames in hexadecimal, with spaces between, and writes a line for each run
 *
 *   p 01 03 02 12000101    a paper, as its text has it; barred gaps are passed over
 *   r 2101 310003 ...      a run of the paper before it:
 *       21 g      a barrier in gap g
 *       31 d n    n turns of the loop of DO d; 2 where nothing is said
 *       32 d m    the loop runs only in those turns of the loop around it whose bits are in m, the first lowest
 *       33 d      a barrier is called where the loop is skipped
 *
 * The line of a run has the barrier calls of each thread and, for each dependence, how often it raced and how often it
 * occurred: 8 0/4 4/4.
 *
 * What an end of a dependence means is taken from docs/RULES.md, "The nest and its gaps", word by word: the run is
 * walked through once, every pass of a point is noted, and of these passes the accesses are chosen. No rule about gaps
 * is known here. Each time that a dependence occurs it has a cell of its own, which thread 0 writes and others read. Two
 * barriers are used in turn: with one alone a thread that leaves late would seem to have waited for what another did
 * since.
 */
#define _POSIX_C_SOURCE 200809L
#include <pthread.h>
#include <stdio.h>
#include <stdlib.h>
#include <string.h>

enum { DO = 1, ENDDO, STATEMENT, FLAGGED, INDEPENDENT = 0x11, CARRIED, BARRED, BARRIER = 0x21 };
enum { TURNS = 0x31, ONLY, SUBSTITUTE };
enum { POINTS = 256, DEPTH = 8, DEPENDENCES = 512, EVENTS = 1 << 18, CELLS = 1 << 18, THREADS = 64, LINE = 1 << 14 };
enum { NONE = -1, WAIT = -1, ALWAYS = -1 };

struct dependence { int carrier, s, t; };
/* A step of a run: a point that is passed, with the turn of each loop around it, the outermost first, or WAIT; and the
 * first of its accesses. */
struct event { int point, turn[DEPTH], access; };
struct access { int cell, writes, next; };

static struct { int kind[POINTS], other[POINTS], depth[POINTS], count, many; struct dependence of[DEPENDENCES]; } paper;
static struct { int barrier[POINTS], turns[POINTS], only[POINTS], substitute[POINTS]; } asked;
static struct event events[EVENTS];
static struct access accesses[2 * CELLS];
static int happened, occurred, owner[CELLS], raced[CELLS], threads;
static long cells[CELLS], calls[THREADS];
static pthread_barrier_t start, end, barriers[2];

static void stop(const char *why)
{
    fprintf(stderr, "interpreter: %s\n", why);
    exit(2);
}

/* Reads the points and dependences of a paper; of each DO the ENDDO and the other way round, and how many loops each
 * point is inside. */
static void read_paper(char *words)
{
    int open[DEPTH + 1], deep = 0;
    memset(&paper, 0, sizeof paper);
    for (char *word = strtok(words, " \n"); word; word = strtok(NULL, " \n")) {
        unsigned k, a = 0, b = 0, c = 0;
        sscanf(word, "%2x%2x%2x%2x", &k, &a, &b, &c);
        if (k <= FLAGGED) {
            int p = paper.count++;
            paper.kind[p] = k == FLAGGED ? DO : (int)k;
            if (k == ENDDO) {
                int d = open[--deep];
                paper.other[d] = p;
                paper.other[p] = d;
            }
            paper.depth[p] = deep;
            if (paper.kind[p] == DO)
                open[deep++] = p;
        } else if (k == INDEPENDENT) {
            paper.of[paper.many++] = (struct dependence){ NONE, (int)a, (int)b };
        } else if (k == CARRIED) {
            paper.of[paper.many++] = (struct dependence){ (int)a, (int)b, (int)c };
        }
    }
}

static void read_run(char *words)
{
    memset(&asked, 0, sizeof asked);
    for (int p = 0; p < POINTS; p++) {
        asked.turns[p] = 2;
        asked.only[p] = ALWAYS;
    }
    for (char *word = strtok(words, " \n"); word; word = strtok(NULL, " \n")) {
        unsigned k, a = 0, b = 0;
        sscanf(word, "%2x%2x%2x", &k, &a, &b);
        switch (k) {
        case BARRIER: asked.barrier[a] = 1; break;
        case TURNS: asked.turns[a] = (int)b; break;
        case ONLY: asked.only[a] = (int)b; break;
        case SUBSTITUTE: asked.substitute[a] = 1; break;
        default: stop("no such frame in a run");
        }
    }
}

static void happens(int point, const int turn[DEPTH])
{
    if (happened == EVENTS)
        stop("the run is too long");
    struct event *now = &events[happened++];
    now->point = point;
    now->access = NONE;
    memcpy(now->turn, turn, sizeof now->turn);
}

/* Whether a loop runs in the present turn of the loop around it. */
static int runs(int d, const int made[POINTS])
{
    int around = d - 1;
    while (around >= 0 && !(paper.kind[around] == DO && paper.depth[around] == paper.depth[d] - 1))
        around--;
    int turn = around >= 0 ? made[around] : 0;
    return asked.only[d] == ALWAYS || (turn < 8 && asked.only[d] >> turn & 1);
}

/* Walks through the run as one thread does. A DO is passed on entering its loop, an ENDDO after leaving it. The turns
 * of a loop have rising numbers; between the last turn of one run of the loop and the first of the next, one is left
 * out. */
static void walk(void)
{
    int turn[DEPTH] = { 0 }, made[POINTS] = { 0 };
    happened = 0;
    for (int p = 0; p < paper.count;) {
        int deep = paper.depth[p];
        if (p > 0 && asked.barrier[p])
            happens(WAIT, turn);
        if (paper.kind[p] == STATEMENT) {
            happens(p++, turn);
        } else if (paper.kind[p] == DO) {
            if (runs(p, made)) {
                happens(p, turn);
                made[p] = 0;
                turn[deep] += 2;
                p++;
            } else {
                if (asked.substitute[p])
                    happens(WAIT, turn);
                p = paper.other[p] + 1;
            }
        } else {
            int d = paper.other[p];
            if (++made[d] < asked.turns[d]) {
                turn[deep]++;
                p = d + 1;
            } else {
                happens(p++, turn);
            }
        }
    }
}

/* How many loops there are around both points. */
static int shared(int s, int t)
{
    int count = 0;
    for (int d = 0; d < paper.count; d++)
        if (paper.kind[d] == DO && d < s && s < paper.other[d] && d < t && t < paper.other[d])
            count++;
    return count;
}

/* Gives an event the write or the read of a cell. */
static void give(int event, int cell, int writes)
{
    int place = 2 * cell + writes;
    accesses[place] = (struct access){ cell, writes, events[event].access };
    events[event].access = place;
}

/* Chooses the accesses: s as it is passed last in a turn of the innermost loop around both ends, or of the loop that
 * carries the dependence; t as it is passed first after that, in the same turn or in the next. */
static void choose(void)
{
    occurred = 0;
    for (int k = 0; k < paper.many; k++) {
        struct dependence it = paper.of[k];
        int carried = it.carrier != NONE;
        int deep = (carried ? paper.depth[it.carrier] + 1 : shared(it.s, it.t)) - 1;
        for (int i = 0; i < happened; i++) {
            if (events[i].point != it.s)
                continue;
            int in = deep < 0 ? 0 : events[i].turn[deep], target = NONE, again = 0;
            for (int j = i + 1; j < happened && !again; j++) {
                int then = deep < 0 ? 0 : events[j].turn[deep];
                if (then > in + carried)
                    break;
                again = events[j].point == it.s && then == in;
                if (target == NONE && events[j].point == it.t && then == in + carried)
                    target = j;
            }
            if (again || target == NONE)
                continue;
            if (occurred == CELLS)
                stop("there are too many cells");
            owner[occurred] = k;
            raced[occurred] = 0;
            give(i, occurred, 1);
            give(target, occurred, 0);
            occurred++;
        }
    }
}

static long play(int me)
{
    long made = 0, sum = 0;
    for (int i = 0; i < happened; i++) {
        if (events[i].point == WAIT) {
            pthread_barrier_wait(&barriers[made % 2]);
            made++;
        }
        for (int a = events[i].access; a != NONE; a = accesses[a].next) {
            if (accesses[a].writes && me == 0)
                *(volatile long *)&cells[accesses[a].cell] = made;
            if (!accesses[a].writes && me != 0)
                sum += *(volatile long *)&cells[accesses[a].cell];
        }
    }
    (void)sum;
    return made;
}

static void *serve(void *number)
{
    int me = *(int *)number;
    for (;;) {
        pthread_barrier_wait(&start);
        calls[me] = play(me);
        pthread_barrier_wait(&end);
    }
    return NULL;
}

static void tell(void)
{
    static int races[DEPENDENCES], times[DEPENDENCES];
    memset(races, 0, sizeof races);
    memset(times, 0, sizeof times);
    for (int i = 1; i < threads; i++)
        if (calls[i] != calls[0])
            stop("threads have called barriers a different number of times");
    for (int c = 0; c < occurred; c++) {
        times[owner[c]]++;
        races[owner[c]] += __atomic_load_n(&raced[c], __ATOMIC_RELAXED);
    }
    printf("%ld", calls[0]);
    for (int k = 0; k < paper.many; k++)
        printf(" %d/%d", races[k], times[k]);
    putchar('\n');
}

/* ThreadSanitizer: what it is asked for, and the hooks by which it tells a race before it prints a word of it. */
int __tsan_get_report_mop(void *report, unsigned long which, int *thread, void **place, int *size, int *writes,
                          int *atomic, void **trace, unsigned long long_trace);
_Bool heard(void *report, _Bool suppressed) __asm__("_ZN6__tsan8OnReportEPKNS_10ReportDescEb");
const char *__tsan_default_options(void);

const char *__tsan_default_options(void)
{
    return "suppress_equal_stacks=0:suppress_equal_addresses=0:history_size=7:symbolize=0:report_thread_leaks=0:"
           "atexit_sleep_ms=0:exitcode=0";
}

__attribute__((no_sanitize("thread"))) _Bool heard(void *report, _Bool suppressed)
{
    int thread, size, writes, atomic;
    void *place = NULL, *trace[1];
    (void)suppressed;
    __tsan_get_report_mop(report, 0, &thread, &place, &size, &writes, &atomic, trace, 1);
    long cell = (long *)place - cells;
    if (cell < 0 || cell >= CELLS)
        return 0; /* no cell of ours: it is printed, and the test fails */
    __atomic_store_n(&raced[cell], 1, __ATOMIC_RELAXED);
    return 1;
}

int main(int count, char **words)
{
    static char line[LINE];
    static int numbers[THREADS];
    threads = count > 1 ? atoi(words[1]) : 0;
    if (threads < 2 || threads > THREADS)
        stop("how many threads?");
    pthread_barrier_init(&start, NULL, (unsigned)threads);
    pthread_barrier_init(&end, NULL, (unsigned)threads);
    pthread_barrier_init(&barriers[0], NULL, (unsigned)threads);
    pthread_barrier_init(&barriers[1], NULL, (unsigned)threads);
    for (int i = 1; i < threads; i++) {
        pthread_t started;
        numbers[i] = i;
        if (pthread_create(&started, NULL, serve, &numbers[i]) != 0)
            stop("no thread could be started");
    }
    while (fgets(line, sizeof line, stdin)) {
        if (line[0] == 'p') {
            read_paper(line + 1);
            continue;
        }
        read_run(line + 1);
        walk();
        choose();
        pthread_barrier_wait(&start);
        calls[0] = play(0);
        pthread_barrier_wait(&end);
        tell();
    }
    if (fflush(stdout) != 0)
        stop("the results were not written");
    _Exit(0);
}
