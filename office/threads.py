"""A paper as a program in C: threads run its nest, with a barrier at each gap of a placement. Each dependence is a row
of cells; one thread writes a cell at s, the others read it at t, and there is a fresh one for each time that the
dependence occurs.

An end inside loops that the other end is not in is passed in each of their turns. What is meant is s as it is passed
last, and t as it is passed first after that: in the same turn of the innermost loop around both, or in the next turn of
the loop that carries the dependence. A DO is a source on entering its loop, an ENDDO a target after leaving it.
"""
import json
import textwrap
from collections.abc import Iterable, Iterator

from office.frames import DO, ENDDO
from office.paper import Paper
from office.records import dataclass
from office.words import gaps_named

TURNS, INDENT, WIDE = 2, '    ', 116
# By this a program is known as one.
BEGINS = '/* Written by ./desk program:'
HEAD = '''%(what)s
 *
 * Every thread runs the nest. Each dependence is a row of cells: thread 0 writes one at s, the others read it at t, and
 * there is a fresh cell for each time that the dependence occurs. Point s is meant as it is passed last, t as it is
 * passed first after that: in the same turn of the innermost loop around both, or in the next turn of the loop that
 * carries the dependence. A DO is a source on entering its loop, an ENDDO a target after leaving it.
 *
 *   gcc -pthread paper.c -o paper && ./paper
 *       says which dependences no barrier cuts, and how often a thread calls a barrier
 *   gcc -pthread -g -fsanitize=thread paper.c -o paper && ./paper
 *       lets ThreadSanitizer say which accesses race
 *%(counted)s
 */
#define _POSIX_C_SOURCE 200809L
#include <pthread.h>
#include <stdio.h>
#include <stdlib.h>
#include <string.h>
'''
CONSTANTS = '''
/* How many threads there are, how many turns each loop makes%(flagged)s. */
#ifndef THREADS
#define THREADS 4
#endif
%(constants)s
#define FIRST(loop) (turn_##loop == 0)
#define LAST(loop) (turn_##loop == TURNS_##loop - 1)
'''
FLAGGED = ', and whether one that may not run does (1 or 0)'
CELLS = '''
/* The cells of each dependence: 0 until it is written, then the writer's number of barrier calls and 1. */
%(cells)s

#define DEPENDENCES %(many)d
static const char *const told[DEPENDENCES] = {
%(told)s
};
'''
THREAD = '''
/* A thread: its number, how often it has called a barrier%(kept)s. */
struct thread {
    int number;
    long calls;%(fields)s
};
'''
BARRIER = '''
/* Waits for all threads. There are two barriers, used in turn: no thread comes to one while another has yet to leave
 * it, which ThreadSanitizer would take for an order of what the two did. */
static pthread_barrier_t barriers[2];

static void barrier(struct thread *me)
{
    pthread_barrier_wait(&barriers[me->calls % 2]);
    me->calls++;
}
'''
LOOK = '''
/* Looks at what was read of a dependence. If it was not written yet, or if the writer had called as many barriers as
 * the reader has, no barrier stands between the two, however the threads were timed. */
static void look(struct thread *me, int dependence, long written)
{
    me->met[dependence] = 1;
    if (written == 0 || written > me->calls)
        me->uncut[dependence] = 1;
}
'''
NEST = '''
/* One thread's way through the nest. */
static void nest(struct thread *me)
{
%(body)s
}
'''
MAIN = '''
static void *run(void *me)
{
    nest(me);
    return NULL;
}

/* Ends with a reason where something failed. */
static void must(int fault, const char *what)
{
    if (fault == 0)
        return;
    fprintf(stderr, "%%s: %%s\\n", what, strerror(fault));
    exit(2);
}

int main(void)
{
    static struct thread threads[THREADS];
    static pthread_t started[THREADS];
    int uncut = 0%(absent)s;

%(before)s    for (int i = 0; i < THREADS; i++) {
        threads[i].number = i;
        must(pthread_create(&started[i], NULL, run, &threads[i]), "no thread");
    }
    for (int i = 0; i < THREADS; i++)
        must(pthread_join(started[i], NULL), "a thread was lost");
%(after)s    printf("barrier calls of each thread: %%ld\\n", threads[0].calls);
    if (fflush(stdout) != 0) {
        perror("nothing could be written");
        return 2;
    }
    return uncut > 0;
}
'''
MADE = '''    for (int i = 0; i < 2; i++)
        must(pthread_barrier_init(&barriers[i], NULL, THREADS), "no barrier");
'''
NAMED = '''    for (int k = 0; k < DEPENDENCES; k++) {
        int met = 0, open = 0;
        for (int i = 1; i < THREADS; i++) {
            met += threads[i].met[k];
            open += threads[i].uncut[k];
        }
        if (open)
            printf("dependence %d is not cut: %s\\n", k, told[k]);
        else if (!met)
            printf("dependence %d did not occur: %s\\n", k, told[k]);
        uncut += open > 0;
        absent += !met;
    }
    if (!uncut)
        printf("every dependence%s is cut\\n", absent ? " that occurred" : "");
'''
NONE = '''    printf("the paper has no dependence\\n");
'''


@dataclass(frozen=True)
class Row:
    """The cells of a dependence, by its number: the loops around both its ends, down to the loop that carries it, whose
    turns tell them apart; the loops around s alone and around t alone; the loops that may not run and that s waits
    for; and whether it is carried."""
    number: int
    both: list[int]
    source: list[int]
    target: list[int]
    waits: list[int]
    carried: bool

    @property
    def name(self) -> str:
        return f'dependence_{self.number}'

    def declared(self) -> str:
        return f'static volatile long {self.name}{"".join(f"[TURNS_{k}]" for k in self.both)};'

    def written(self) -> str:
        when = ['writes', *(f'LAST({k})' for k in self.source)]
        place = ''.join(f'[turn_{k}]' for k in self.both)
        return f'if ({" && ".join(when)}) {self.name}{place} = me->calls + 1;'

    def read(self) -> str:
        when = ['reads', *(f'turn_{k} > 0' for k in self.both[-1:] if self.carried),
                *(f'FIRST({k})' for k in self.target), *(f'RUNS_{k}' for k in self.waits)]
        place = ''.join(f'[turn_{k}]' for k in self.both)
        if self.carried:
            place = f'{place[:-1]} - 1]'
        return f'if ({" && ".join(when)}) look(me, {self.number}, {self.name}{place});'


def row_of(paper: Paper, number: int) -> Row:
    """The cells of a dependence."""
    x = paper.dependences[number]
    source, target = around(paper, x.s), around(paper, x.t)
    both = [k for k in source if k in target and (x.d is None or k <= x.d)]
    waits = [k for k in [*source, x.s] if k in paper.flagged and k not in target]
    return Row(number, both, source[len(both):], target[len(both):], waits, x.d is not None)


def around(paper: Paper, point: int) -> list[int]:
    """The loops around a point, the outermost first."""
    return [k for k, end in paper.end.items() if k < point < end]


def body(paper: Paper, rows: list[Row], gaps: Iterable[int], listed: Iterable[int]) -> Iterator[str]:
    """The nest as statements of C, a line each."""
    barriers, substitutes, deep = set(gaps), set(listed), 1
    writes: dict[int, list[str]] = {}
    reads: dict[int, list[str]] = {}
    for row, x in zip(rows, paper.dependences):
        writes.setdefault(x.s, []).append(row.written())
        reads.setdefault(x.t, []).append(row.read())
    if rows:
        yield f'{INDENT}const int writes = me->number == 0, reads = !writes;\n'
    elif not barriers and not substitutes:
        yield f'{INDENT}(void)me;\n'
    for point, kind in enumerate(paper.points):
        lead = INDENT * deep
        if point in barriers:
            yield f'{lead}barrier(me); /* gap {point} */'
        if kind == DO:
            yield f'{lead}/* {point}: DO{", may not run" if point in paper.flagged else ""} */'
            if point in paper.flagged:
                yield f'{lead}if (RUNS_{point}) {{'
                deep, lead = deep + 1, lead + INDENT
            yield from (lead + line for line in writes.get(point, []))
            yield f'{lead}for (int turn_{point} = 0; turn_{point} < TURNS_{point}; turn_{point}++) {{'
            deep += 1
        elif kind == ENDDO:
            loop = paper.owner[point]
            deep, lead = deep - 1, lead[len(INDENT):]
            yield f'{lead}}}'
            yield f'{lead}/* {point}: ENDDO of loop {loop} */'
            yield from (lead + line for line in reads.get(point, []))
            if loop in paper.flagged:
                deep, lead = deep - 1, lead[len(INDENT):]
                if loop in substitutes:
                    yield f'{lead}}} else {{'
                    yield f'{lead}{INDENT}barrier(me); /* for the missing run of loop {loop} */'
                yield f'{lead}}}'
        else:
            yield f'{lead}/* {point}: statement */'
            yield from (lead + line for line in reads.get(point, []) + writes.get(point, []))


def program(title: str, paper: Paper, gaps: list[int], listed: list[int], calls: int | None) -> str:
    """The program of a paper: its title, the gaps of a placement, the loops that need a barrier for their missing run,
    and how many calls the desk counts where each loop makes two turns."""
    rows = [row_of(paper, number) for number in range(len(paper.dependences))]
    constants = [*(f'#define TURNS_{d} {TURNS}' for d in paper.end),
                 *(f'#define RUNS_{d} 1' for d in sorted(paper.flagged))]
    counted = '' if calls is None else (
        f'\n * With {TURNS} turns of each loop the desk counts {calls:,} barrier calls of each thread.')
    what = textwrap.wrap(f'{BEGINS} {title}, with barriers in {gaps_named(gaps)}.', WIDE)
    parts = [HEAD % {'what': '\n * '.join(what), 'counted': counted},
             CONSTANTS % {'flagged': FLAGGED if paper.flagged else '', 'constants': '\n'.join(constants)}]
    if rows:
        told = ',\n'.join(INDENT + json.dumps(paper.told(x)) for x in paper.dependences)
        parts.append(CELLS % {'cells': '\n'.join(row.declared() for row in rows), 'many': len(rows), 'told': told})
    kept, fields = (', which dependences it met, and which it saw uncut',
                    '\n    char met[DEPENDENCES], uncut[DEPENDENCES];') if rows else ('', '')
    parts.append(THREAD % {'kept': kept, 'fields': fields})
    if gaps or listed:
        parts.append(BARRIER)
    if rows:
        parts.append(LOOK)
    parts.append(NEST % {'body': '\n'.join(body(paper, rows, gaps, listed))})
    parts.append(MAIN % {'absent': ', absent = 0' if rows else '', 'before': MADE if gaps or listed else '',
                         'after': NAMED if rows else NONE})
    return ''.join(parts)
