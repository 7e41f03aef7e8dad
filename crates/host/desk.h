/* The marking desk for barrier papers, for programs in C.

   A desk is a value: it goes into a call and comes back in the reply, and no call keeps anything. Begin with desk_new
   and go on with the desk of each reply. No call checks a desk: on one that no call made it may answer anything, read
   or write memory that is not its own, stop the program, or not end. Two desks are not to be compared byte by byte:
   what lies beyond the counts in a desk is not told. Calls on different desks may run at the same time.

   `number` is 0, or the number of a refusal; `line` is the line of the text, from 1, or 0 where no text is at fault.
   A refused call leaves the desk as it was, every byte of a lent buffer too, and answers 0.

     1   a line that is not an even, nonzero number of digits 0-9 a-f, then 0a
     2   a kind that is not of this text, or the wrong length for it
     3   a point after a dependence or a barred gap
     4   a point before any DO or after the outermost loop; a dependence, a barred gap, or the end, while a loop is
         open; in an argument a step before any claim, or a claim that leads no step
     5   a 257th point, a loop 9 deep, a 513th dependence, a 256th barred gap; a 4,097th claim, a 1,025th step of one
     6   s, t or d names no point, or one of the wrong sort; Count of a point that is no DO; the number of a dependence
         that is none
     7   an independent dependence with s at or after t; a carried one with a point not inside its loop
     8   a gap that is 0 or not below the number of points; in a text, one not above the gap before
     9   a buffer shorter than what would be written
    10   no nest
    11   no key
    12   Put of a gap that is there, Lift of one that is not
    13   no move to take back
    14   a barred gap in a nest of more than one loop; the textbook method of such a nest; a paper with barred gaps, to
         be joined
    15   Plan, or the textbook method, of a nest in which some dependence has all its gaps barred: it has no key
    16   a barred gap in a placement text, or Put of one
    17   not as many turns as loops, turns out of range, or a nest with barred gaps or loops that may not run
    18   the joint nest would have more than 256 points, more than 512 dependences, or a loop 9 deep
    19   a number of processors or phases out of range, or a slice that is not as long as they say
    20   a set of waits without its own processor, or with one that the sheet does not have
    21   a line of an argument that does not hold, or a placement that is not correct

   A text or a buffer is lent as a pointer and a length in bytes; what a timing sheet lends has its length in numbers.
   Where the length is 0 the pointer is not read, and may be NULL. A buffer does not overlap a text that it is written
   from; two texts may overlap.

   A thread with a stack of 96 KiB has room for every call and for 12 KiB of frames of its own. The library is for
   x86-64, and links against memcpy and memset alone:

     gcc -I crates/host host.c target/staticlib/libhost.a  */
#ifndef DESK_H
#define DESK_H

#include <stdbool.h>
#include <stddef.h>
#include <stdint.h>

#ifdef __cplusplus
extern "C" {
#endif

/* The version of this header. A library with another DESK_MAJOR has other calls or structs. */
enum { DESK_MAJOR = 1, DESK_MINOR = 0, DESK_PATCH = 0 };

/* Limits: points, dependences, barred gaps, the gaps of a placement, the moves that can be taken back. */
enum { DESK_POINTS = 256, DESK_DEPENDENCES = 512, DESK_BARS = 255, DESK_GAPS = 256, DESK_MOVES = 64 };

/* The kinds of points, of dependences, and of barred gaps. In a text 04 is the DO of a loop that may not run. */
enum { DESK_DO = 0x01, DESK_ENDDO = 0x02, DESK_STATEMENT = 0x03, DESK_FLAGGED = 0x04 };
enum { DESK_INDEPENDENT = 0x11, DESK_CARRIED = 0x12, DESK_BARRED = 0x13 };

/* Limits of a timing sheet. */
enum { DESK_PROCESSORS = 16, DESK_PHASES = 64 };

/* What ended the tries for fewer calls: a whole round, or the budget. */
enum { DESK_ROUND = 0, DESK_BUDGET = 1 };

/* The verdicts of a mark. */
enum { DESK_UNCUT = 0, DESK_DEARER = 1, DESK_BEST = 2 };

/* No placement's text is longer: 255 lines of 5 bytes. */
enum { DESK_TEXT = 1275 };

/* No slip is longer. */
enum { DESK_SLIP = 3474 };

/* No argument that desk_argue writes is longer. Those of real papers have some thousand bytes; it tells the length. */
enum { DESK_ARGUMENT = 18337280 };

/* No joint text is longer: 256 points and 512 carried dependences. */
enum { DESK_JOINT = 5376 };

/* A Desk has so many words of 8 bytes, and a DeskPlain: for hosts that only hand them on. */
enum { DESK_WORDS = 449, DESK_PLAIN_WORDS = 362 };

/* From point s to point t, independent or carried by the loop of DO d. */
typedef struct DeskDependence {
    uint8_t kind, d, s, t;
} DeskDependence;

/* The first `count` points, by their kinds, the first `many` dependences, the first `bars` barred gaps, and the DOs of
   the first `flags` loops that may not run, rising; among the points they are DOs. */
typedef struct DeskNest {
    size_t count;
    uint8_t points[DESK_POINTS];
    size_t many;
    DeskDependence deps[DESK_DEPENDENCES];
    size_t bars;
    uint8_t barred[DESK_BARS];
    size_t flags;
    uint8_t flagged[DESK_POINTS];
} DeskNest;

/* A set of gaps, or of loops by their DOs: gap g, or the loop of DO g, is bit g % 64 of word g / 64. */
typedef struct DeskPlacement {
    uint64_t words[DESK_GAPS / 64];
} DeskPlacement;

/* The candidate's barriers, how many of them cut each dependence, and how many dependences none cuts. */
typedef struct DeskSitting {
    DeskPlacement placement;
    uint8_t counts[DESK_DEPENDENCES];
    size_t uncut;
} DeskSitting;

/* A gap put, or lifted. */
typedef struct DeskMove {
    uint8_t gap;
    bool put;
} DeskMove;

/* The latest `many` moves: the latest at `head`, each before it one place lower, and place 0 follows on 63. */
typedef struct DeskMoves {
    DeskMove ring[DESK_MOVES];
    size_t head;
    size_t many;
} DeskMoves;

typedef struct Desk {
    bool loaded;
    DeskNest nest;
    bool planned;
    DeskPlacement key;
    DeskSitting sitting;
    DeskMoves moves;
} Desk;

/* A desk of the kind before sittings. */
typedef struct DeskPlain {
    bool loaded;
    DeskNest nest;
    bool planned;
    DeskPlacement key;
} DeskPlain;

typedef struct DeskReply {
    uint8_t number;
    size_t line;
    Desk desk;
} DeskReply;

typedef struct DeskAnswer {
    uint8_t number;
    size_t line;
    size_t value;
} DeskAnswer;

typedef struct DeskMoved {
    uint8_t number;
    size_t line;
    size_t uncut;
    Desk desk;
} DeskMoved;

/* A set of gaps by the textbook method or of a dependence, of loops by their DOs where loops may not run; empty where
   the call is refused. */
typedef struct DeskChosen {
    uint8_t number;
    size_t line;
    DeskPlacement set;
} DeskChosen;

/* The shape of the nest: by each gap the DO of its loop, by each DO its ENDDO, by each point how many loops it is
   strictly inside; a DO and an ENDDO are not inside their own. Every other place has 0. */
typedef struct DeskShape {
    uint8_t number;
    size_t line;
    uint8_t owners[DESK_POINTS];
    uint8_t ends[DESK_POINTS];
    uint8_t depths[DESK_POINTS];
} DeskShape;

/* The candidate's barriers; by each DO how many of them stand at its loop's own gaps; by each dependence how many of
   them cut it; and how many dependences none cuts. Every other place has 0. */
typedef struct DeskStanding {
    uint8_t number;
    size_t line;
    DeskPlacement placement;
    uint8_t counts[DESK_POINTS];
    uint8_t cuts[DESK_DEPENDENCES];
    size_t uncut;
} DeskStanding;

typedef struct DeskCalls {
    uint8_t number;
    size_t line;
    uint64_t calls;
} DeskCalls;

/* Where the tries lead, with its calls; how many tries were made, and what ended them; the floor. */
typedef struct DeskImproved {
    uint8_t number;
    size_t line;
    DeskPlacement placement;
    uint64_t calls;
    size_t tries;
    uint8_t ended;
    uint64_t floor;
} DeskImproved;

/* When a run ends: with the waits of a sheet, and with all barriers kept. */
typedef struct DeskRunEnds {
    uint8_t number;
    size_t line;
    uint32_t waiting;
    uint32_t barriers;
} DeskRunEnds;

/* `text` is 1 or 2, the text at fault, or 0 for neither; `value` is the length of the joint text. A paper with barred
   gaps is 14 with its text named and line 0: none of its lines is at fault. */
typedef struct DeskJoined {
    uint8_t number;
    uint8_t text;
    size_t line;
    size_t value;
} DeskJoined;

/* `text` is 1 or 2, the text at fault, or 0 for neither; `first`: the first placement is as good or better than the
   second, `second`: the second than the first; `deciding`: the loops, by their DOs, where the counts differ and are the
   same in all the loops inside. */
typedef struct DeskCompared {
    uint8_t number;
    uint8_t text;
    size_t line;
    bool first;
    bool second;
    DeskPlacement deciding;
} DeskCompared;

/* `text` is the text at fault, 1 the placement or 2 the argument, or 0 for neither. Number 0: the argument holds. */
typedef struct DeskWeighed {
    uint8_t number;
    uint8_t text;
    size_t line;
} DeskWeighed;

/* DESK_UNCUT: dependence a, from 0, is the first that is uncut. DESK_DEARER: loop a has b barriers, and c in the key.
   All that is not named is 0. */
typedef struct DeskMark {
    uint8_t number;
    size_t line;
    uint8_t verdict;
    size_t a, b, c;
} DeskMark;

typedef struct DeskVersion {
    size_t major, minor, patch;
} DeskVersion;

/* The version of the library. A host asks first: it goes on only with the DESK_MAJOR that it was compiled with, and
   with a minor number not below DESK_MINOR. */
DeskVersion desk_version(void);

/* A desk with no nest and no key. */
Desk desk_new(void);
Desk desk_reset(Desk desk);

/* Reads a nest text. Accepted, it replaces the nest, and drops key, sitting and moves. Numbers 1 to 8, 14. */
DeskReply desk_load(Desk desk, const uint8_t *text, size_t length);

/* Works out the key: of the correct placements as good as or better than every other, the first. No barrier of a
   correct placement stands at a barred gap. Numbers 10, 15. */
DeskReply desk_plan(Desk desk);

/* The barriers of the key at the own gaps of the loop of DO `point`. Numbers 10, 11, 6. */
DeskAnswer desk_count(Desk desk, size_t point);

/* How a placement text stands beside the key. Numbers 10, 11, then 1, 2, 8, 16 with their line. */
DeskMark desk_mark(Desk desk, const uint8_t *text, size_t length);

/* Writes the key as text from the start of the buffer; the value is the length. Later bytes stay. Numbers 10, 11, 9. */
DeskAnswer desk_write(Desk desk, uint8_t *out, size_t length);

/* Takes extra dependences, four bytes each: kind, d, s, t; in kind 11 the d is not read. The value is the place, from
   1, of the first that the key does not cut, or 0. Numbers 10, 11, then 2, 6, 7 with the place of the first faulty
   record as their line. Bytes left over at the end are number 2, and their place is that after the last record. */
DeskAnswer desk_list(Desk desk, const uint8_t *list, size_t length);

/* Puts a barrier of the candidate at a gap; lifts it; takes the latest of these back, up to 64 in a row. `uncut` is how
   many dependences remain uncut. Numbers 10, 8, 12, 16; 10, 8, 12; 10, 13. */
DeskMoved desk_put(Desk desk, size_t gap);
DeskMoved desk_lift(Desk desk, size_t gap);
DeskMoved desk_take_back(Desk desk);

/* Writes the candidate's barriers as a placement text, as desk_write writes the key. Numbers 10, 9. */
DeskAnswer desk_sitting(Desk desk, uint8_t *out, size_t length);

/* How the sitting stands, all that a page shows of it after a move. Number 10. */
DeskStanding desk_standing(Desk desk);

/* The shape of the nest. Number 10. */
DeskShape desk_shape(Desk desk);

/* All gaps that cut a dependence, which is named by its number, from 0; barred ones too. Numbers 10, 6. */
DeskChosen desk_gaps(Desk desk, size_t dependence);

/* The placement of the textbook method for a nest of one loop: each gap is tried as a first barrier, the line behind it
   is cut greedily, and the smallest result is kept. It has as many barriers as the key. Numbers 10, 14, 15. */
DeskChosen desk_textbook(Desk desk);

/* Slips about a placement text: written as desk_write writes the key, the value is the length. The candidate's shows
   nothing of a key. Numbers 10, then 1, 2, 8, 16 with their line, then 9; the examiner's also 11, after 10. */
DeskAnswer desk_candidate_slip(Desk desk, const uint8_t *text, size_t length, uint8_t *out, size_t room);
DeskAnswer desk_examiner_slip(Desk desk, const uint8_t *text, size_t length, uint8_t *out, size_t room);

/* The loops that need a barrier for their missing run: those that may not run and hold a barrier of the key on which a
   dependence past them relies. Numbers 10, 11. */
DeskChosen desk_missing_runs(Desk desk);

/* The loops on which a placement text relies for a dependence, which is named by its number, from 0: where every
   barrier that cuts it stands in loops that may not run and lie apart from both its ends, those of them that hold one.
   With all of these skipped it is not cut; where there are none, and it is cut, it stays cut whichever loops apart from
   both its ends are skipped. No key is wanted. Numbers 10, then 1, 2, 8, 16 with their line, then 6. */
DeskChosen desk_relied_on(Desk desk, const uint8_t *text, size_t length, size_t dependence);

/* The loops that may not run and have one end alone of a dependence, which is named by its number, from 0: none but of
   a carried dependence with s before t. Where such a loop is skipped in some turns and runs in others, the two calls
   above may not list enough. Numbers 10, 6. */
DeskChosen desk_one_end(Desk desk, size_t dependence);

/* The barrier calls of the key in a run, given a byte of turns for each loop in order of its DO: 1 to 16 for the
   outermost, 2 to 16 for the others. A barrier counts the product of the turns of the loops around it.
   Numbers 10, 11, 17. */
DeskCalls desk_count_calls(Desk desk, const uint8_t *turns, size_t length);

/* The barrier calls of the placement that a text spells, correct or not; no key is wanted. A byte of turns for each
   loop in order of its DO, from 1 to 16. Numbers 10, then 1, 2, 8, 16 with their line, then 17. */
DeskCalls desk_placement_calls(Desk desk, const uint8_t *text, size_t length, const uint8_t *turns, size_t loops);

/* Joins two nest texts and writes a third, as desk_write writes the key: a new outermost loop, in it the first nest and
   then the second. Numbers 1 to 8 and 14 of the first text, then of the second, with their line; then 14, with line 0
   and the first paper with barred gaps as its text; then 18, 9, with line 0 and text 0. */
DeskJoined desk_join(const uint8_t *a, size_t first, const uint8_t *b, size_t second, uint8_t *out, size_t room);

/* Tries for fewer calls than the key's where loops run once: turns as for desk_count_calls, but from 1 for every loop,
   and a budget of tries, none of which is made beyond it. No correct placement has fewer calls than the floor.
   Numbers 10, 11, 17. */
DeskImproved desk_improve(Desk desk, const uint8_t *turns, size_t length, size_t budget);

/* When the run of a timing sheet ends. `durations` has phases times processors numbers, phase by phase, processors
   rising in each; `waits` has as many sets for each phase after the first, the lowest bit for processor 0: of those for
   which a processor waits, itself among them. Numbers 19, 20. */
DeskRunEnds desk_sheet(size_t processors, size_t phases, const uint16_t *durations, size_t works, const uint16_t *waits,
                       size_t sets);

/* Holds two placement texts beside each other, on any nest, with a key or without. Numbers 10, then 1, 2, 8, 16 of the
   first text with their line, then those of the second. */
DeskCompared desk_compare(Desk desk, const uint8_t *a, size_t first, const uint8_t *b, size_t second);

/* Weighs an argument text, which tells why no correct placement is better: against the key, or against a placement
   text, on any nest, with a key or without. Where it holds, the placement is a key. Numbers 10 and 11, of a placement
   10 and then 1, 2, 8, 16 of its text with their line; then 1, 2, 4, 5 of the argument with their line; then 21, with
   text 1 and line 0 where the placement is not correct, else with the first line that does not hold, or the line after
   the last where a claim is missing. */
DeskWeighed desk_weigh(Desk desk, const uint8_t *text, size_t length);
DeskWeighed desk_weigh_placement(Desk desk, const uint8_t *placement, size_t gaps, const uint8_t *text, size_t length);

/* Writes the argument of the key as text, as desk_write writes the key; desk_weigh has no number for it. Numbers 10,
   11, 9; with 9 the value is the length that is wanted. */
DeskAnswer desk_argue(Desk desk, uint8_t *out, size_t length);

/* A desk in use goes over from the kind before sittings: the nest is kept, the sitting is empty, and where there was a
   key it is worked out anew, unless Plan would refuse. `old` has a nest that desk_load accepted, or none (count, many,
   bars and flags 0) and then no key. */
Desk desk_go_over(DeskPlain old);

#ifdef __cplusplus
}
#endif

#endif
