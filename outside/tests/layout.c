/* The header beside the archive: sizes and offsets of every struct, and that the archive writes each struct that it
   gives to its last byte and no further. Every field is then read once after a call that sets it.
     gcc -std=c11 -I crates/host outside/tests/layout.c target/staticlib/libhost.a -o target/layout && target/layout */
#include "desk.h"
#include <stdio.h>
#include <string.h>

#define AT(type, field, offset, size)                                                                                 \
    _Static_assert(offsetof(type, field) == offset && sizeof(((type *)0)->field) == size, #type "." #field)
#define SIZE(type, size) _Static_assert(sizeof(type) == size && _Alignof(type) <= 8, #type)

SIZE(DeskDependence, 4);
AT(DeskDependence, kind, 0, 1);
AT(DeskDependence, d, 1, 1);
AT(DeskDependence, s, 2, 1);
AT(DeskDependence, t, 3, 1);
SIZE(DeskNest, 2848);
AT(DeskNest, count, 0, 8);
AT(DeskNest, points, 8, 256);
AT(DeskNest, many, 264, 8);
AT(DeskNest, deps, 272, 2048);
AT(DeskNest, bars, 2320, 8);
AT(DeskNest, barred, 2328, 255);
AT(DeskNest, flags, 2584, 8);
AT(DeskNest, flagged, 2592, 256);
SIZE(DeskPlacement, 32);
AT(DeskPlacement, words, 0, 32);
SIZE(DeskSitting, 552);
AT(DeskSitting, placement, 0, 32);
AT(DeskSitting, counts, 32, 512);
AT(DeskSitting, uncut, 544, 8);
SIZE(DeskMove, 2);
AT(DeskMove, gap, 0, 1);
AT(DeskMove, put, 1, 1);
SIZE(DeskMoves, 144);
AT(DeskMoves, ring, 0, 128);
AT(DeskMoves, head, 128, 8);
AT(DeskMoves, many, 136, 8);
SIZE(Desk, 8 * DESK_WORDS);
AT(Desk, loaded, 0, 1);
AT(Desk, nest, 8, 2848);
AT(Desk, planned, 2856, 1);
AT(Desk, key, 2864, 32);
AT(Desk, sitting, 2896, 552);
AT(Desk, moves, 3448, 144);
SIZE(DeskPlain, 8 * DESK_PLAIN_WORDS);
AT(DeskPlain, loaded, 0, 1);
AT(DeskPlain, nest, 8, 2848);
AT(DeskPlain, planned, 2856, 1);
AT(DeskPlain, key, 2864, 32);
SIZE(DeskReply, 3608);
AT(DeskReply, number, 0, 1);
AT(DeskReply, line, 8, 8);
AT(DeskReply, desk, 16, 3592);
SIZE(DeskAnswer, 24);
AT(DeskAnswer, number, 0, 1);
AT(DeskAnswer, line, 8, 8);
AT(DeskAnswer, value, 16, 8);
SIZE(DeskMoved, 3616);
AT(DeskMoved, number, 0, 1);
AT(DeskMoved, line, 8, 8);
AT(DeskMoved, uncut, 16, 8);
AT(DeskMoved, desk, 24, 3592);
SIZE(DeskMark, 48);
AT(DeskMark, number, 0, 1);
AT(DeskMark, line, 8, 8);
AT(DeskMark, verdict, 16, 1);
AT(DeskMark, a, 24, 8);
AT(DeskMark, b, 32, 8);
AT(DeskMark, c, 40, 8);
SIZE(DeskWeighed, 16);
AT(DeskWeighed, number, 0, 1);
AT(DeskWeighed, text, 1, 1);
AT(DeskWeighed, line, 8, 8);
SIZE(DeskCompared, 56);
AT(DeskCompared, number, 0, 1);
AT(DeskCompared, text, 1, 1);
AT(DeskCompared, line, 8, 8);
AT(DeskCompared, first, 16, 1);
AT(DeskCompared, second, 17, 1);
AT(DeskCompared, deciding, 24, 32);
SIZE(DeskChosen, 48);
AT(DeskChosen, number, 0, 1);
AT(DeskChosen, line, 8, 8);
AT(DeskChosen, set, 16, 32);

SIZE(DeskShape, 784);
AT(DeskShape, number, 0, 1);
AT(DeskShape, line, 8, 8);
AT(DeskShape, owners, 16, 256);
AT(DeskShape, ends, 272, 256);
AT(DeskShape, depths, 528, 256);
SIZE(DeskStanding, 824);
AT(DeskStanding, number, 0, 1);
AT(DeskStanding, line, 8, 8);
AT(DeskStanding, placement, 16, 32);
AT(DeskStanding, counts, 48, 256);
AT(DeskStanding, cuts, 304, 512);
AT(DeskStanding, uncut, 816, 8);

SIZE(DeskCalls, 24);
AT(DeskCalls, number, 0, 1);
AT(DeskCalls, line, 8, 8);
AT(DeskCalls, calls, 16, 8);

SIZE(DeskImproved, 80);
AT(DeskImproved, number, 0, 1);
AT(DeskImproved, line, 8, 8);
AT(DeskImproved, placement, 16, 32);
AT(DeskImproved, calls, 48, 8);
AT(DeskImproved, tries, 56, 8);
AT(DeskImproved, ended, 64, 1);
AT(DeskImproved, floor, 72, 8);
SIZE(DeskRunEnds, 24);
AT(DeskRunEnds, number, 0, 1);
AT(DeskRunEnds, line, 8, 8);
AT(DeskRunEnds, waiting, 16, 4);
AT(DeskRunEnds, barriers, 20, 4);
SIZE(DeskVersion, 24);
AT(DeskVersion, major, 0, 8);
AT(DeskVersion, minor, 8, 8);
AT(DeskVersion, patch, 16, 8);
SIZE(DeskJoined, 24);
AT(DeskJoined, number, 0, 1);
AT(DeskJoined, text, 1, 1);
AT(DeskJoined, line, 8, 8);
AT(DeskJoined, value, 16, 8);

static int passed, failed;

static void that(const char *what, bool holds) {
    if (holds) {
        passed++;
    } else {
        failed++;
        printf("does not hold: %s\n", what);
    }
}

/* A struct of more than 16 bytes is given through a pointer, the first argument. Called so, with other bytes in the
   room each time, the archive must set the struct's last byte and leave the byte behind it. */
static uint8_t room[4096], lent[4096];

static void given(const char *what, size_t size, uint8_t filled) {
    that(what, room[size - 1] != filled && room[size] == filled && room[sizeof room - 1] == filled);
}

#define GIVES(type, call, size, ...)                                                                                  \
    for (int fill = 0xa5; fill <= 0xa6; fill++) {                                                                     \
        type *into = (type *)call;                                                                                    \
        memset(room, fill, sizeof room);                                                                              \
        into(__VA_ARGS__);                                                                                            \
        given(#call, size, (uint8_t)fill);                                                                            \
    }

static const uint8_t P[] = "01\n01\n03\n03\n03\n03\n02\n01\n03\n03\n03\n03\n02\n02\n"
                           "110205\n12010403\n11080b\n12070a09\n12000a02\n110409\n";

static const uint8_t FOUNDATION[] = "01\n03\n03\n03\n03\n03\n02\n12000503\n12000401\n110005\n1301\n1302\n1304\n";

static const uint8_t ONCE[] = "01\n03\n01\n03\n03\n03\n02\n03\n02\n110104\n110307\n";

static const uint16_t WORK[] = {5, 1, 1, 5}, WAITS[] = {1, 2};

static const uint8_t SKIPPING[] = "01\n03\n04\n03\n02\n03\n02\n12020303\n110105\n";

typedef void *Fresh(void *);
typedef void *OnDesk(void *, Desk);
typedef void *OnText(void *, Desk, const uint8_t *, size_t);
typedef void *OnRoom(void *, Desk, uint8_t *, size_t);
typedef void *OnNumber(void *, Desk, size_t);
typedef void *OnPlain(void *, DeskPlain);
typedef void *OnTurns(void *, Desk, const uint8_t *, size_t, size_t);
typedef void *OnTwo(void *, Desk, const uint8_t *, size_t, const uint8_t *, size_t);
typedef void *OnSheet(void *, size_t, size_t, const uint16_t *, size_t, const uint16_t *, size_t);
typedef void *OnTexts(void *, const uint8_t *, size_t, const uint8_t *, size_t, uint8_t *, size_t);
typedef void *OnBoth(void *, Desk, const uint8_t *, size_t, uint8_t *, size_t);

/* A DeskWeighed of 16 bytes is given in registers, and no memory is written: weighing() reads its fields. */
static void sizes(Desk desk, DeskPlain plain) {
    GIVES(Fresh, desk_version, sizeof(DeskVersion), room);
    GIVES(Fresh, desk_new, sizeof(Desk), room);
    GIVES(OnDesk, desk_reset, sizeof(Desk), room, desk);
    GIVES(OnText, desk_load, sizeof(DeskReply), room, desk, P, sizeof P - 1);
    GIVES(OnDesk, desk_plan, sizeof(DeskReply), room, desk);
    GIVES(OnNumber, desk_count, sizeof(DeskAnswer), room, desk, 0);
    GIVES(OnText, desk_mark, sizeof(DeskMark), room, desk, P, 0);
    GIVES(OnText, desk_list, sizeof(DeskAnswer), room, desk, P, 0);
    GIVES(OnNumber, desk_put, sizeof(DeskMoved), room, desk, 5);
    GIVES(OnNumber, desk_lift, sizeof(DeskMoved), room, desk, 5);
    GIVES(OnDesk, desk_take_back, sizeof(DeskMoved), room, desk);
    GIVES(OnPlain, desk_go_over, sizeof(Desk), room, plain);
    GIVES(OnDesk, desk_textbook, sizeof(DeskChosen), room, desk);
    GIVES(OnDesk, desk_shape, sizeof(DeskShape), room, desk);
    GIVES(OnDesk, desk_standing, sizeof(DeskStanding), room, desk);
    GIVES(OnNumber, desk_gaps, sizeof(DeskChosen), room, desk, 5);
    GIVES(OnDesk, desk_missing_runs, sizeof(DeskChosen), room, desk);
    GIVES(OnTurns, desk_relied_on, sizeof(DeskChosen), room, desk, P, 0, 5);
    GIVES(OnNumber, desk_one_end, sizeof(DeskChosen), room, desk, 5);
    GIVES(OnText, desk_count_calls, sizeof(DeskCalls), room, desk, P, 0);
    GIVES(OnTwo, desk_placement_calls, sizeof(DeskCalls), room, desk, P, 0, P, 0);
    GIVES(OnTwo, desk_compare, sizeof(DeskCompared), room, desk, P, 0, P, 0);
    GIVES(OnRoom, desk_argue, sizeof(DeskAnswer), room, desk, lent, sizeof lent);
    GIVES(OnTurns, desk_improve, sizeof(DeskImproved), room, desk, P, 0, 10);
    GIVES(OnSheet, desk_sheet, sizeof(DeskRunEnds), room, 2, 2, WORK, 4, WAITS, 2);
    GIVES(OnTexts, desk_join, sizeof(DeskJoined), room, P, 0, P, 0, lent, sizeof lent);
    GIVES(OnBoth, desk_candidate_slip, sizeof(DeskAnswer), room, desk, P, 0, lent, sizeof lent);
    GIVES(OnBoth, desk_examiner_slip, sizeof(DeskAnswer), room, desk, P, 0, lent, sizeof lent);
}

static void fields(Desk desk) {
    DeskDependence last = desk.nest.deps[5];
    that("loaded, not planned", desk.loaded && !desk.planned);
    that("points", desk.nest.count == 14 && desk.nest.points[0] == DESK_DO && desk.nest.points[13] == DESK_ENDDO);
    that("dependences", desk.nest.many == 6 && last.kind == DESK_INDEPENDENT && last.d == 0);
    that("source and target", last.s == 4 && last.t == 9);
    desk = desk_plan(desk).desk;
    that("planned, key", desk.planned && desk.key.words[0] == (1u << 5 | 1u << 11) && desk.key.words[3] == 0);
    DeskMoved moved = desk_put(desk, 5);
    desk = moved.desk;
    that("uncut", moved.number == 0 && moved.uncut == 3 && desk.sitting.uncut == 3);
    that("sitting", desk.sitting.placement.words[0] == 1u << 5);
    that("counts", desk.sitting.counts[0] == 1 && desk.sitting.counts[2] == 0);
    DeskMove latest = desk.moves.ring[desk.moves.head];
    that("moves", desk.moves.many == 1 && latest.gap == 5 && latest.put);
    DeskMark mark = desk_mark(desk, (const uint8_t *)"2105\n210a\n210b\n", 15);
    that("Dearer", mark.number == 0 && mark.verdict == DESK_DEARER && mark.a == 7 && mark.b == 2 && mark.c == 1);
    DeskAnswer slip = desk_candidate_slip(desk, (const uint8_t *)"2103\n2109\n", 10, lent, 28);
    that("slip", slip.value == 28 && memcmp(lent, "230004\n220000\n220101\n220701\n", 28) == 0);
    slip = desk_examiner_slip(desk, (const uint8_t *)"2105\n210b\n", 10, lent, sizeof lent);
    that("examiner's slip", slip.value == 69 && memcmp(lent + 28, "2402000000\n2505\n", 16) == 0);
    DeskCompared both = desk_compare(desk, (const uint8_t *)"2105\n210b\n", 10, (const uint8_t *)"2103\n210b\n210d\n", 15);
    that("the key is better", both.number == 0 && both.first && !both.second);
    that("loop 0 decides", both.deciding.words[0] == 1 && both.deciding.words[3] == 0);
    both = desk_compare(desk, (const uint8_t *)"2105\n", 5, (const uint8_t *)"2105\n2105\n", 10);
    that("the second text refused", both.number == 8 && both.text == 2 && both.line == 2 && !both.first && !both.second);
    DeskCalls calls = desk_count_calls(desk, (const uint8_t[]){2, 3, 5}, 3);
    that("calls", calls.number == 0 && calls.line == 0 && calls.calls == 16);
    that("calls refused", desk_count_calls(desk, (const uint8_t[]){2, 3, 1}, 3).number == 17);
    calls = desk_placement_calls(desk, (const uint8_t *)"2103\n210d\n", 10, (const uint8_t[]){2, 3, 1}, 3);
    that("a placement's calls", calls.number == 0 && calls.line == 0 && calls.calls == 8);
    calls = desk_placement_calls(desk, (const uint8_t *)"2103\n210e\n", 10, (const uint8_t[]){2, 3, 1}, 3);
    that("no placement", calls.number == 8 && calls.line == 2 && calls.calls == 0);
    DeskReply refused = desk_load(desk, (const uint8_t *)"01\n", 3);
    that("refused", refused.number == 4 && refused.line == 2);
    that("nest kept", memcmp(&refused.desk.nest, &desk.nest, sizeof desk.nest) == 0);
    DeskAnswer listed = desk_list(desk, (const uint8_t[]){DESK_INDEPENDENT, 0, 2, 5, DESK_CARRIED}, 5);
    that("list", listed.number == 2 && listed.line == 2 && listed.value == 0);
}

/* P is loop 0 with the loops 1 to 6 and 7 to 12 in it. */
static void told(Desk desk) {
    DeskShape shape = desk_shape(desk);
    that("shape", shape.number == 0 && shape.line == 0);
    that("owners", shape.owners[0] == 0 && shape.owners[1] == 0 && shape.owners[12] == 7 && shape.owners[14] == 0);
    that("ends", shape.ends[0] == 13 && shape.ends[1] == 6 && shape.ends[7] == 12 && shape.ends[2] == 0);
    that("depths", shape.depths[0] == 0 && shape.depths[8] == 2 && shape.depths[12] == 1 && shape.depths[13] == 0);
    DeskStanding now = desk_standing(desk_put(desk_put(desk, 5).desk, 13).desk);
    that("standing", now.number == 0 && now.line == 0 && now.placement.words[0] == (1u << 5 | 1u << 13));
    that("counts of loops", now.counts[0] == 1 && now.counts[1] == 1 && now.counts[7] == 0 && now.counts[255] == 0);
    that("cuts", now.cuts[0] == 1 && now.cuts[2] == 0 && now.cuts[4] == 1 && now.cuts[511] == 0 && now.uncut == 2);
    DeskChosen gaps = desk_gaps(desk, 4);
    that("gaps", gaps.number == 0 && gaps.line == 0 && gaps.set.words[0] == 0x3806 && gaps.set.words[3] == 0);
    that("no dependence", desk_gaps(desk, 6).number == 6 && desk_gaps(desk, SIZE_MAX).number == 6);
    desk = desk_reset(desk);
    that("no nest", desk_shape(desk).number == 10 && desk_standing(desk).number == 10);
    that("no nest, no gaps", desk_gaps(desk, 0).number == 10);
}

static void barred(Desk desk) {
    const uint8_t *gaps = desk.nest.barred;
    that("bars", desk.nest.bars == 3 && desk.nest.many == 3 && desk.nest.count == 7);
    that("barred gaps", gaps[0] == 1 && gaps[1] == 2 && gaps[2] == 4 && gaps[3] == 0 && gaps[254] == 0);
    desk = desk_plan(desk).desk;
    that("key beside barred gaps", desk.planned && desk.key.words[0] == (1u << 3 | 1u << 5));
    that("Put of a barred gap", desk_put(desk, 4).number == 16);
    DeskChosen chosen = desk_textbook(desk);
    that("textbook", chosen.number == 0 && chosen.set.words[0] == (1u << 3 | 1u << 6) && chosen.set.words[3] == 0);
    DeskPlain plain = {.loaded = true, .nest = desk.nest, .planned = true};
    desk = desk_go_over(plain);
    that("gone over", desk.planned && desk.nest.bars == 3 && desk.key.words[0] == (1u << 3 | 1u << 5));
}

static void skipping(Desk desk) {
    const uint8_t *flagged = desk.nest.flagged;
    that("flags", desk.nest.flags == 1 && flagged[0] == 2 && flagged[1] == 0 && flagged[255] == 0);
    that("a flagged DO is a DO", desk.nest.points[2] == DESK_DO && desk.nest.bars == 0);
    that("no key, no list", desk_missing_runs(desk).number == 11);
    desk = desk_plan(desk).desk;
    DeskChosen listed = desk_missing_runs(desk);
    that("missing runs", listed.number == 0 && listed.set.words[0] == 1u << 2 && listed.set.words[3] == 0);
    listed = desk_relied_on(desk, (const uint8_t *)"2103\n", 5, 1);
    that("relied on", listed.number == 0 && listed.set.words[0] == 1u << 2 && listed.set.words[3] == 0);
    listed = desk_relied_on(desk, (const uint8_t *)"2103\n2103\n", 10, 1);
    that("relied on refused", listed.number == 8 && listed.line == 2 && listed.set.words[0] == 0);
    that("one end", desk_one_end(desk, 1).number == 0 && desk_one_end(desk, 2).number == 6);
    DeskPlain plain = {.loaded = true, .nest = desk.nest, .planned = true};
    desk = desk_go_over(plain);
    that("gone over with flags", desk.planned && desk.nest.flags == 1 && desk.key.words[0] == 1u << 3);
}

static void improving(Desk desk) {
    DeskImproved found = desk_improve(desk, (const uint8_t[]){1, 1}, 2, 10);
    that("improved", found.number == 0 && found.line == 0 && found.placement.words[0] == 1u << 4 && found.calls == 1);
    that("tries", found.tries == 10 && found.ended == DESK_ROUND && found.floor == 1);
    found = desk_improve(desk, (const uint8_t[]){1, 1}, 2, 9);
    that("the budget ended it", found.tries == 9 && found.ended == DESK_BUDGET && found.calls == 1);
    that("17 turns", desk_improve(desk, (const uint8_t[]){1, 17}, 2, 9).number == 17);
}

static void versions(void) {
    DeskVersion version = desk_version();
    that("version", version.major == DESK_MAJOR && version.minor == DESK_MINOR && version.patch == DESK_PATCH);
}

static void sheets(void) {
    DeskRunEnds ends = desk_sheet(2, 2, WORK, 4, WAITS, 2);
    that("ends", ends.number == 0 && ends.line == 0 && ends.waiting == 6 && ends.barriers == 10);
    that("a slice too short", desk_sheet(2, 2, WORK, 4, WAITS, 1).number == 19);
    that("a set without its own", desk_sheet(2, 2, WORK, 4, WORK, 2).number == 20);
}

static void joining(void) {
    const uint8_t *one = (const uint8_t *)"01\n03\n02\n12000101\n", *two = (const uint8_t *)"04\n02\n";
    memset(lent, 7, sizeof lent);
    DeskJoined joined = desk_join(one, 18, two, 6, lent, sizeof lent);
    that("joined", joined.number == 0 && joined.text == 0 && joined.line == 0 && joined.value == 30);
    that("the joint text", memcmp(lent, "01\n01\n03\n02\n04\n02\n02\n12010202\n\a", 31) == 0);
    joined = desk_join(one, 18, two, 3, lent, sizeof lent);
    that("the second text", joined.number == 4 && joined.text == 2 && joined.line == 2 && joined.value == 0);
    const uint8_t *bars = (const uint8_t *)"01\n02\n1301\n", *loops = (const uint8_t *)"01\n01\n02\n02\n1301\n";
    joined = desk_join(one, 18, bars, 11, lent, sizeof lent);
    that("the second paper has barred gaps", joined.number == 14 && joined.text == 2 && joined.line == 0);
    joined = desk_join(bars, 11, bars, 11, lent, sizeof lent);
    that("both have, the first is named", joined.number == 14 && joined.text == 1 && joined.line == 0);
    joined = desk_join(one, 18, loops, 17, lent, sizeof lent);
    that("a line at fault has its number", joined.number == 14 && joined.text == 2 && joined.line == 5);
    that("a line before a paper", desk_join(bars, 11, loops, 17, lent, sizeof lent).line == 5);
}

/* P's argument: dependence 0 wants a barrier of loop 1, dependence 2 one of loop 7. */
static void weighing(Desk desk) {
    const uint8_t *argument = (const uint8_t *)"31010000\n330000\n31070000\n330002\n";
    const uint8_t *key = (const uint8_t *)"2105\n210b\n", *dearer = (const uint8_t *)"2103\n2109\n210d\n";
    DeskWeighed held = desk_weigh(desk_plan(desk).desk, argument, 32);
    that("holds", held.number == 0 && held.text == 0 && held.line == 0);
    held = desk_weigh_placement(desk, key, 10, argument, 32);
    that("holds of a placement", held.number == 0 && held.text == 0 && held.line == 0);
    held = desk_weigh_placement(desk, dearer, 15, argument, 32);
    that("a claim is missing", held.number == 21 && held.text == 2 && held.line == 5);
    held = desk_weigh_placement(desk, dearer, 10, argument, 32);
    that("not correct", held.number == 21 && held.text == 1 && held.line == 0);
    held = desk_weigh_placement(desk, dearer, 14, argument, 32);
    that("no placement text", held.number == 1 && held.text == 1 && held.line == 3);
    held = desk_weigh_placement(desk, key, 10, argument + 9, 7);
    that("a step before any claim", held.number == 4 && held.text == 2 && held.line == 1);
}

/* The argument that the library gives is one that it weighs; the bytes behind it stay. */
static void arguing(Desk desk) {
    Desk planned = desk_plan(desk).desk;
    memset(lent, 7, sizeof lent);
    that("no key, no argument", desk_argue(desk, lent, sizeof lent).number == 11 && lent[0] == 7);
    DeskAnswer wanted = desk_argue(planned, lent, 0);
    that("the length wanted", wanted.number == 9 && wanted.line == 0);
    that("no longer than any", wanted.value > 0 && wanted.value <= DESK_ARGUMENT);
    DeskAnswer short_of_one = desk_argue(planned, lent, wanted.value - 1);
    that("a byte too short", short_of_one.number == 9 && short_of_one.value == wanted.value && lent[0] == 7);
    DeskAnswer argued = desk_argue(planned, lent, wanted.value);
    that("argued", argued.number == 0 && argued.line == 0 && argued.value == wanted.value && lent[argued.value] == 7);
    that("its own argument holds", desk_weigh(planned, lent, argued.value).number == 0);
}

/* Where a length is 0 the pointer is not read: NULL in every place of every call, a desk with a key and one without. */
static void empty(Desk desk) {
    Desk planned = desk_plan(desk).desk;
    that("load", desk_load(desk, NULL, 0).number == 0);
    that("mark", desk_mark(desk, NULL, 0).number == 11 && desk_mark(planned, NULL, 0).verdict == DESK_UNCUT);
    that("write", desk_write(desk, NULL, 0).number == 11 && desk_write(planned, NULL, 0).number == 9);
    that("list", desk_list(desk, NULL, 0).number == 11 && desk_list(planned, NULL, 0).number == 0);
    that("sitting", desk_sitting(desk, NULL, 0).number == 0 && desk_sitting(desk, NULL, 0).value == 0);
    that("sitting, too short", desk_sitting(desk_put(desk, 5).desk, NULL, 0).number == 9);
    that("candidate's slip", desk_candidate_slip(desk, NULL, 0, NULL, 0).number == 9);
    that("candidate's slip, written", desk_candidate_slip(desk, NULL, 0, lent, 28).value == 28);
    that("examiner's slip", desk_examiner_slip(planned, NULL, 0, NULL, 0).number == 9);
    that("compare", desk_compare(desk, NULL, 0, NULL, 0).number == 0 && desk_compare(desk, NULL, 0, NULL, 0).first);
    that("weigh", desk_weigh(desk, NULL, 0).number == 11 && desk_weigh(planned, NULL, 0).line == 1);
    that("weigh a placement", desk_weigh_placement(desk, NULL, 0, NULL, 0).number == 21);
    that("argue", desk_argue(desk, NULL, 0).number == 11 && desk_argue(planned, NULL, 0).number == 9);
    that("count calls", desk_count_calls(planned, NULL, 0).number == 17);
    that("placement calls", desk_placement_calls(desk, NULL, 0, NULL, 0).number == 17);
    that("improve", desk_improve(planned, NULL, 0, 10).number == 17);
    that("join", desk_join(NULL, 0, NULL, 0, NULL, 0).number == 9);
    that("join, written", desk_join(NULL, 0, NULL, 0, lent, sizeof lent).value == 18);
    that("sheet", desk_sheet(2, 2, NULL, 0, NULL, 0).number == 19);
    that("sheet of one phase", desk_sheet(1, 1, WORK, 1, NULL, 0).waiting == 5);
}

/* Two texts may overlap: the same one twice, and one that is the end of the other. */
static void overlapping(Desk desk) {
    const uint8_t *both = (const uint8_t *)"2105\n210b\n";
    DeskCompared same = desk_compare(desk, both, 10, both, 10), less = desk_compare(desk, both, 10, both + 5, 5);
    that("a text beside itself", same.number == 0 && same.first && same.second && same.deciding.words[0] == 0);
    that("a text beside its end", less.number == 0 && !less.first && less.second);
    DeskJoined twice = desk_join(P, sizeof P - 1, P, sizeof P - 1, lent, sizeof lent);
    that("a paper with itself", twice.number == 0 && desk_load(desk, lent, twice.value).number == 0);
}

int main(void) {
    Desk desk = desk_load(desk_new(), P, sizeof P - 1).desk;
    DeskPlain plain = {.loaded = true, .nest = desk.nest, .planned = true};
    sizes(desk, plain);
    fields(desk);
    told(desk);
    weighing(desk);
    arguing(desk);
    empty(desk);
    overlapping(desk);
    barred(desk_load(desk, FOUNDATION, sizeof FOUNDATION - 1).desk);
    skipping(desk_load(desk, SKIPPING, sizeof SKIPPING - 1).desk);
    improving(desk_plan(desk_load(desk, ONCE, sizeof ONCE - 1).desk).desk);
    joining();
    versions();
    sheets();
    printf("%d passed, %d failed\n", passed, failed);
    return failed != 0;
}
