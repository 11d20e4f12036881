/* A remapping slot that still names the core a vCPU has left, checked from C. Book, list and model are those of examples/remap/, which
 * say what each byte is. One line for each call; the exit status is 0 only where every answer is the one expected.
 *
 *   tools/build library     # writes target/staticlib/libkit.a
 *   cc -std=c11 -Wall -Wextra -Werror -I include examples/c/remap.c target/staticlib/libkit.a -o target/remap && target/remap
 */
#include <inttypes.h>
#include <stdio.h>
#include <string.h>

#include "ruahmitz.h"

#define LENGTH(array) (sizeof(array) / sizeof((array)[0]))

enum { STRAY = 2, MOVE_HEAD = 20, UNTOUCHED = -7 };

static const uint8_t late[] = {
    2, 2, 0,                                                /* places of slot, sent and stray */
    1, 255, 0, 0, 0, 2, 1, 0, 0, 0, 0, 0,                   /* 0 start: slot(x0, x0) <- x0 = 0 */
    3, 0, 0, 1, 0, 0, 2, 0,                                 /* 1 move: slot(x0, x2) <- slot(x0, x1) */
    2, 0, 0, 1, 0, 1, 1, 0,                                 /* 2 rewrite: slot(x1, x1) <- slot(x0, x1) */
    2, 0, 0, 1, 1, 0, 1, 0,                                 /* 3 interrupt: sent(x0, x1) <- slot(x0, x1) */
    2, 1, 0, 1, 2, 3, 2, 1, 0, 255, 255, 0, 0, 0, 0,        /* 4 query: stray <- sent(x0, x1), x0 is not x1 */
    3, 0, 15, 0, 23, 0, 31, 0, 39, 0,                       /* index */
    0, 0, 0, 0, 3, 0, 0, 0, 54, 0, 5, 0, 3, STRAY, 1, 0,    /* trailer: window 0..3 */
};
static const int32_t astray[] = {0, 0, 1, 0, 0, 2, 2, 0, 2, 1, 2, 2, 3, 3, 2, 3, 4, 2, 3};      /* remap/late.derivation */
static const uint8_t equal[] = {                                                                /* remap/fixed.model */
    2, 1, 0, 255, 255, 0, 0, 0, 0,
    2, 1, 0, 255, 255, 0, 0, 0, 0,
    3, 0,
};
static const int32_t none[1] = {0};     /* the goal has no values; a pointer is not null all the same */
static int unexpected = 0;

static void expect(const char *what, int good)
{
    if (!good) {
        printf("NOT EXPECTED: %s\n", what);
        unexpected++;
    }
}

/* The line of a call. The place comes by its pointer, so that it is read after the call has written it. */
static void told(const char *call, uint32_t number, const uint64_t *place, uint32_t due, uint64_t due_place)
{
    printf("%-58s %2" PRIu32 " at %" PRIu64 "\n", call, number, *place);
    expect(call, number == due && *place == due_place);
}

static void the_book(void)
{
    static const char last[] = "(define-fun prop () Bool (! (not l2) :invar-property 0))\n";
    static uint8_t room[4096];
    uint8_t broken[sizeof late];
    uint64_t place, start;

    told("late book", ruahmitz_book(late, sizeof late, &place), &place, RUAHMITZ_ACCEPTED, 0);
    memcpy(broken, late, sizeof late);
    broken[MOVE_HEAD] = 3;      /* x3, of three variables */
    told("late book, a head with a variable that is not there",
         ruahmitz_book(broken, sizeof broken, &place), &place, RUAHMITZ_VARIABLE, MOVE_HEAD);

    size_t length = ruahmitz_constraint(late, sizeof late, 4, &start);
    printf("%-58s %zu bytes at %" PRIu64 "\n", "constraint of clause 4", length, start);
    expect("constraint of clause 4", length == 10 && start == 44);

    told("text, no room: the length", ruahmitz_text(late, sizeof late, room, 0, &place), &place, RUAHMITZ_ROOM, 2166);
    if (place <= sizeof room) {
        told("text", ruahmitz_text(late, sizeof late, room, (size_t)place, &place), &place, RUAHMITZ_ACCEPTED, 2166);
        expect("last line of the text", memcmp(room + 2166 - (sizeof last - 1), last, sizeof last - 1) == 0);
    }
}

static void the_lists(const uint8_t *fixed)
{
    int32_t trace[80], back[LENGTH(astray)];
    uint64_t place;
    size_t i;

    told("derivation",
         ruahmitz_derivation(late, sizeof late, astray, LENGTH(astray), STRAY, none, 0, &place), &place, RUAHMITZ_ACCEPTED, 0);
    told("derivation to trace, room of 67",
         ruahmitz_to_trace(late, sizeof late, astray, LENGTH(astray), STRAY, none, 0, trace, 67, &place), &place, RUAHMITZ_ROOM, 68);
    for (i = 0; i < LENGTH(trace); i++)
        trace[i] = UNTOUCHED;
    told("derivation to trace, room of 80",
         ruahmitz_to_trace(late, sizeof late, astray, LENGTH(astray), STRAY, none, 0, trace, LENGTH(trace), &place),
         &place, RUAHMITZ_ACCEPTED, 68);
    for (i = 68; i < LENGTH(trace); i++)
        expect("the rest of the room as it was", trace[i] == UNTOUCHED);
    told("that trace", ruahmitz_trace(late, sizeof late, trace, 68, STRAY, none, 0, &place), &place, RUAHMITZ_ACCEPTED, 0);
    told("trace to derivation",
         ruahmitz_to_derivation(late, sizeof late, trace, 68, STRAY, none, 0, back, LENGTH(back), &place),
         &place, RUAHMITZ_ACCEPTED, LENGTH(astray));
    expect("the derivation it came from", memcmp(back, astray, sizeof astray) == 0);
    told("derivation in the fixed book: body not met at step 2 0 2",
         ruahmitz_derivation(fixed, sizeof late, astray, LENGTH(astray), STRAY, none, 0, &place), &place, RUAHMITZ_BODY, 6);
}

static void the_model(const uint8_t *fixed)
{
    uint64_t place, count, clause;
    int32_t values[16];

    told("model of the fixed book",
         ruahmitz_model(fixed, sizeof late, equal, sizeof equal, &place, &count, &clause, values), &place, RUAHMITZ_ACCEPTED, 0);
    printf("    %" PRIu64 " assignments examined\n", count);
    expect("116 assignments", count == 116);
    told("the same model for the late book",
         ruahmitz_model(late, sizeof late, equal, sizeof equal, &place, &count, &clause, values), &place, RUAHMITZ_BROKEN, 6);
    printf("    broken by clause %" PRIu64 " with %" PRId32 " %" PRId32 " %" PRId32 "\n", clause, values[0], values[1], values[2]);
    expect("the first move", count == 6 && clause == 1 && values[0] == 0 && values[1] == 0 && values[2] == 1);
}

int main(void)
{
    uint8_t fixed[sizeof late];

    memcpy(fixed, late, sizeof late);
    fixed[MOVE_HEAD] = 2;       /* the move's head is slot(x2, x2): the slot is rewritten in the move */
    the_book();
    the_lists(fixed);
    the_model(fixed);
    return unexpected != 0;
}
