/* How much stack each call takes. The eight calls are made in a thread whose stack was painted before; what is no longer paint was used.
 *
 *   tools/build library
 *   cc -std=c11 -O1 -Wall -Wextra -Werror -pthread -I include tests/stack.c target/staticlib/libkit.a -o target/stack && target/stack
 *
 * The inputs are as demanding as a book allows: 16 relations, clauses of 16 variables with constraints of the greatest depth and numbers
 * of the most digits, and lists of nearly a million numbers. A book with a constraint one too deep is tried as well: its refusal
 * comes from one level further down. A call passes if it answers as expected both times and stays under 64 KiB.
 */
#define _XOPEN_SOURCE 700
#include <pthread.h>
#include <stdio.h>
#include <string.h>

#include "ruahmitz.h"

enum {
    LIMIT = 65536, PAINT = 0xA5, RELATIONS = 16, QUERY = 15, PLACES = 8, VARIABLES = 16, DEPTH = 16, CLAUSES = 64, TRIED_CLAUSES = 2,
    STEP = 1 + VARIABLES, STATE = RELATIONS + QUERY * PLACES, STEPS = 6534
};

static _Alignas(4096) uint8_t stack[1 << 20];
static uint8_t book[60000], tried[60000], model[60000], text[1 << 20];
static size_t book_size, tried_size, model_size;
static int32_t derivation[STEPS * STEP], trace[STATE + STEPS * (STEP + STATE)], room[1000000];
static const int32_t zeros[PLACES];
static uint64_t place;

/* ---- Writing books; each function hands back the end of what it wrote. ---- */

static uint8_t *number(uint8_t *to, int64_t n, int size)
{
    for (int i = 0; i < size; i++)
        *to++ = (uint8_t)((uint64_t)n >> (8 * i));
    return to;
}

static uint8_t *sum(uint8_t *to, int kind, int variables, int coefficient, int32_t constant)
{
    *to++ = (uint8_t)kind;
    for (int i = 0; i < variables; i++)
        to = number(to, coefficient, 2);
    return number(to, constant, 4);
}

/* True where all values are 0: `and` within `and`, the two deepest nodes a remainder and a sum, and the sums of the others behind them. */
static uint8_t *constraint(uint8_t *to, int variables, int depth)
{
    memset(to, 4, (size_t)depth - 1);
    to = sum(to + depth - 1, 6, variables, 32767, INT32_MAX);
    to = number(number(to, 65535, 2), INT32_MAX % 65535, 2);
    for (int i = 1; i < depth; i++)
        to = sum(to, 1, variables, -32768, INT32_MIN);
    return to;
}

static uint8_t *atom(uint8_t *to, int relation)
{
    *to++ = (uint8_t)relation;
    for (int i = 0; i < PLACES; i++)
        *to++ = (uint8_t)(VARIABLES - 1 - i);
    return to;
}

/* Clause 0 has no body; clause k leads from relation k - 1 to relation k, round and round, and the query is left out. */
static size_t write_book(uint8_t *data, int clauses, int depth)
{
    uint8_t *to = data;
    size_t starts[CLAUSES], index;

    memset(to, PLACES, RELATIONS);
    to[QUERY] = 0;
    to += RELATIONS;
    for (int k = 0; k < clauses; k++) {
        starts[k] = (size_t)(to - data);
        *to++ = VARIABLES;
        if (k == 0)
            *to++ = 255;
        else
            to = atom(to, (k - 1) % QUERY);
        to = constraint(atom(to, k % QUERY), VARIABLES, depth);
    }
    index = (size_t)(to - data);
    for (int k = 0; k < clauses; k++)
        to = number(to, (int64_t)starts[k], 2);
    to = number(number(to, 0, 4), 1, 4);
    to = number(number(to, (int64_t)index, 2), clauses, 2);
    *to++ = RELATIONS;
    *to++ = QUERY;
    *to++ = 1;
    *to++ = 0;
    return (size_t)(to - data);
}

static size_t write_model(void)
{
    uint8_t *to = model;

    for (int r = 0; r < QUERY; r++)
        to = constraint(to, PLACES, DEPTH);
    memset(to, 3, DEPTH - 1);       /* an odd number of `not`, then true */
    to += DEPTH - 1;
    *to++ = 0;
    return (size_t)(to - model);
}

/* After clause 0 come the clauses 1 to 60, round and round: 60 is a multiple of the 15 relations that they lead through. */
static int clause_of_step(int step)
{
    return step == 0 ? 0 : 1 + (step - 1) % 60;
}

/* The list calls' arguments up to the goal: the relation that the last step wrote, and its values, which are 0 like all others. */
#define LENGTH(array) (sizeof(array) / sizeof((array)[0]))
#define LIST(list) book, book_size, list, LENGTH(list), (uint64_t)(clause_of_step(STEPS - 1) % QUERY), zeros, PLACES

/* Books and lists for a call. The trace is that of the derivation; a refused book leaves it as it was. */
static void write_inputs(int depth)
{
    book_size = write_book(book, CLAUSES, depth);
    tried_size = write_book(tried, TRIED_CLAUSES, depth);
    model_size = write_model();
    for (int i = 0; i < STEPS; i++)
        derivation[i * STEP] = clause_of_step(i);
    ruahmitz_to_trace(LIST(derivation), trace, LENGTH(trace), &place);
}

/* ---- The calls. Each hands back its number. ---- */

static uint32_t run_book(void)
{
    return ruahmitz_book(book, book_size, &place);
}

static uint32_t run_constraint(void)
{
    return ruahmitz_constraint(book, book_size, CLAUSES - 1, &place) > 0 ? 0 : RUAHMITZ_CONSTRAINT;
}

static uint32_t run_text(void)
{
    return ruahmitz_text(book, book_size, text, sizeof text, &place);
}

static uint32_t run_derivation(void)
{
    return ruahmitz_derivation(LIST(derivation), &place);
}

static uint32_t run_trace(void)
{
    return ruahmitz_trace(LIST(trace), &place);
}

static uint32_t run_to_trace(void)
{
    return ruahmitz_to_trace(LIST(derivation), room, LENGTH(room), &place);
}

static uint32_t run_to_derivation(void)
{
    return ruahmitz_to_derivation(LIST(trace), room, LENGTH(room), &place);
}

static uint32_t run_model(void)
{
    uint64_t count, clause;
    int32_t values[16];

    return ruahmitz_model(tried, tried_size, model, model_size, &place, &count, &clause, values);
}

struct call {
    const char *name;
    uint32_t (*run)(void);
    uint32_t number;
    uintptr_t from;
};

static void *in_thread(void *argument)
{
    struct call *call = argument;
    volatile uint8_t here = 0;

    call->from = (uintptr_t)&here;
    call->number = call->run();
    return NULL;
}

/* The bytes of stack that the call took, from the frame that makes it down to the last byte that is no paint; 0 if no thread started. */
static size_t used(struct call *call)
{
    pthread_attr_t attributes;
    pthread_t thread;
    size_t paint = 0;

    memset(stack, PAINT, sizeof stack);
    pthread_attr_init(&attributes);
    if (pthread_attr_setstack(&attributes, stack, sizeof stack) != 0 || pthread_create(&thread, &attributes, in_thread, call) != 0)
        return 0;
    pthread_join(thread, NULL);
    pthread_attr_destroy(&attributes);
    while (stack[paint] == PAINT)
        paint++;
    return call->from - (uintptr_t)(stack + paint);
}

static int passes(struct call *call)
{
    size_t most = 0;
    int good = 1;

    for (int depth = DEPTH; depth <= DEPTH + 1; depth++) {
        write_inputs(depth);
        size_t bytes = used(call);
        good = good && bytes > 0 && bytes < LIMIT && call->number == (depth == DEPTH ? RUAHMITZ_ACCEPTED : RUAHMITZ_CONSTRAINT);
        if (bytes > most)
            most = bytes;
    }
    printf("%-14s %6zu bytes%s\n", call->name, most, good ? "" : ", failed");
    return good;
}

int main(void)
{
    struct call calls[] = {
        {"book", run_book, 0, 0}, {"constraint", run_constraint, 0, 0}, {"text", run_text, 0, 0},
        {"derivation", run_derivation, 0, 0}, {"trace", run_trace, 0, 0}, {"to_trace", run_to_trace, 0, 0},
        {"to_derivation", run_to_derivation, 0, 0}, {"model", run_model, 0, 0},
    };
    int count = (int)LENGTH(calls), passed = 0;

    for (int i = 0; i < count; i++)
        passed += passes(&calls[i]);
    printf("%d passed, %d failed\n", passed, count - passed);
    return passed != count;
}
