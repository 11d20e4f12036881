/* Ruahmitz: linear Horn clauses as a clause book; its transition system as text, checks of derivations, traces and models, conversions.
 *
 * Every call answers for every input; none relies on an earlier one. A call returns a number, 0 for accepted or written and else the
 * number of the refusal, and writes the refusal's place (or the length written) through its pointer. A refusal leaves a room as it was.
 * The numbers are listed below. No call uses a heap, a global or a file, and each may be made from several threads at once.
 * From outside the archive needs memcpy and memset, and nothing else.
 *
 * What the caller owes: each pointer points to as many elements as the count beside it says, and is not null, also where that count
 * is 0; what is written through (room, place, start, count, clause, values) overlaps nothing else that the call is handed.
 *
 * A goal is a relation and its values, as many as the relation has places.
 */
#ifndef RUAHMITZ_H
#define RUAHMITZ_H

#include <stddef.h>
#include <stdint.h>

#ifdef __cplusplus
extern "C" {
#endif

/* The numbers that come back, and where their place points. */
enum ruahmitz_number {
    RUAHMITZ_ACCEPTED = 0,          /* 0; for text and lists written, the length written */
    RUAHMITZ_BOOK_SIZE = 1,         /* book under 16 or over 60,000 bytes: 0 */
    RUAHMITZ_TRAILER = 2,           /* trailer field against its rule: the trailer's first byte */
    RUAHMITZ_ARITY = 3,             /* arity over 8, or the query's not 0: its byte */
    RUAHMITZ_INDEX = 4,             /* index entry is not where reading stands: the entry; bytes left before the index: the first left */
    RUAHMITZ_NO_RELATION = 5,       /* no such relation: its byte */
    RUAHMITZ_VARIABLE = 6,          /* over 16 variables, or a variable that is not there: its byte */
    RUAHMITZ_CONSTRAINT = 7,        /* kind unknown, node 65, depth 17: the kind; divisor 0: d; remainder not below the divisor: r */
    RUAHMITZ_RECORD = 8,            /* record runs into the index: the index start */
    RUAHMITZ_ROOM = 9,              /* lent room shorter than text or list: the length that is needed */
    RUAHMITZ_GOAL = 10,             /* goal relation absent, or its value count not the arity: 0 */
    RUAHMITZ_LIST_SIZE = 11,        /* list empty or over 1,000,000 numbers: 0 */
    RUAHMITZ_NO_CLAUSE = 12,        /* no such clause: its place in the list */
    RUAHMITZ_LIST_ENDS = 13,        /* list ends inside a state or step: where that begins */
    RUAHMITZ_WINDOW = 14,           /* value outside the window: the value */
    RUAHMITZ_FALSE = 15,            /* constraint false: where the step begins */
    RUAHMITZ_BODY = 16,             /* body not met, or in a derivation a bodiless clause after step one: where the step begins */
    RUAHMITZ_GOAL_MISSED = 17,      /* goal not at the end: the list's length */
    RUAHMITZ_FIRST_FLAG = 18,       /* first state: flag not 0: that number */
    RUAHMITZ_NEXT_STATE = 19,       /* next state is not the one due: the first number that differs */
    RUAHMITZ_TRACE_SIZE = 20,       /* converted trace over 1,000,000 numbers: its length */
    RUAHMITZ_MODEL_CONSTRAINT = 21, /* model constraint as 7: the byte */
    RUAHMITZ_MODEL_SIZE = 22,       /* model ends early: its length; bytes left: the first left */
    RUAHMITZ_QUERY_TRUE = 23,       /* the query's constraint is true: its first byte */
    RUAHMITZ_ASSIGNMENTS = 24,      /* over 1,000,000 assignments in all: 0 */
    RUAHMITZ_BROKEN = 25            /* a broken instance: its count */
};

/* Reads a book of n bytes. */
uint32_t ruahmitz_book(const uint8_t *book, size_t n, uint64_t *place);

/* The constraint of a numbered clause, as a part of the book: returns its length in bytes and writes where it starts.
 * 0 and 0 for a refused book or an absent clause; a constraint that is there has at least one byte. */
size_t ruahmitz_constraint(const uint8_t *book, size_t n, uint64_t clause, uint64_t *start);

/* Prints the transition system into the room, in VMT form. A room of size 0 is a room: the answer is then 9 at the length needed.
 * The text is not closed by a zero byte. */
uint32_t ruahmitz_text(const uint8_t *book, size_t n, uint8_t *room, size_t size, uint64_t *place);

/* Whether the list is a derivation of the goal: clause number and its values, step after step. */
uint32_t ruahmitz_derivation(const uint8_t *book, size_t n, const int32_t *list, size_t count, uint64_t relation,
                             const int32_t *values, size_t value_count, uint64_t *place);

/* Whether the list is a trace that reaches the goal: the first state, then for each step clause number, inputs and the next state. */
uint32_t ruahmitz_trace(const uint8_t *book, size_t n, const int32_t *list, size_t count, uint64_t relation,
                        const int32_t *values, size_t value_count, uint64_t *place);

/* Writes a derivation's trace into the room. The rest of the room stays as it was. */
uint32_t ruahmitz_to_trace(const uint8_t *book, size_t n, const int32_t *list, size_t count, uint64_t relation,
                           const int32_t *values, size_t value_count, int32_t *room, size_t size, uint64_t *place);

/* Writes a trace's derivation into the room. The rest of the room stays as it was. */
uint32_t ruahmitz_to_derivation(const uint8_t *book, size_t n, const int32_t *list, size_t count, uint64_t relation,
                                const int32_t *values, size_t value_count, int32_t *room, size_t size, uint64_t *place);

/* Whether the model, one constraint for each relation, excludes the query. Writes how many assignments were examined, and for
 * number 25 the clause and the values of the first broken instance; in any other reply clause and values are 0. */
uint32_t ruahmitz_model(const uint8_t *book, size_t n, const uint8_t *model, size_t size, uint64_t *place, uint64_t *count,
                        uint64_t *clause, int32_t values[16]);

#ifdef __cplusplus
}
#endif

#endif
