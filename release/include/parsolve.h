/* parsolve: parity games solved and checked in memory, by code whose answers are proved from the numbers that it reads to the numbers
 * that it writes. docs/library.md shows a program, and docs/promises.md says what is proved.
 *
 * You pass a game in compressed sparse rows. It has a vertex for each priority; vertices count from 0. owners[v] is 0 (Even) or 1 (Odd), and
 * the successors of v are successors[starts[v]] to successors[starts[v + 1] - 1], in any order; a repeated one counts once. So `starts` has
 * one more number than `priorities`. Each vertex has a successor. Even wins a play if the greatest recurring priority is even.
 *
 * The caller must ensure the following, which nothing checks:
 * - each pointer points to as many numbers as its length says, is aligned for their type, and isn't null, even if the length is 0;
 * - memory that a call writes (through pointers that aren't const) overlaps no other argument; memory that it only reads may overlap;
 * - no other thread writes the arguments, or reads the outputs, while the call runs;
 * - malloc, realloc and free belong to one allocator, as those of the C library do.
 * You need not initialise memory that a call only writes. Calls share nothing and keep nothing, so any number of threads may call at once.
 * Don't call from signal handlers, or from the forked child of a process with threads. A call takes up to 24 kB of stack, however large the
 * game is. It can't be interrupted: a program that handles signals between calls, as Python does, handles them when the call returns. */
#ifndef PARSOLVE_H
#define PARSOLVE_H
#include <stddef.h>
#include <stdint.h>
#ifdef __cplusplus
extern "C" {
#endif

/* The version of this header, and of the library that came with it. */
#define PARSOLVE_VERSION "0.2.0"

/* The codes that calls return. Those from PARSOLVE_LENGTHS to PARSOLVE_SUCCESSOR are faults of a game. A call returns the first one: it looks
 * at the lengths, then at one vertex after the other, and for each vertex at its priority, its owner and its successors. */
enum {
    PARSOLVE_OK = 0,
    PARSOLVE_OUT_OF_MEMORY = 1,
    PARSOLVE_LENGTHS = 2,           /* not one owner for each priority, or not one more start */
    PARSOLVE_NO_VERTEX = 3,         /* no priority */
    PARSOLVE_TOO_MANY_VERTICES = 4, /* over 1,048,576 priorities */
    PARSOLVE_TOO_MANY_EDGES = 5,    /* over 8,388,608 successors */
    PARSOLVE_PRIORITY = 6,          /* over 65,535 */
    PARSOLVE_OWNER = 7,             /* neither 0 nor 1 */
    PARSOLVE_START = 8,             /* a start greater than the next, or a next start past the successors */
    PARSOLVE_NO_SUCCESSOR = 9,      /* a start equal to the next */
    PARSOLVE_SUCCESSOR = 10,        /* a successor that isn't a vertex */
    PARSOLVE_SOLUTION_LENGTHS = 11, /* winners or strategy don't have one number for each vertex */
    PARSOLVE_WINNER = 12,           /* a winner that is neither 0 nor 1 */
    PARSOLVE_CHOICE = 13,           /* a winner that owns its vertex and chooses no successor there */
    PARSOLVE_LEAVES = 14,
    PARSOLVE_CYCLE = 15,
    PARSOLVE_COMMAND = 16,
    PARSOLVE_FAULT = 17,
    PARSOLVE_TOO_SHORT = 18
};

/* The version, as text. */
static inline const char *parsolve_version(void) {
    return PARSOLVE_VERSION;
}

/* The meaning of a code, in English. This doesn't call the library: the texts are in the header. */
static inline const char *parsolve_fault_text(uint32_t code) {
    switch (code) {
    case PARSOLVE_OK:
        return "no fault";
    case PARSOLVE_OUT_OF_MEMORY:
        return "out of memory";
    case PARSOLVE_LENGTHS:
        return "the arrays' lengths don't fit together";
    case PARSOLVE_NO_VERTEX:
        return "no vertex";
    case PARSOLVE_TOO_MANY_VERTICES:
        return "more than 1048576 vertices";
    case PARSOLVE_TOO_MANY_EDGES:
        return "more than 8388608 edges";
    case PARSOLVE_PRIORITY:
        return "a priority over 65535";
    case PARSOLVE_OWNER:
        return "an owner other than 0 and 1";
    case PARSOLVE_START:
        return "successors that end before they start, or past the array";
    case PARSOLVE_NO_SUCCESSOR:
        return "no successor";
    case PARSOLVE_SUCCESSOR:
        return "a successor that is no vertex";
    case PARSOLVE_SOLUTION_LENGTHS:
        return "a solution that hasn't the length of the game";
    case PARSOLVE_WINNER:
        return "a winner other than 0 and 1";
    case PARSOLVE_CHOICE:
        return "a winner that owns the vertex and chooses no successor";
    case PARSOLVE_LEAVES:
        return "an edge leads to a vertex of the other winner";
    case PARSOLVE_CYCLE:
        return "a cycle that its winner loses";
    case PARSOLVE_COMMAND:
        return "no such command";
    case PARSOLVE_FAULT:
        return "the command prints nothing, and tells a fault";
    case PARSOLVE_TOO_SHORT:
        return "no room for the text";
    default:
        return "no such code";
    }
}

/* The number in a strategy for a vertex without a choice. */
#define PARSOLVE_NO_CHOICE UINT32_MAX

struct parsolve_numbers {
    const uint32_t *at;
    size_t length;
};

struct parsolve_bytes {
    const uint8_t *at;
    size_t length;
};

struct parsolve_game {
    struct parsolve_numbers priorities;
    struct parsolve_bytes owners;
    struct parsolve_numbers starts;
    struct parsolve_numbers successors;
};

/* Solves a game. PARSOLVE_OK: winners[v] is the player who wins from v, and strategy[v] the successor that this player moves to if it owns v,
 * and otherwise PARSOLVE_NO_CHOICE. In every play that follows the strategy, the winner of its first vertex wins. Both outputs must have a
 * number for each vertex. PARSOLVE_LENGTHS to PARSOLVE_SOLUTION_LENGTHS, PARSOLVE_OUT_OF_MEMORY: the outputs are as they were. *vertex is the
 * first vertex at fault for the codes from PARSOLVE_PRIORITY to PARSOLVE_SUCCESSOR, and otherwise as it was. */
uint32_t parsolve_solve(const struct parsolve_game *game, uint8_t *winners, size_t winners_length, uint32_t *strategy,
                        size_t strategy_length, uint32_t *vertex);

/* The evidence against a solution. A call doesn't change fields that its answer doesn't name. */
struct parsolve_found {
    uint32_t vertex;
    uint32_t to;
    size_t length;
};

/* Checks a solution, no matter which solver made it. strategy[v] counts if the winner of v owns v.
 * PARSOLVE_OK: the solution is sound; the call returns this if and only if it is.
 * PARSOLVE_LEAVES: an edge that follows the strategy leads from found->vertex to found->to, where the other player wins: the least such edge.
 * PARSOLVE_CYCLE: the greatest priority on a cycle that follows the strategy is the loser's. The cycle has found->length vertices, which are
 * at the front of `cycle` if they fit, as they do if `cycle` has a number for each vertex of the game; otherwise it is as it was.
 * PARSOLVE_LENGTHS to PARSOLVE_CHOICE, PARSOLVE_OUT_OF_MEMORY: the call checked nothing. The faults of the game come first, then the lengths
 * of the solution, then the first bad winner, then the first bad choice. found->vertex is the vertex at fault, if the fault has one. */
uint32_t parsolve_check(const struct parsolve_game *game, const uint8_t *winners, size_t winners_length, const uint32_t *strategy,
                        size_t strategy_length, struct parsolve_found *found, uint32_t *cycle, size_t cycle_length);

enum {
    PARSOLVE_COMMAND_MEASURE = 0,
    PARSOLVE_COMMAND_SOLVE = 1,
    PARSOLVE_COMMAND_CHECK = 2,
    PARSOLVE_COMMAND_REPLAY = 3,
    PARSOLVE_COMMAND_GAME = 4,
    PARSOLVE_COMMAND_SYNTH = 5,
    PARSOLVE_COMMAND_SOLVE_ANY = 6, /* solve --any */
    PARSOLVE_COMMAND_VERIFY = 7,
    PARSOLVE_COMMAND_SYNTH_SMALL = 8, /* synth --small */
    PARSOLVE_COMMAND_AUTOMATON = 9,
    PARSOLVE_COMMAND_MEANS = 10,
    PARSOLVE_COMMAND_SYNTH_COUNTER = 11, /* synth --counter */
    PARSOLVE_COMMAND_VERIFY_LTL = 12 /* verify --ltl */
};

/* Answers a command for an input. *written is the length of the text. If `output` is too short, the command has run just to find that length,
 * and runs again in the next call.
 * PARSOLVE_OK: the front of `output` holds what `parsolve COMMAND` prints; the rest is as it was.
 * PARSOLVE_FAULT: the command prints nothing, and the front of `output` holds the line of its fault.
 * PARSOLVE_TOO_SHORT: the text doesn't fit; `output` is as it was.
 * PARSOLVE_COMMAND, if and only if there is no such command; PARSOLVE_OUT_OF_MEMORY: nothing was written, not even *written. */
uint32_t parsolve_answer(uint32_t command, const uint8_t *input, size_t input_length, uint8_t *output, size_t output_length,
                         size_t *written);

/* Bytes in memory that the library allocated. */
struct parsolve_text {
    uint8_t *bytes;
    size_t bytes_length;
};

/* The initial value of such a text, before a call. */
#define PARSOLVE_NO_TEXT {(uint8_t *)"", 0}

/* The same, in memory that the library allocates, so the command runs only once, however long the text is. Initialise *text before the call.
 * PARSOLVE_OK: *text is what the command prints.
 * PARSOLVE_FAULT: the command prints nothing, and *text is the line of its fault.
 * PARSOLVE_COMMAND, if and only if there is no such command; PARSOLVE_OUT_OF_MEMORY: *text is as it was.
 * The caller owns the bytes, and frees them with `free` of the C library if bytes_length isn't 0. */
uint32_t parsolve_answer_new(uint32_t command, const uint8_t *input, size_t input_length, struct parsolve_text *text);

#ifdef __cplusplus
}
#endif
#endif
