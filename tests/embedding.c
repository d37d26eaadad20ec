/* Tries the library from C, linked with `--wrap` of malloc, realloc and free, so that each growth can be refused:
 *   faults     arrays of every kind, most of which spell no game: the code and the vertex are those that a plain look finds
 *   memory     each growth of each call is refused in turn: it is told, the outputs are as they were, and nothing is leaked
 *   threads    eight threads at once get the answers that one gets
 * It prints what is wrong and ends with status 1, or prints nothing. */
#include <pthread.h>
#include <stdio.h>
#include <stdlib.h>
#include <string.h>
#include "parsolve.h"

#define MOST 400

void *__real_malloc(size_t size);
void *__real_realloc(void *old, size_t size);
void __real_free(void *block);

static _Thread_local long grown, refused_at, alive;

static int refuses(void) { return ++grown == refused_at; }

void *__wrap_malloc(size_t size) {
    void *block = refuses() ? NULL : __real_malloc(size);
    alive += block != NULL;
    return block;
}

void *__wrap_realloc(void *old, size_t size) {
    void *block = refuses() ? NULL : __real_realloc(old, size);
    alive += old == NULL && block != NULL;
    return block;
}

void __wrap_free(void *block) {
    alive -= block != NULL;
    __real_free(block);
}

static void wrong(const char *what, long number) {
    printf("%s: %ld\n", what, number);
    exit(1);
}

/* ---- games */

struct arrays {
    uint32_t *priorities, *starts, *successors;
    uint8_t *owners;
    struct parsolve_game game;
};

static uint32_t dice(uint64_t *seed, uint32_t sides) {
    *seed = *seed * 6364136223846793005u + 1442695040888963407u;
    return (uint32_t)(*seed >> 33) % sides;
}

/* blocks of just these lengths, so that a look past an end is seen */
static struct arrays made(size_t priorities, size_t owners, size_t starts, size_t successors) {
    struct arrays a;
    a.priorities = __real_malloc(4 * priorities), a.owners = __real_malloc(owners);
    a.starts = __real_malloc(4 * starts), a.successors = __real_malloc(4 * successors);
    a.game = (struct parsolve_game){{a.priorities, priorities}, {a.owners, owners}, {a.starts, starts}, {a.successors, successors}};
    return a;
}

static void dropped(struct arrays *a) {
    __real_free(a->priorities), __real_free(a->starts), __real_free(a->successors), __real_free(a->owners);
}

/* a game of so many vertices, of two successors each */
static struct arrays random_game(uint64_t *seed, uint32_t count, uint32_t priorities) {
    struct arrays a = made(count, count, count + 1, 2 * count);
    for (uint32_t v = 0; v < count; v++) {
        a.priorities[v] = dice(seed, priorities), a.owners[v] = (uint8_t)dice(seed, 2), a.starts[v] = 2 * v;
        a.successors[2 * v] = dice(seed, count), a.successors[2 * v + 1] = dice(seed, count);
    }
    a.starts[count] = 2 * count;
    return a;
}

/* the same with lengths and numbers that needn't fit */
static struct arrays absurd_arrays(uint64_t *seed) {
    uint32_t count = dice(seed, 5), extra = dice(seed, 12) == 0;
    struct arrays a = made(count, count + extra, count + 1 - (dice(seed, 12) == 0), dice(seed, 8));
    for (uint32_t v = 0; v < a.game.priorities.length; v++)
        a.priorities[v] = dice(seed, 20) ? dice(seed, 9) : 65535 + dice(seed, 2);
    for (uint32_t v = 0; v < a.game.owners.length; v++)
        a.owners[v] = (uint8_t)(dice(seed, 20) ? dice(seed, 2) : dice(seed, 256));
    for (uint32_t v = 0, start = 0; v < a.game.starts.length; v++, start += dice(seed, 20) ? 1 : dice(seed, 3))
        a.starts[v] = dice(seed, 30) ? start : dice(seed, 2) ? dice(seed, 9) : UINT32_MAX;
    for (uint32_t e = 0; e < a.game.successors.length; e++)
        a.successors[e] = count && dice(seed, 30) ? dice(seed, count) : dice(seed, 2) ? dice(seed, 6) : UINT32_MAX;
    return a;
}

/* ---- faults, by a plain look */

static uint32_t vertex_fault(const struct parsolve_game *g, size_t v) {
    if (g->priorities.at[v] > 65535) return PARSOLVE_PRIORITY;
    if (g->owners.at[v] > 1) return PARSOLVE_OWNER;
    uint32_t from = g->starts.at[v], to = g->starts.at[v + 1];
    if (to < from || to > g->successors.length) return PARSOLVE_START;
    if (to == from) return PARSOLVE_NO_SUCCESSOR;
    for (uint32_t e = from; e < to; e++)
        if (g->successors.at[e] >= g->priorities.length) return PARSOLVE_SUCCESSOR;
    return PARSOLVE_OK;
}

static uint32_t plain_fault(const struct parsolve_game *g, uint32_t *vertex) {
    size_t count = g->priorities.length;
    if (g->owners.length != count || g->starts.length != count + 1) return PARSOLVE_LENGTHS;
    if (count == 0) return PARSOLVE_NO_VERTEX;
    for (size_t v = 0; v < count; v++) {
        uint32_t code = vertex_fault(g, v);
        if (code != PARSOLVE_OK) return *vertex = (uint32_t)v, code;
    }
    return PARSOLVE_OK;
}

static int leads_to(const struct parsolve_game *g, size_t v, uint32_t w) {
    for (uint32_t e = g->starts.at[v]; e < g->starts.at[v + 1]; e++)
        if (g->successors.at[e] == w) return 1;
    return 0;
}

static uint32_t plain_solution_fault(const struct parsolve_game *g, const uint8_t *winners, const uint32_t *strategy, uint32_t *vertex) {
    for (size_t v = 0; v < g->priorities.length; v++)
        if (winners[v] > 1) return *vertex = (uint32_t)v, PARSOLVE_WINNER;
    for (size_t v = 0; v < g->priorities.length; v++)
        if (g->owners.at[v] == winners[v] && !leads_to(g, v, strategy[v])) return *vertex = (uint32_t)v, PARSOLVE_CHOICE;
    return PARSOLVE_OK;
}

static void faults(void) {
    if (strcmp(parsolve_version(), PARSOLVE_VERSION)) wrong("the version", 0);
    uint64_t seed = 1;
    long told[PARSOLVE_TOO_SHORT + 1] = {0};
    for (long turn = 0; turn < 200000; turn++) {
        struct arrays a = absurd_arrays(&seed);
        size_t count = a.game.priorities.length, room = count + (dice(&seed, 20) == 0);
        uint8_t *winners = __real_malloc(room);
        uint32_t *strategy = __real_malloc(4 * room), *cycle = __real_malloc(4 * room), vertex = 77, wanted = 77;
        memset(winners, 2 + dice(&seed, 3), room), memset(strategy, 9, 4 * room);
        uint32_t code = plain_fault(&a.game, &wanted);
        if (code == PARSOLVE_OK && room != count) code = PARSOLVE_SOLUTION_LENGTHS;
        if (parsolve_solve(&a.game, winners, room, strategy, room, &vertex) != code || vertex != wanted) wrong("solve", turn);
        told[code]++;
        struct parsolve_found found = {77, 78, 79};
        if (code == PARSOLVE_OK) {
            if (parsolve_check(&a.game, winners, room, strategy, room, &found, cycle, room) != PARSOLVE_OK) wrong("unsound", turn);
            if (dice(&seed, 3) == 0) winners[dice(&seed, (uint32_t)count)] = (uint8_t)dice(&seed, 3);
            if (dice(&seed, 3) == 0) strategy[dice(&seed, (uint32_t)count)] = dice(&seed, 5);
            code = plain_solution_fault(&a.game, winners, strategy, &wanted);
        }
        uint32_t checked = parsolve_check(&a.game, winners, room, strategy, room, &found, cycle, room);
        int judged = checked == PARSOLVE_OK || checked == PARSOLVE_LEAVES || checked == PARSOLVE_CYCLE;
        if (code == PARSOLVE_OK ? !judged : checked != code || found.vertex != wanted) wrong("check", turn);
        if (!judged && (found.to != 78 || found.length != 79)) wrong("found", turn);
        if (checked == PARSOLVE_CYCLE && (found.vertex != 77 || found.length == 0 || found.length > count)) wrong("cycle", turn);
        told[checked]++;
        dropped(&a), __real_free(winners), __real_free(strategy), __real_free(cycle);
    }
    for (int code = PARSOLVE_OK; code <= PARSOLVE_CYCLE; code++)
        if (told[code] == 0 && code != PARSOLVE_OUT_OF_MEMORY && code != PARSOLVE_TOO_MANY_VERTICES && code != PARSOLVE_TOO_MANY_EDGES)
            wrong("never told", code);
}

/* ---- calls, and what they leave */

struct outcome {
    uint32_t code, vertex, strategy[MOST], cycle[MOST];
    uint8_t winners[MOST], output[8 * MOST];
    struct parsolve_found found;
    size_t written;
};

static const char TEXT[] = "0 2 1 0,1;\n1 1 0 0,1;\n--\n0 0;\n1 0 1;\n";
enum { SOLVE, CHECK, ANSWER_SOLVE, ANSWER_CHECK, ANSWER_FAULT, NEW_SOLVE, NEW_CHECK, NEW_FAULT, CALLS };

/* a text in memory of its own, copied and freed; where there is none it is as it was */
static uint32_t answered_anew(uint32_t command, size_t length, struct outcome *o) {
    static uint8_t nothing;
    struct parsolve_text text = {&nothing, 0};
    uint32_t code = parsolve_answer_new(command, (const uint8_t *)TEXT, length, &text);
    if (code == PARSOLVE_OK || code == PARSOLVE_FAULT) {
        if (text.bytes_length == 0 || text.bytes_length > sizeof o->output) wrong("the length of a text", (long)text.bytes_length);
        memcpy(o->output, text.bytes, o->written = text.bytes_length);
        free(text.bytes);
    } else if (text.bytes != &nothing || text.bytes_length != 0)
        wrong("a text where there is none", code);
    return code;
}

/* a call with a game of so many vertices; `check` is given a solution that is sound but for one vertex */
static void called(int call, const struct arrays *a, struct outcome *o) {
    size_t count = a->game.priorities.length;
    if (call == SOLVE)
        o->code = parsolve_solve(&a->game, o->winners, count, o->strategy, count, &o->vertex);
    else if (call == CHECK)
        o->code = parsolve_check(&a->game, o->winners, count, o->strategy, count, &o->found, o->cycle, count);
    else {
        uint32_t command = call == ANSWER_CHECK || call == NEW_CHECK ? PARSOLVE_COMMAND_CHECK : PARSOLVE_COMMAND_SOLVE;
        size_t length = call == ANSWER_SOLVE || call == NEW_SOLVE ? 22 : sizeof TEXT - 1;
        if (call >= NEW_SOLVE)
            o->code = answered_anew(command, length, o);
        else
            o->code = parsolve_answer(command, (const uint8_t *)TEXT, length, o->output, sizeof o->output, &o->written);
    }
}

static struct outcome before(int call, const struct arrays *a) {
    struct outcome o;
    memset(&o, 85, sizeof o);
    if (call == CHECK) {
        size_t count = a->game.priorities.length;
        if (parsolve_solve(&a->game, o.winners, count, o.strategy, count, &o.vertex) != PARSOLVE_OK) wrong("no solution", call);
        for (size_t v = 0; v < count; v++)
            if (o.strategy[v] != PARSOLVE_NO_CHOICE && a->successors[2 * v] != a->successors[2 * v + 1]) {
                o.strategy[v] ^= a->successors[2 * v] ^ a->successors[2 * v + 1];
                break;
            }
    }
    return o;
}

/* an answer in memory of its own is the one that is handed over */
static void same_texts(const struct arrays *a) {
    for (int call = ANSWER_SOLVE; call < NEW_SOLVE; call++) {
        struct outcome o = before(call, a), other = o;
        called(call, a, &o), called(call + NEW_SOLVE - ANSWER_SOLVE, a, &other);
        if (memcmp(&o, &other, sizeof o)) wrong("another text", call);
    }
    uint8_t byte = 7;
    struct parsolve_text text = {&byte, 1};
    uint32_t unknown = PARSOLVE_COMMAND_VERIFY_LTL + 1;
    if (parsolve_answer_new(unknown, (const uint8_t *)TEXT, 22, &text) != PARSOLVE_COMMAND || text.bytes != &byte || text.bytes_length != 1)
        wrong("no such command", unknown);
}

static long refuse_each(int call, const struct arrays *a) {
    struct outcome start = before(call, a), right = start;
    called(call, a, &right);
    for (long n = 1;; n++) {
        struct outcome o = start;
        grown = 0, refused_at = n, alive = 0;
        called(call, a, &o);
        int is_met = grown >= n;
        refused_at = 0;
        if (alive != 0) wrong("leaked", n);
        if (!is_met) return memcmp(&o, &right, sizeof o) ? wrong("other answer", call), 0 : n - 1;
        start.code = o.code;
        if (o.code == PARSOLVE_OUT_OF_MEMORY ? memcmp(&o, &start, sizeof o) : memcmp(&o, &right, sizeof o)) wrong("refused", n);
    }
}

static void memory(void) {
    uint64_t seed = 2;
    struct arrays a = random_game(&seed, 300, 12);
    for (int call = 0; call < CALLS; call++)
        if (refuse_each(call, &a) == 0) wrong("no growth", call);
    same_texts(&a);
    dropped(&a);
}

/* ---- threads */

/* a number made of all answers to the games of this seed */
static void *answers_of(void *seed_of) {
    uint64_t seed = (size_t)seed_of, sum = 0;
    for (int turn = 0; turn < 50; turn++) {
        struct arrays a = random_game(&seed, MOST, 2 + dice(&seed, 40));
        for (int call = 0; call < CALLS; call++) {
            struct outcome o = before(call, &a);
            called(call, &a, &o);
            for (size_t at = 0; at < sizeof o; at++) sum = sum * 31 + ((const uint8_t *)&o)[at];
        }
        dropped(&a);
    }
    return (void *)(size_t)sum;
}

static void threads(void) {
    pthread_t each[8];
    void *alone[8], *beside;
    for (size_t n = 0; n < 8; n++) alone[n] = answers_of((void *)(n % 4));
    for (size_t n = 0; n < 8; n++)
        if (pthread_create(&each[n], NULL, answers_of, (void *)(n % 4))) wrong("no thread", (long)n);
    for (size_t n = 0; n < 8; n++)
        if (pthread_join(each[n], &beside) || beside != alone[n]) wrong("threads", (long)n);
}

int main(int count, char **words) {
    const char *what = count > 1 ? words[1] : "";
    if (!strcmp(what, "faults")) faults();
    else if (!strcmp(what, "memory")) memory();
    else if (!strcmp(what, "threads")) threads();
    else return 2;
    return 0;
}
