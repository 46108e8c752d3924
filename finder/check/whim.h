/* A made-up card of random mood, not always a credible one, and random sessions on it, of a pool and of a manager: for C and for C++.
   finder/rust/examples/session.rs has the same card and the same sessions, number for number, so that the two can be compared. */
#ifndef FINDER_CHECK_WHIM_H
#define FINDER_CHECK_WHIM_H

#include "../pool_run.h"

/* splitmix64 */
static inline uint64_t mixed(uint64_t number) {
    number += UINT64_C(0x9e3779b97f4a7c15);
    number = (number ^ (number >> 30)) * UINT64_C(0xbf58476d1ce4e5b9);
    number = (number ^ (number >> 27)) * UINT64_C(0x94d049bb133111eb);
    return number ^ (number >> 31);
}

/* The next of a row of numbers below `end`. */
static inline uint64_t chosen(uint64_t *choices, uint64_t end) {
    *choices = mixed(*choices);
    return *choices % end;
}

typedef struct {
    uint64_t seed;
    uint64_t failures; /* of the driver calls that stop a pool where they fail, those that do, in a thousand; of the others five times as many */
    uint64_t complete; /* events found complete, in a hundred */
    uint64_t answered; /* driver calls so far */
} whim;

/* Bases are aligned mostly and free mostly; handles are new mostly, and some are those that are guessed; so are pointers, and some are low enough for a root.
   Where the value is not looked at, it is anything. */
static inline uint64_t whim_value(const whim *card, const pool_record *call, uint64_t *choices) {
    uint64_t value;
    switch (call->kind) {
    case POOL_WORD_RESERVE:
        value = call->second * (1 + chosen(choices, 200));
        value += 4 * chosen(choices, 3);
        return value + chosen(choices, 100) / 99;
    case POOL_WORD_CREATE:
        return chosen(choices, 60) == 0 ? (UINT64_C(1) << 63) + chosen(choices, 60) : chosen(choices, 50000);
    case POOL_WORD_ASKED:
        return chosen(choices, 100) < card->complete ? 1 : 2 * chosen(choices, 2);
    case POOL_WORD_SMALL:
        if (chosen(choices, 60) == 0)
            return (UINT64_C(1) << 63) + chosen(choices, 2);
        return chosen(choices, 60) == 0 ? chosen(choices, 2000) : 1000000 + 16 * chosen(choices, 50000);
    default:
        return chosen(choices, 1000);
    }
}

/* The code: 0 mostly. A create that fails is out of memory mostly. */
static inline uint64_t whim_code(const whim *card, const pool_record *call, uint64_t *choices) {
    const uint64_t kind = call->kind;
    const int stops = kind == POOL_WORD_MAP || kind == POOL_WORD_ACCESS || kind == POOL_WORD_RECORD || kind == POOL_WORD_WAIT || kind == POOL_WORD_SYNC;
    if (chosen(choices, 1000) >= (stops ? 1 : 5) * card->failures)
        return 0;
    return kind == POOL_WORD_CREATE && chosen(choices, 4) != 0 ? 2 : 1 + chosen(choices, 3);
}

/* Depends on the seed, on how many driver calls came before, on every number of this one, and on the stream that a manager's small buffer is for. */
static inline pool_answer whim_answer(whim *card, const pool_record *call, uint64_t stream) {
    const uint64_t numbers[] = {card->answered++, call->kind, call->first, call->second, call->code};
    uint64_t choices = card->seed;
    for (size_t i = 0; i < sizeof numbers / sizeof *numbers; i++)
        choices = mixed(choices ^ numbers[i]);
    if (stream != 0)
        choices = mixed(choices ^ stream);
    pool_answer answer = {0, 0};
    answer.code = whim_code(card, call, &choices);
    answer.value = whim_value(card, call, &choices);
    return answer;
}

/* What a session is like. */
typedef struct {
    uint64_t root;    /* pages of a reservation */
    uint64_t largest; /* most pages of a malloc, mostly */
    uint64_t streams;
    uint64_t frees;    /* in ten calls */
    uint64_t complete; /* as a card's */
} session_kind;

static const session_kind session_kinds[] = {
    {40, 14, 3, 4, 40},
    {200, 3, 4, 2, 40},  /* up to 128 free regions and live buffers, 256 pages */
    {3, 4, 2, 3, 80},    /* up to 16 roots */
    {200, 3, 90, 4, 0}}; /* up to 128 zombies */

typedef struct {
    const session_kind *kind;
    uint64_t choices;
    uint64_t left; /* calls to come */
} session;

static inline whim session_card(uint64_t seed) {
    static const uint64_t failures[] = {0, 2, 30};
    const whim card = {seed, failures[seed % 3], session_kinds[seed % 4].complete, 0};
    return card;
}

static inline session session_begin(uint64_t seed, uint64_t calls) {
    const session begun = {&session_kinds[seed % 4], ~seed, calls};
    return begun;
}

/* Some are bad. */
static inline pool_config session_opening(session *of) {
    pool_config config;
    config.override_size = 4 * chosen(&of->choices, 2);
    config.granularity = config.override_size ? 2 : 4;
    config.va_size = 4 * of->kind->root + chosen(&of->choices, 20) / 19;
    config.initial_pages = chosen(&of->choices, 12) / 4;
    config.initial_stream = 2;
    return config;
}

typedef struct { int is_free; uint64_t first, second; } session_call; /* an address, or bytes and stream */

/* The next call, with no regard to whether it can be served. */
static inline session_call session_next(session *of, const pool_value *pool) {
    session_call call = {1, 0, 0};
    if (chosen(&of->choices, 10) < of->kind->frees && pool->live.count > 0) {
        call.first = pool->live.cells[chosen(&of->choices, pool->live.count)].start;
        return call;
    }
    if (chosen(&of->choices, 30) == 0) {
        call.first = chosen(&of->choices, 2000);
        return call;
    }
    uint64_t pages = 0;
    for (size_t i = 0; i < pool->free.count; i++)
        pages += pool->free.cells[i].size / 4;
    if (chosen(&of->choices, 8) != 0)
        pages = 1 + chosen(&of->choices, of->kind->largest);
    call.is_free = 0;
    call.first = 4 * pages + chosen(&of->choices, 40) / 39;
    call.second = chosen(&of->choices, of->kind->streams);
    return call;
}

/* The next call of a manager: two of three are for small buffers, and sizes lie between whole pages too. */
static inline session_call session_next_bytes(session *of, const pool_value *pool, const manager_small_buffers *small) {
    session_call call = {1, 0, 0};
    if (chosen(&of->choices, 3) == 0) {
        call = session_next(of, pool);
        if (!call.is_free)
            call.first += chosen(&of->choices, 4);
        return call;
    }
    if (chosen(&of->choices, 20) < of->kind->frees && small->count > 0) {
        call.first = small->cells[chosen(&of->choices, small->count)].pointer;
        return call;
    }
    call.is_free = 0;
    call.first = chosen(&of->choices, 30) == 0 ? 0 : 1 + chosen(&of->choices, 3);
    if (chosen(&of->choices, 60) == 0)
        call.first = (UINT64_C(1) << 63) + chosen(&of->choices, 2);
    call.second = chosen(&of->choices, of->kind->streams);
    return call;
}

/* A stopped pool is asked on for a while. */
static inline void session_went(session *of, uint64_t answer) {
    of->left = answer == POOL_ANSWER_POOL_STOPPED ? of->left / 2 : of->left - 1;
}

#endif
