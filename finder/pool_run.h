/* The calls of pool and manager, each run to its end: on top of pool.h, for C11 and C++. The driver calls are made through a function of yours; docs/USING.md
   says how.

   The library runs a call on answers that it is lent. Nobody has them before the driver calls are made, and which driver calls those are only a run tells.
   So a call is run on guesses, then its driver calls are made in the log's order, and where one is answered otherwise the call is run again on what is known
   by then. A log's record depends on the answers before it alone, so each driver call that is made stands in the final log too, and none is made twice.

   Guessed is that every driver call succeeds and that no event is complete. A base can't be guessed: the guess is none that can be, so a run ends where it
   wants one. A handle can't either, but nothing hangs on it: a page created under another handle is mapped by that one, and all else stays. So the driver calls
   go on with the driver's handle in place of the guessed one, and a last run puts it into the pool. Only maps have to be changed: a page is released in a
   close, which creates none, and behind a create that failed, which is not guessed. A small buffer's pointer is its malloc's only answer: a second run has it.

   Names that end with an underscore are not for use. Nothing is allocated, and nothing is kept but in the runner. */
#ifndef FINDER_POOL_RUN_H
#define FINDER_POOL_RUN_H

#include "pool.h"
#include <inttypes.h>
#include <stdio.h>
#include <stdlib.h>
#include <string.h>

/* A driver call, as the log and a trace have it: kind is a POOL_WORD_.., and beside those stands what first and second are. Code is 0 for success. */
typedef struct { uint64_t kind, first, second, code; } pool_record;

/* What the driver answers: a code, 0 for success, and a value: the base, the handle, 1 for an event that is complete, the pointer of a small; else it is not
   looked at. */
typedef struct { uint64_t code, value; } pool_answer;

/* Makes one driver call. What only its answer tells is 0 in it: first of a reserve, create or small, second of an asked, the code. It must come back: if it
   throws or jumps out, the pool doesn't know what the card does, and every later call is refused (POOL_RUN_BUSY). */
typedef pool_answer (*pool_drive)(void *context, const pool_record *call);

/* The same for a manager. Stream is the one that a small or a dropsmall is for: the malloc's, and the buffer's own; of the other words it is 0, and they say
   themselves what stream they are for. */
typedef pool_answer (*manager_drive)(void *context, const pool_record *call, uint64_t stream);

typedef struct {
    uint64_t granularity;    /* the driver's smallest page size */
    uint64_t override_size;  /* the page size to use, a multiple of the granularity; 0 for the granularity itself */
    uint64_t va_size;        /* bytes of each reservation */
    uint64_t initial_pages;  /* pages made at once */
    uint64_t initial_stream; /* the stream that they are made on */
} pool_config;

/* A pool with its driver and what its calls need, some 180 KB: better not on the stack. Set it up once by pool_run_setup. Pool and made are for reading;
   trace may be set between calls. */
typedef struct {
    pool_value pool;
    pool_record made[POOL_LOG_RECORDS]; /* the driver calls of the last call, in order */
    size_t made_count;
    FILE *trace; /* where each call is printed when it has ended, as docs/RULES.md 6 says; NULL for nowhere */
    pool_drive drive_;
    void *context_;
    int running_;
    uint64_t answers_[POOL_ANSWERS]; /* a pair for each place of a log: the driver's for the calls that were made, then guesses */
    uint64_t log_[POOL_LOG];
} pool_runner;

/* A manager with its driver: a pool's runner, and beside it what stands above the pool. Set it up once by manager_run_setup. All is for reading; run.trace may
   be set between calls. The run is the manager's: hand it to no pool_run_.. function, or the bytes held are wrong, and later calls are answered 3. */
typedef struct {
    pool_runner run; /* first: a place of one is a place of the other */
    manager_small_buffers small;
    uint64_t current, highest; /* bytes */
    manager_drive drive_;
    void *context_;
    uint64_t stream_; /* of the malloc that runs */
} manager_runner;

typedef struct {
    uint64_t answer; /* POOL_ANSWER_.., but not 4 or 17; or POOL_RUN_.. */
    uint64_t first;  /* as pool.h has them beside the answer */
    uint64_t second;
    pool_record stopped_by; /* for 14 and 15 the driver call that failed or was not believed; else all 0. If it is a map, its second is a handle that no table
                               holds; if it is a reserve, its first is a base that none holds. A small or a dropsmall that failed has stopped nothing */
    size_t driver_calls;    /* made in this call */
    size_t passed_over;     /* of these, the ones that failed and did not end the call: unmap, release, asked, and any of a close */
    size_t runs;            /* of the library */
} pool_result;

/* Answers of this file's own, far from the library's. The library was not asked, no driver call was made, and nothing is traced. */
enum {
    POOL_RUN_OTHER_VERSION = 1000, /* the library's version, POOL_VERSION: header and archive are not of one build */
    POOL_RUN_NOT_CLOSED = 1001,    /* an open, and the runner's pool is open or stopped: close it first */
    POOL_RUN_BUSY = 1002           /* another call of this runner has not ended */
};

/* Guessed handles start here: no reservation may end behind it, so none is taken for a base. */
#define POOL_RUN_GUESSED_ POOL_ADDRESS_END

/* What an answer means, in a few words. */
static inline const char *pool_answer_text(uint64_t answer) {
    switch (answer) {
    case POOL_ANSWER_DONE: return "done";
    case POOL_ANSWER_POOL_CLOSED: return "the pool is closed: open one";
    case POOL_ANSWER_POOL_STOPPED: return "the pool is stopped: close it and open another";
    case POOL_ANSWER_NOT_WELL_FORMED: return "the value is no pool that a call left";
    case POOL_ANSWER_SHORT_LOG: return "the log has no room for 2048 records";
    case POOL_ANSWER_IDS_SPENT: return "2^62 events were recorded: close the pool and open another";
    case POOL_ANSWER_BAD_SIZE: return "the size is 0 or no multiple of the page size; for a manager 0 or, rounded, above 2^63";
    case POOL_ANSWER_SPANS_FULL: return "128 free regions and live buffers: free one beside a free region of its stream";
    case POOL_ANSWER_REQUESTED_EXCEEDS_VA: return "more than a reservation has: ask for less, or open with a larger va_size";
    case POOL_ANSWER_PAGES_FULL: return "more than 256 pages: free buffers, or open with a larger page size";
    case POOL_ANSWER_ZOMBIES_FULL: return "too many moved ranges: let streams finish, ask again";
    case POOL_ANSWER_ROOTS_FULL: return "16 reservations, and no hole suffices: ask for less, free buffers";
    case POOL_ANSWER_RESERVE_FAILED: return "the driver would not reserve: free address space, then ask again";
    case POOL_ANSWER_OUT_OF_MEMORY: return "the card has no memory: free buffers";
    case POOL_ANSWER_DRIVER_FAILED: return "a driver call failed: close the pool, unless it was a small or a dropsmall: then go on";
    case POOL_ANSWER_INCREDIBLE: return "the driver gave a base, a handle or a pointer that can't be: close the pool, mend the driver";
    case POOL_ANSWER_INVALID_POINTER: return "no live buffer starts at this address";
    case POOL_ANSWER_ANSWERS_RAN_OUT: return "an answer of the driver is wanted: make the driver call, run again";
    case POOL_ANSWER_BAD_CONFIGURATION: return "open does not take these sizes: 0, no multiples, or too large";
    case POOL_ANSWER_SMALLS_FULL: return "128 small buffers: free one, or ask for a whole page";
    case POOL_RUN_OTHER_VERSION: return "pool.h and the library are of different versions";
    case POOL_RUN_NOT_CLOSED: return "the runner has a pool already: close it first";
    case POOL_RUN_BUSY: return "another call of this runner has not ended";
    default: return "unknown answer";
    }
}

/* The word of a record's kind, as a trace has it. */
static inline const char *pool_word_text(uint64_t kind) {
    static const char *const words[] = {"reserve", "create", "map", "access", "unmap", "release", "record", "asked", "wait", "sync", "giveback"};
    if (kind == POOL_WORD_SMALL)
        return "small";
    if (kind == POOL_WORD_DROPSMALL)
        return "dropsmall";
    return kind >= POOL_WORD_RESERVE && kind <= POOL_WORD_GIVEBACK ? words[kind - POOL_WORD_RESERVE] : "unknown word";
}

enum { POOL_RUN_OPEN_, POOL_RUN_MALLOC_, POOL_RUN_FREE_, POOL_RUN_CLOSE_ };

typedef struct {
    int name;
    pool_config config;     /* an open's */
    uint64_t first, second; /* a malloc's bytes and stream, a free's address */
} pool_run_call_;

static inline pool_reply pool_run_once_(pool_runner *runner, const pool_run_call_ *call) {
    const pool_config config = call->config;
    switch (call->name) {
    case POOL_RUN_OPEN_:
        return pool_open(config.granularity, config.override_size, config.va_size, config.initial_pages, config.initial_stream, runner->answers_,
                         POOL_ANSWERS, runner->log_, POOL_LOG);
    case POOL_RUN_MALLOC_:
        return pool_malloc(runner->pool, call->first, call->second, runner->answers_, POOL_ANSWERS, runner->log_, POOL_LOG);
    case POOL_RUN_FREE_:
        return pool_free(runner->pool, call->first, runner->answers_, POOL_ANSWERS, runner->log_, POOL_LOG);
    default:
        return pool_close(runner->pool, runner->answers_, POOL_ANSWERS, runner->log_, POOL_LOG);
    }
}

static inline void pool_run_lend_(pool_runner *runner, size_t place, pool_answer answer) {
    runner->answers_[2 * place] = answer.code;
    runner->answers_[2 * place + 1] = answer.value;
}

/* A number for each place, so that no handle comes twice. None is 1: an event isn't complete. */
static inline pool_answer pool_run_guess_(size_t place) {
    pool_answer guess = {0, POOL_RUN_GUESSED_ + place};
    return guess;
}

static inline pool_record pool_run_logged_(const pool_runner *runner, size_t place) {
    const uint64_t *cells = runner->log_ + POOL_RECORD_NUMBERS * place;
    pool_record record = {cells[0], cells[1], cells[2], cells[3]};
    return record;
}

static inline int pool_run_same_(pool_record one, pool_record other) {
    return one.kind == other.kind && one.first == other.first && one.second == other.second && one.code == other.code;
}

/* What was made must stand in every later log, or the card has seen calls that the pool never made. The library is proved not to do that: so it is another
   library, or memory was overwritten, and there is nothing to go on with. */
static inline void pool_run_check_(const pool_runner *runner, size_t records) {
    size_t place = 0;
    while (place < runner->made_count && place < records && pool_run_same_(runner->made[place], pool_run_logged_(runner, place)))
        place++;
    if (place == runner->made_count && records <= POOL_LOG_RECORDS)
        return;
    fprintf(stderr, "pool_run.h: the library takes a driver call back\n");
    abort();
}

/* The record that a driver call leaves when it is answered so. */
static inline pool_record pool_run_answered_(pool_record record, pool_answer answer) {
    const uint64_t given = answer.code == 0 ? answer.value : 0;
    if (record.kind == POOL_WORD_RESERVE || record.kind == POOL_WORD_CREATE || record.kind == POOL_WORD_SMALL)
        record.first = given;
    if (record.kind == POOL_WORD_ASKED)
        record.second = given == 1;
    record.code = answer.code;
    return record;
}

/* The driver's handle for a guessed one, if its page was created behind `start`, where this run's guesses begin. A guessed handle can be no other page's: then
   the pool would not have believed it, and the run would have ended there. */
static inline uint64_t pool_run_real_(const pool_runner *runner, size_t start, uint64_t handle) {
    const uint64_t place = handle - POOL_RUN_GUESSED_;
    const int is_guess = place >= start && place < runner->made_count && runner->made[place].kind == POOL_WORD_CREATE;
    return is_guess ? runner->made[place].first : handle;
}

/* Whether an active page has this handle, one created in this call among them: the pool won't believe it a second time. */
static inline int pool_run_in_use_(const pool_runner *runner, uint64_t handle) {
    for (size_t i = 0; i < runner->pool.pages.count; i++)
        if (runner->pool.pages.cells[i].handle == handle)
            return 1;
    for (size_t i = 0; i < runner->made_count; i++)
        if (runner->made[i].kind == POOL_WORD_CREATE && runner->made[i].code == 0 && runner->made[i].first == handle)
            return 1;
    return 0;
}

/* Makes one driver call. A page may be created under another handle than guessed; one more run must then put that into the pool: `renamed`. A handle that is in
   use is another matter, even where it is the guessed one: the run may know the page that has it by another name. Says whether the driver calls behind this
   one are known. */
static inline int pool_run_make_(pool_runner *runner, size_t start, int *renamed) {
    const size_t place = runner->made_count;
    pool_record guessed = pool_run_logged_(runner, place);
    if (guessed.kind == POOL_WORD_MAP)
        guessed.second = pool_run_real_(runner, start, guessed.second);
    const pool_answer untold = {0, 0};
    const pool_record call = pool_run_answered_(guessed, untold);
    const pool_answer answer = runner->drive_(runner->context_, &call);
    const pool_record record = pool_run_answered_(guessed, answer);
    const int as_guessed = pool_run_same_(record, guessed);
    const int created = record.kind == POOL_WORD_CREATE && record.code == 0;
    const int goes_on = created ? !pool_run_in_use_(runner, record.first) : as_guessed;
    pool_run_lend_(runner, place, answer);
    runner->made[runner->made_count++] = record;
    *renamed |= !as_guessed;
    return goes_on;
}

/* Makes the log's driver calls that were not made yet, up to the first that is answered otherwise than guessed. Says whether the run stands. */
static inline int pool_run_drive_on_(pool_runner *runner, size_t records) {
    const size_t start = runner->made_count;
    int renamed = 0;
    while (runner->made_count < records)
        if (!pool_run_make_(runner, start, &renamed))
            return 0;
    return !renamed;
}

static inline void pool_run_forget_(pool_runner *runner) {
    while (runner->made_count > 0) {
        runner->made_count--;
        pool_run_lend_(runner, runner->made_count, pool_run_guess_(runner->made_count));
    }
}

static inline void pool_run_line_(FILE *out, const char *word, uint64_t first, uint64_t second, uint64_t third) {
    fprintf(out, "%s\t%" PRIu64 "\t%" PRIu64 "\t%" PRIu64 "\n", word, first, second, third);
}

static inline void pool_run_print_record_(const pool_runner *runner, size_t place) {
    const pool_record made = runner->made[place];
    pool_run_line_(runner->trace, pool_word_text(made.kind), made.first, made.second, made.code);
}

/* The lines of small buffers, which stand between calls; then what the pool was asked for, its driver calls and its result. Asked is NULL where the pool was
   not asked at all. */
static inline void pool_run_print_(const pool_runner *runner, const pool_run_call_ *asked, const pool_result *result) {
    static const char *const names[] = {"open", "malloc", "free", "close"};
    size_t place = 0;
    for (; place < runner->made_count && runner->made[place].kind > POOL_WORD_GIVEBACK; place++)
        pool_run_print_record_(runner, place);
    if (asked == NULL)
        return;
    const pool_config config = asked->config;
    if (asked->name == POOL_RUN_OPEN_)
        pool_run_line_(runner->trace, names[asked->name], config.override_size ? config.override_size : config.granularity, config.va_size,
                       config.initial_pages);
    else
        pool_run_line_(runner->trace, names[asked->name], asked->first, asked->second, 0);
    for (; place < runner->made_count; place++)
        pool_run_print_record_(runner, place);
    pool_run_line_(runner->trace, "result", result->first, result->second, result->answer);
}

/* What the driver calls say of a call that has ended so. */
static inline void pool_run_count_(const pool_runner *runner, pool_result *result) {
    const uint64_t answer = result->answer;
    size_t failed = 0;
    for (size_t i = 0; i < runner->made_count; i++)
        failed += runner->made[i].code != 0;
    /* these answers are given for one driver call that failed */
    const int ended = answer == POOL_ANSWER_RESERVE_FAILED || answer == POOL_ANSWER_OUT_OF_MEMORY || answer == POOL_ANSWER_DRIVER_FAILED;
    result->driver_calls = runner->made_count;
    result->passed_over = failed - (ended ? 1 : 0);
    if (answer == POOL_ANSWER_DRIVER_FAILED || answer == POOL_ANSWER_INCREDIBLE)
        result->stopped_by = runner->made[runner->made_count - 1];
}

/* The library was not run. */
static inline pool_result pool_run_result_(uint64_t answer, uint64_t first, uint64_t second) {
    const pool_result result = {answer, first, second, {0, 0, 0, 0}, 0, 0, 0};
    return result;
}

/* Why a call can't be run now; answer 0 where it can. */
static inline pool_result pool_run_admitted_(const pool_runner *runner) {
#ifndef POOL_RUN_NO_VERSION_CHECK
    if (pool_version() != POOL_VERSION)
        return pool_run_result_(POOL_RUN_OTHER_VERSION, pool_version(), POOL_VERSION);
#endif
    if (runner->running_)
        return pool_run_result_(POOL_RUN_BUSY, 0, 0);
    return pool_run_result_(POOL_ANSWER_DONE, 0, 0);
}

static inline void pool_run_begin_(pool_runner *runner) {
    runner->running_ = 1;
    pool_run_forget_(runner);
}

/* Behind each run, which left so many records: makes its driver calls. Says whether every answer that it took is the driver's: else the call is run again. */
static inline int pool_run_stands_(pool_runner *runner, size_t records) {
    pool_run_check_(runner, records);
    return pool_run_drive_on_(runner, records);
}

/* Tells of a call that has ended so, and prints it. */
static inline pool_result pool_run_end_(pool_runner *runner, const pool_run_call_ *asked, pool_result result) {
    runner->running_ = 0;
    pool_run_count_(runner, &result);
    if (runner->trace)
        pool_run_print_(runner, asked, &result);
    return result;
}

/* A call of the pool, and below one of a manager, by its run. */
typedef pool_result (*pool_run_settle_)(pool_runner *runner, const pool_run_call_ *call);

static inline pool_result pool_run_settle_pool_(pool_runner *runner, const pool_run_call_ *call) {
    pool_reply reply;
    pool_result result = pool_run_admitted_(runner);
    if (result.answer != POOL_ANSWER_DONE)
        return result;
    pool_run_begin_(runner);
    do {
        reply = pool_run_once_(runner, call);
        result.runs++;
    } while (!pool_run_stands_(runner, reply.records));
    runner->pool = reply.pool;
    result.answer = reply.answer, result.first = reply.first, result.second = reply.second;
    return pool_run_end_(runner, call, result);
}

static inline pool_result pool_run_settle_close_(pool_runner *runner, pool_run_settle_ settle) {
    const pool_run_call_ call = {POOL_RUN_CLOSE_, {0, 0, 0, 0, 0}, 0, 0};
    return settle(runner, &call);
}

/* If the opening fails and leaves something to close, that is closed at once; the answer is the opening's. */
static inline pool_result pool_run_settle_open_(pool_runner *runner, pool_config config, pool_run_settle_ settle) {
    const pool_run_call_ call = {POOL_RUN_OPEN_, config, 0, 0};
    if (runner->pool.state != POOL_STATE_CLOSED)
        return pool_run_result_(POOL_RUN_NOT_CLOSED, 0, 0);
    pool_result opened = settle(runner, &call);
    if (opened.answer != POOL_ANSWER_DONE && runner->pool.state != POOL_STATE_CLOSED) {
        const pool_result closed = pool_run_settle_close_(runner, settle);
        opened.driver_calls += closed.driver_calls;
        opened.passed_over += closed.passed_over;
        opened.runs += closed.runs;
    }
    return opened;
}

static inline pool_result pool_run_settle_malloc_(pool_runner *runner, uint64_t bytes, uint64_t stream, pool_run_settle_ settle) {
    const pool_run_call_ call = {POOL_RUN_MALLOC_, {0, 0, 0, 0, 0}, bytes, stream};
    return settle(runner, &call);
}

static inline pool_result pool_run_settle_free_(pool_runner *runner, uint64_t address, pool_run_settle_ settle) {
    const pool_run_call_ call = {POOL_RUN_FREE_, {0, 0, 0, 0, 0}, address, 0};
    return settle(runner, &call);
}

/* Makes a runner ready, whatever its memory held, with a closed pool. `trace` may be NULL. */
static inline void pool_run_setup(pool_runner *runner, pool_drive drive, void *context, FILE *trace) {
    memset(runner, 0, sizeof *runner);
    runner->drive_ = drive;
    runner->context_ = context;
    runner->trace = trace;
    for (size_t place = 0; place < POOL_LOG_RECORDS; place++)
        pool_run_lend_(runner, place, pool_run_guess_(place));
}

/* Gives everything back, live buffers too. First is how many of the driver calls failed. */
static inline pool_result pool_run_close(pool_runner *runner) { return pool_run_settle_close_(runner, pool_run_settle_pool_); }

/* Reserves a first range and makes the initial pages. First is the base, second the page size. If it fails behind the reservation, what was taken is given back
   at once by a close, which is traced and counted too; the answer is the opening's. So the pool is open after 0, and closed after any other of the library's
   answers. */
static inline pool_result pool_run_open(pool_runner *runner, pool_config config) { return pool_run_settle_open_(runner, config, pool_run_settle_pool_); }

/* A buffer of `bytes`, a multiple of the page size, for work on a stream. First is its address, second its size. */
static inline pool_result pool_run_malloc(pool_runner *runner, uint64_t bytes, uint64_t stream) {
    return pool_run_settle_malloc_(runner, bytes, stream, pool_run_settle_pool_);
}

/* Gives a buffer back. Work on its stream may still use it. First is its size, second its stream. */
static inline pool_result pool_run_free(pool_runner *runner, uint64_t address) { return pool_run_settle_free_(runner, address, pool_run_settle_pool_); }

static inline manager_value manager_run_value_(const manager_runner *runner) {
    const manager_value value = {runner->run.pool, runner->small, runner->current, runner->highest};
    return value;
}

static inline void manager_run_keep_(manager_runner *runner, const manager_value *value) {
    runner->run.pool = value->pool;
    runner->small = value->small;
    runner->current = value->current;
    runner->highest = value->highest;
}

/* The small buffer at a pointer; NULL for none. */
static inline const manager_small_buffer *manager_run_find_(const manager_runner *runner, uint64_t pointer) {
    for (size_t i = 0; i < runner->small.count && i < MANAGER_SMALLS; i++)
        if (runner->small.cells[i].pointer == pointer)
            return &runner->small.cells[i];
    return NULL;
}

/* The pool_drive of a manager's run, whose context is the manager. A record of a small or dropsmall has no stream: it is the malloc's, or the buffer's, which
   stands in the table until the call has ended. */
static inline pool_answer manager_run_drive_(void *context, const pool_record *call) {
    const manager_runner *runner = (const manager_runner *)context;
    uint64_t stream = 0;
    if (call->kind == POOL_WORD_SMALL)
        stream = runner->stream_;
    if (call->kind == POOL_WORD_DROPSMALL) {
        const manager_small_buffer *held = manager_run_find_(runner, call->first);
        stream = held ? held->stream : 0;
    }
    return runner->drive_(runner->context_, call, stream);
}

static inline manager_reply manager_run_once_(pool_runner *run, const pool_run_call_ *call) {
    const manager_value value = manager_run_value_((const manager_runner *)(const void *)run); /* once: each copy is 26 KB of stack */
    const pool_config config = call->config;
    switch (call->name) {
    case POOL_RUN_OPEN_:
        return manager_open(config.granularity, config.override_size, config.va_size, config.initial_pages, config.initial_stream, run->answers_,
                            POOL_ANSWERS, run->log_, POOL_LOG);
    case POOL_RUN_MALLOC_:
        return manager_malloc(value, call->first, call->second, run->answers_, POOL_ANSWERS, run->log_, POOL_LOG);
    case POOL_RUN_FREE_:
        return manager_free(value, call->first, run->answers_, POOL_ANSWERS, run->log_, POOL_LOG);
    default:
        return manager_close(value, run->answers_, POOL_ANSWERS, run->log_, POOL_LOG);
    }
}

/* Bytes in whole pages, as the pool is asked for them; 0 where it isn't: for no bytes, a small buffer, or more than the largest size. */
static inline uint64_t manager_run_rounded_(uint64_t page, uint64_t bytes) {
    if (bytes < page || bytes > MANAGER_BYTES)
        return 0;
    const uint64_t over = page == 0 ? 0 : bytes % page;
    const uint64_t more = over == 0 ? 0 : page - over;
    return more <= MANAGER_BYTES - bytes ? bytes + more : 0;
}

/* What the pool is asked for in a call of the manager, before it is run. Says whether it is asked at all. */
static inline int manager_run_asks_(const manager_runner *runner, pool_run_call_ *call) {
    if (call->name == POOL_RUN_MALLOC_)
        call->first = manager_run_rounded_(runner->run.pool.page, call->first);
    if (call->name == POOL_RUN_FREE_)
        return manager_run_find_(runner, call->first) == NULL;
    return call->name != POOL_RUN_MALLOC_ || call->first != 0;
}

static inline pool_result manager_run_settle_(pool_runner *run, const pool_run_call_ *call) {
    manager_runner *const runner = (manager_runner *)(void *)run;
    manager_reply reply;
    pool_result result = pool_run_admitted_(run);
    if (result.answer != POOL_ANSWER_DONE)
        return result;
    pool_run_call_ asked = *call;
    const int is_asked = manager_run_asks_(runner, &asked);
    runner->stream_ = call->second;
    pool_run_begin_(run);
    do {
        reply = manager_run_once_(run, call);
        result.runs++;
    } while (!pool_run_stands_(run, reply.records));
    manager_run_keep_(runner, &reply.manager);
    result.answer = reply.answer, result.first = reply.first, result.second = reply.second;
    return pool_run_end_(run, is_asked ? &asked : NULL, result);
}

/* Makes a manager's runner ready, as pool_run_setup does. It must stay where it is from then on. */
static inline void manager_run_setup(manager_runner *runner, manager_drive drive, void *context, FILE *trace) {
    memset(runner, 0, sizeof *runner);
    pool_run_setup(&runner->run, manager_run_drive_, runner, trace);
    runner->drive_ = drive;
    runner->context_ = context;
}

/* Drops the small buffers that are held, in their order, and closes the pool. First is how many of the pool's driver calls failed; passed_over has those of
   small buffers too. */
static inline pool_result manager_run_close(manager_runner *runner) { return pool_run_settle_close_(&runner->run, manager_run_settle_); }

/* As pool_run_open. */
static inline pool_result manager_run_open(manager_runner *runner, pool_config config) {
    return pool_run_settle_open_(&runner->run, config, manager_run_settle_);
}

/* A buffer of `bytes` for work on a stream: of the pool, in whole pages, or if it is smaller than a page, of the driver. First is its address, second its size
   in whole pages, or as asked for. After 14 of a small buffer the manager goes on. */
static inline pool_result manager_run_malloc(manager_runner *runner, uint64_t bytes, uint64_t stream) {
    return pool_run_settle_malloc_(&runner->run, bytes, stream, manager_run_settle_);
}

/* Gives a buffer back, of either kind. First is its size, second its stream. After 14 of a small buffer it is still held, and the manager goes on. */
static inline pool_result manager_run_free(manager_runner *runner, uint64_t address) {
    return pool_run_settle_free_(&runner->run, address, manager_run_settle_);
}

/* Highest counts from current on. First is what it was, second what it is. No driver call is made, and nothing is traced. */
static inline pool_result manager_run_reset_highest(manager_runner *runner) {
    const pool_result refusal = pool_run_admitted_(&runner->run);
    if (refusal.answer != POOL_ANSWER_DONE)
        return refusal;
    const uint64_t before = runner->highest;
    const manager_value reset = manager_reset_highest(manager_run_value_(runner));
    manager_run_keep_(runner, &reset);
    return pool_run_result_(POOL_ANSWER_DONE, before, runner->highest);
}

#endif
