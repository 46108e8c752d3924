/* The virtual memory pool for C and C++, and above it the manager, which takes sizes in bytes. Link target/staticlib/libfinder.a (`make finder`);
   docs/USING.md says how to use it. No function keeps anything between two calls: pool and manager are values that go in and come back. */
#ifndef FINDER_POOL_H
#define FINDER_POOL_H

#include <stddef.h>
#include <stdint.h>

#ifdef __cplusplus
extern "C" {
#endif

/* The version of this file and of the library: it changes whenever the layout or an answer does. finder/pool_run.h compares the two before each call. */
#define POOL_VERSION 2

/* The ceilings. */
enum {
    POOL_PAGES = 256,    /* active pages */
    POOL_SPANS = 128,    /* free regions and live buffers together */
    POOL_ZOMBIES = 128,
    POOL_HOLES = 512,    /* holes and zombies together */
    POOL_ROOTS = 16,
    MANAGER_SMALLS = 128 /* small buffers of a manager */
};
#define POOL_VA_MAX (UINT64_C(1) << 46)      /* the largest va_size */
#define POOL_ADDRESS_END (UINT64_C(1) << 63) /* where the last address may end */
#define MANAGER_BYTES (UINT64_C(1) << 63)    /* the largest size that a manager asks its pool for */

/* Numbers that a log must have room for: 2,048 records of four. No call makes more than 2,048 driver calls, so as many answers are always enough. */
enum { POOL_LOG_RECORDS = 2048, POOL_RECORD_NUMBERS = 4, POOL_LOG = POOL_LOG_RECORDS * POOL_RECORD_NUMBERS, POOL_ANSWERS = 2 * POOL_LOG_RECORDS };

/* Bytes of stack that are enough for a call, its caller's copies of value and reply included; finder/check/stack.c measures it. */
enum { POOL_STACK = 1 << 20 };

/* pool_value.state */
enum { POOL_STATE_CLOSED = 0, POOL_STATE_OPEN = 1, POOL_STATE_STOPPED = 2 };

/* A record of the log is kind, first, second and code, which is 0 where the call succeeded; a kind is one of these. Beside each: first, second.
   Its answer is a code and a value: a base for reserve, a handle for create, for asked 1 if the event is complete, a pointer for small; else 0. The last two
   are a manager's alone. See docs/RULES.md 2 and 12. */
enum {
    POOL_WORD_RESERVE = 1,   /* base, va_size */
    POOL_WORD_CREATE = 2,    /* handle, page size */
    POOL_WORD_MAP = 3,       /* address, handle: one page */
    POOL_WORD_ACCESS = 4,    /* address, bytes */
    POOL_WORD_UNMAP = 5,     /* address, bytes */
    POOL_WORD_RELEASE = 6,   /* handle, 0 */
    POOL_WORD_RECORD = 7,    /* event id, stream */
    POOL_WORD_ASKED = 8,     /* event id, 1 for complete and 0 else */
    POOL_WORD_WAIT = 9,      /* event id, stream */
    POOL_WORD_SYNC = 10,     /* stream, 0; at close 0, 0: the whole device */
    POOL_WORD_GIVEBACK = 11, /* base, va_size */
    POOL_WORD_SMALL = 17,    /* pointer, bytes: fewer than a page, for work on the malloc's stream */
    POOL_WORD_DROPSMALL = 18 /* pointer, bytes: on the buffer's own stream */
};

/* The answer of a reply. Beside each: first, second, where they are not 0, 0. There is no 18. */
enum {
    POOL_ANSWER_DONE = 0,                 /* open: base, page size; malloc: address, size; free: size, stream; close: number of failed lines */
    POOL_ANSWER_POOL_CLOSED = 1,          /* the pool is closed */
    POOL_ANSWER_POOL_STOPPED = 2,         /* the pool is stopped: close it */
    POOL_ANSWER_NOT_WELL_FORMED = 3,      /* this pool value is none that a call handed back */
    POOL_ANSWER_SHORT_LOG = 4,            /* the log has fewer than POOL_LOG numbers */
    POOL_ANSWER_IDS_SPENT = 5,            /* 2^62 event ids are used up */
    POOL_ANSWER_BAD_SIZE = 6,             /* size: it is 0 or no multiple of the page size; of a manager: 0, or above MANAGER_BYTES when rounded */
    POOL_ANSWER_SPANS_FULL = 7,           /* POOL_SPANS free regions and live buffers */
    POOL_ANSWER_REQUESTED_EXCEEDS_VA = 8, /* size, va_size: nothing free fits, and a reservation is smaller */
    POOL_ANSWER_PAGES_FULL = 9,           /* more than POOL_PAGES pages would be active */
    POOL_ANSWER_ZOMBIES_FULL = 10,        /* zombies, free regions and holes are too many to make room */
    POOL_ANSWER_ROOTS_FULL = 11,          /* no hole is large enough, and POOL_ROOTS ranges are reserved */
    POOL_ANSWER_RESERVE_FAILED = 12,      /* va_size, page size: the driver refused to reserve */
    POOL_ANSWER_OUT_OF_MEMORY = 13,       /* bytes missing, bytes created before creation failed with code 2, and released again */
    POOL_ANSWER_DRIVER_FAILED = 14,       /* the driver's code: the pool is stopped, unless it was a small or a dropsmall: then nothing has changed */
    POOL_ANSWER_INCREDIBLE = 15,          /* a base, a handle or a pointer that cannot be: the pool is stopped */
    POOL_ANSWER_INVALID_POINTER = 16,     /* address: no live buffer starts there */
    POOL_ANSWER_ANSWERS_RAN_OUT = 17,     /* the last record of the log is the driver call to make; the pool is as it came */
    POOL_ANSWER_BAD_CONFIGURATION = 19,   /* what open was handed: sizes of 0, no multiples, or too large */
    POOL_ANSWER_SMALLS_FULL = 20          /* MANAGER_SMALLS small buffers, and one more was asked for: a manager's alone */
};

/* The pool value, field by field as the library lays it out: finder/check/layout.c holds this file to it. To a caller it is opaque; the fields are for
   whoever prints or stores one. The tables hold `count` entries, and 0 past them. */
typedef struct { uint64_t start, size, stream, id; } pool_free_region;
typedef struct { uint64_t start, size, stream; } pool_live_buffer;
typedef struct { uint64_t start, size; } pool_hole;
typedef struct { uint64_t start, size, id; } pool_zombie;
typedef struct { uint64_t start, handle; } pool_page;

typedef struct { pool_free_region cells[POOL_SPANS]; size_t count; } pool_free_regions;
typedef struct { pool_live_buffer cells[POOL_SPANS]; size_t count; } pool_live_buffers;
typedef struct { pool_hole cells[POOL_HOLES]; size_t count; } pool_holes;
typedef struct { pool_zombie cells[POOL_ZOMBIES]; size_t count; } pool_zombies;
typedef struct { pool_page cells[POOL_PAGES]; size_t count; } pool_pages;
typedef struct { uint64_t cells[POOL_ROOTS]; size_t count; } pool_roots;

typedef struct {
    uint64_t state;   /* POOL_STATE_.. */
    uint64_t page;    /* the page size */
    uint64_t va;      /* the size of each root */
    uint64_t counter; /* the next event id */
    pool_free_regions free;
    pool_live_buffers live;
    pool_holes holes;
    pool_zombies zombies;
    pool_pages pages;
    pool_roots roots;
} pool_value;

typedef struct {
    pool_value pool; /* the pool after the call: the next call's */
    uint64_t answer; /* POOL_ANSWER_.. */
    uint64_t first;
    uint64_t second;
    size_t records; /* that stand in the log, from its start on; no other number of it is changed */
    size_t taken;   /* answers that were taken */
} pool_reply;

/* The manager's value: the pool, and what stands above it. */
typedef struct { uint64_t pointer, size, stream; } manager_small_buffer;
typedef struct { manager_small_buffer cells[MANAGER_SMALLS]; size_t count; } manager_small_buffers;

typedef struct {
    pool_value pool;
    manager_small_buffers small; /* in the order in which they came */
    uint64_t current;            /* the bytes held: of small buffers as asked for, of others in whole pages */
    uint64_t highest;            /* the most that ever were, since the opening or the last reset */
} manager_value;

typedef struct {
    manager_value manager; /* the manager after the call: the next call's */
    uint64_t answer;       /* this and the others as in pool_reply */
    uint64_t first;
    uint64_t second;
    size_t records;
    size_t taken;
} manager_reply;

/* `answers` are pairs of code and value, `answers_len` and `log_len` count numbers. Neither pointer may be null, whatever the length; both are aligned to
   8 bytes, and the two arrays don't overlap. Nothing else is asked: every value, size, address, stream, answer and length is answered. To have a call
   run to its end, with its driver calls made, see finder/pool_run.h. */

pool_reply pool_open(uint64_t granularity, uint64_t override_size, uint64_t va_size, uint64_t initial_pages, uint64_t initial_stream,
                     const uint64_t *answers, size_t answers_len, uint64_t *log, size_t log_len);
pool_reply pool_malloc(pool_value pool, uint64_t bytes, uint64_t stream, const uint64_t *answers, size_t answers_len, uint64_t *log, size_t log_len);
pool_reply pool_free(pool_value pool, uint64_t address, const uint64_t *answers, size_t answers_len, uint64_t *log, size_t log_len);
pool_reply pool_close(pool_value pool, const uint64_t *answers, size_t answers_len, uint64_t *log, size_t log_len);

/* The same in bytes, as docs/RULES.md 12 says. A size of a page or more is rounded up to whole pages, which the pool serves. A smaller one is the driver's
   own buffer: the malloc makes one driver call, a small, and the free a dropsmall. An opening is the pool's; a close drops the small buffers, in their order,
   and then closes the pool, whose answer it gives. Numbers of answers and words are the pool's, with those above that are a manager's alone. */

manager_reply manager_open(uint64_t granularity, uint64_t override_size, uint64_t va_size, uint64_t initial_pages, uint64_t initial_stream,
                           const uint64_t *answers, size_t answers_len, uint64_t *log, size_t log_len);
manager_reply manager_malloc(manager_value manager, uint64_t bytes, uint64_t stream, const uint64_t *answers, size_t answers_len, uint64_t *log,
                             size_t log_len);
manager_reply manager_free(manager_value manager, uint64_t address, const uint64_t *answers, size_t answers_len, uint64_t *log, size_t log_len);
manager_reply manager_close(manager_value manager, const uint64_t *answers, size_t answers_len, uint64_t *log, size_t log_len);

/* The manager with its highest set to its current, whatever its state. */
manager_value manager_reset_highest(manager_value manager);

/* The library's own POOL_VERSION. */
uint64_t pool_version(void);

#ifdef __cplusplus
}
#endif

#endif
