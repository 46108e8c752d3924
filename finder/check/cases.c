/* What finder/pool_run.h promises beside the calls themselves: one case after the other, on a card that does as it is told. */
#include "../pool.h"
#include <setjmp.h>

/* The library's version, as the cases want it. */
static uint64_t library_version = POOL_VERSION;
static uint64_t told_version(void) { return library_version; }
#define pool_version told_version
#undef POOL_RUN_NO_VERSION_CHECK
#include "../pool_run.h"

#define PAGE ((uint64_t)4)
#define VA ((uint64_t)40)
#define BASE (2 * VA)
#define GUESSED (UINT64_C(1) << 63)
#define SMALL ((uint64_t)100000)
enum { CODE = 700, NO_MEMORY = 2, HANDLES = 64, KINDS = POOL_WORD_DROPSMALL + 1 };

/* Counts out bases and handles, keeps the handles that are held, and fails where it is told to. */
typedef struct {
    uint64_t reserved, created;
    uint64_t fails_after[KINDS], code[KINDS]; /* one call of a word, after so many that succeed; code 0 for none */
    uint64_t give[HANDLES], given, to_give;   /* handles or bases for the next creates and reserves */
    uint64_t held[HANDLES];
    size_t held_count, calls, calls_of[KINDS];
    uint64_t small;        /* made so far */
    uint64_t last_stream;  /* of a small buffer */
    uint64_t last_pointer; /* dropped */
    uint64_t complete;     /* 1: every event is */
    int calls_back, jumps;
    jmp_buf out;
} told_card;

static pool_runner runner;
static manager_runner manager;
static told_card card;
static int cases;

static void must_at(int line, int holds, const char *what) {
    cases++;
    if (holds)
        return;
    fprintf(stderr, "cases: line %d: not so: %s\n", line, what);
    exit(1);
}
#define MUST(holds) must_at(__LINE__, holds, #holds)

static void release(uint64_t handle) {
    size_t i = 0;
    while (i < card.held_count && card.held[i] != handle)
        i++;
    MUST(i < card.held_count);
    card.held[i] = card.held[--card.held_count];
}

static uint64_t value(const pool_record *call) {
    uint64_t told;
    switch (call->kind) {
    case POOL_WORD_RESERVE:
        told = VA * (card.reserved += 2);
        return card.given < card.to_give ? card.give[card.given++] : told;
    case POOL_WORD_CREATE:
        told = card.given < card.to_give ? card.give[card.given++] : ++card.created;
        MUST(card.held_count < HANDLES);
        card.held[card.held_count++] = told;
        return told;
    case POOL_WORD_SMALL:
        told = SMALL + 256 * card.small++;
        return card.given < card.to_give ? card.give[card.given++] : told;
    case POOL_WORD_ASKED: return card.complete;
    case POOL_WORD_RELEASE: release(call->first); return 0;
    default: return 0;
    }
}

static pool_answer drive(void *context, const pool_record *call) {
    pool_answer answer = {0, 0};
    MUST(context == &card && call->code == 0);
    MUST((call->kind != POOL_WORD_RESERVE && call->kind != POOL_WORD_CREATE && call->kind != POOL_WORD_SMALL) || call->first == 0);
    MUST(call->kind != POOL_WORD_ASKED || call->second == 0);
    card.calls++;
    card.calls_of[call->kind]++;
    if (card.calls_back && runner.running_)
        MUST(pool_run_free(&runner, BASE).answer == POOL_RUN_BUSY);
    if (card.jumps)
        longjmp(card.out, 1);
    if (card.code[call->kind] != 0 && card.fails_after[call->kind]-- == 0) {
        answer.code = card.code[call->kind];
        card.code[call->kind] = 0;
        return answer;
    }
    answer.value = value(call);
    return answer;
}

static pool_answer drive_on(void *context, const pool_record *call, uint64_t stream) {
    const int is_small = call->kind == POOL_WORD_SMALL || call->kind == POOL_WORD_DROPSMALL;
    MUST(is_small || stream == 0);
    if (is_small)
        card.last_stream = stream;
    if (call->kind == POOL_WORD_DROPSMALL)
        card.last_pointer = call->first;
    if (card.calls_back)
        MUST(manager_run_free(&manager, BASE).answer == POOL_RUN_BUSY && manager_run_reset_highest(&manager).answer == POOL_RUN_BUSY);
    return drive(context, call);
}

static void fail(int kind, uint64_t after, uint64_t code) {
    card.fails_after[kind] = after;
    card.code[kind] = code;
}

static void give(uint64_t number) { card.give[card.to_give++] = number; }

static pool_config config_of(uint64_t initial_pages) {
    const pool_config config = {PAGE, 0, VA, initial_pages, 7};
    return config;
}

/* A new card and a runner in memory that held anything. */
static void begin(void) {
    memset(&card, 0, sizeof card);
    memset(&runner, 0xa5, sizeof runner);
    pool_run_setup(&runner, drive, &card, NULL);
    MUST(runner.pool.state == POOL_STATE_CLOSED);
}

static void begin_open(void) {
    begin();
    const pool_result opened = pool_run_open(&runner, config_of(0));
    MUST(opened.answer == POOL_ANSWER_DONE && opened.first == BASE && opened.second == PAGE);
    MUST(opened.driver_calls == 1 && opened.passed_over == 0 && opened.runs == 2);
}

static void texts(void) {
    for (uint64_t answer = 0; answer < 21; answer++) {
        MUST((strcmp(pool_answer_text(answer), "unknown answer") == 0) == (answer == 18));
        for (uint64_t other = 0; other < answer; other++)
            MUST(strcmp(pool_answer_text(answer), pool_answer_text(other)) != 0);
    }
    MUST(strcmp(pool_answer_text(21), "unknown answer") == 0 && strcmp(pool_answer_text(UINT64_MAX), "unknown answer") == 0);
    for (uint64_t answer = POOL_RUN_OTHER_VERSION; answer <= POOL_RUN_BUSY; answer++)
        MUST(strcmp(pool_answer_text(answer), "unknown answer") != 0);
    for (uint64_t kind = 0; kind < 20; kind++)
        MUST((strcmp(pool_word_text(kind), "unknown word") == 0) == (kind == 0 || (kind > 11 && kind != 17 && kind != 18)));
    MUST(strcmp(pool_word_text(POOL_WORD_RESERVE), "reserve") == 0 && strcmp(pool_word_text(POOL_WORD_GIVEBACK), "giveback") == 0);
    MUST(strcmp(pool_word_text(POOL_WORD_SMALL), "small") == 0 && strcmp(pool_word_text(POOL_WORD_DROPSMALL), "dropsmall") == 0);
}

/* A library of another version is not called: its pool may be laid out otherwise. */
static void other_version(void) {
    begin();
    library_version = POOL_VERSION + 1;
    const pool_result opened = pool_run_open(&runner, config_of(0));
    MUST(opened.answer == POOL_RUN_OTHER_VERSION && opened.first == POOL_VERSION + 1 && opened.second == POOL_VERSION);
    MUST(opened.runs == 0 && pool_run_close(&runner).answer == POOL_RUN_OTHER_VERSION && card.calls == 0);
    library_version = POOL_VERSION;
    MUST(pool_run_open(&runner, config_of(0)).answer == POOL_ANSWER_DONE);
}

/* An open pool is not lost to a second opening, and a closed runner serves again. */
static void second_opening(void) {
    begin_open();
    const pool_result again = pool_run_open(&runner, config_of(0));
    MUST(again.answer == POOL_RUN_NOT_CLOSED && again.runs == 0 && card.calls == 1);
    MUST(runner.pool.state == POOL_STATE_OPEN && runner.pool.roots.count == 1);
    MUST(pool_run_close(&runner).answer == POOL_ANSWER_DONE && runner.pool.state == POOL_STATE_CLOSED);
    MUST(pool_run_malloc(&runner, PAGE, 1).answer == POOL_ANSWER_POOL_CLOSED);
    MUST(pool_run_open(&runner, config_of(0)).answer == POOL_ANSWER_DONE);
}

static void calls_within_calls(void) {
    begin_open();
    card.calls_back = 1;
    MUST(pool_run_malloc(&runner, PAGE, 1).answer == POOL_ANSWER_DONE);
    card.calls_back = 0;
    MUST(pool_run_free(&runner, BASE).answer == POOL_ANSWER_DONE);
    card.jumps = 1;
    if (setjmp(card.out) == 0)
        pool_run_malloc(&runner, 2 * PAGE, 1);
    card.jumps = 0;
    MUST(pool_run_malloc(&runner, PAGE, 1).answer == POOL_RUN_BUSY && pool_run_close(&runner).answer == POOL_RUN_BUSY);
}

/* The handle of a map that failed is in no table: the close doesn't release it, and the result tells it. */
static void orphan_handle(void) {
    begin_open();
    fail(POOL_WORD_MAP, 1, CODE);
    const pool_result stopped = pool_run_malloc(&runner, 3 * PAGE, 1);
    MUST(stopped.answer == POOL_ANSWER_DRIVER_FAILED && stopped.first == CODE && stopped.driver_calls == 4 && stopped.passed_over == 0);
    MUST(stopped.stopped_by.kind == POOL_WORD_MAP && stopped.stopped_by.first == BASE + PAGE && stopped.stopped_by.second == 2);
    MUST(stopped.stopped_by.code == CODE && runner.pool.state == POOL_STATE_STOPPED);
    MUST(pool_run_malloc(&runner, PAGE, 1).answer == POOL_ANSWER_POOL_STOPPED);
    const pool_result closed = pool_run_close(&runner);
    MUST(closed.answer == POOL_ANSWER_DONE && closed.first == 0 && closed.passed_over == 0);
    MUST(card.held_count == 1 && card.held[0] == stopped.stopped_by.second);
}

static void orphan_base(void) {
    begin_open();
    MUST(pool_run_malloc(&runner, 2 * PAGE, 1).answer == POOL_ANSWER_DONE);
    give(BASE + PAGE);
    const pool_result stopped = pool_run_malloc(&runner, 9 * PAGE, 1);
    MUST(stopped.answer == POOL_ANSWER_INCREDIBLE && stopped.stopped_by.kind == POOL_WORD_RESERVE && stopped.stopped_by.first == BASE + PAGE);
    MUST(stopped.stopped_by.code == 0 && pool_run_close(&runner).answer == POOL_ANSWER_DONE && card.held_count == 0);
}

/* An opening that fails behind its reservation gives back what it took. */
static void failed_openings(void) {
    static const int kinds[] = {POOL_WORD_CREATE, POOL_WORD_MAP, POOL_WORD_ACCESS, POOL_WORD_RECORD, POOL_WORD_SYNC};
    for (size_t i = 0; i < sizeof kinds / sizeof *kinds; i++) {
        begin();
        fail(kinds[i], 0, CODE);
        fail(POOL_WORD_GIVEBACK, 0, CODE);
        const pool_result opened = pool_run_open(&runner, config_of(2));
        MUST(opened.answer == POOL_ANSWER_DRIVER_FAILED && opened.first == CODE && opened.stopped_by.kind == (uint64_t)kinds[i]);
        MUST(card.calls_of[POOL_WORD_GIVEBACK] == 1 && runner.pool.state == POOL_STATE_CLOSED);
        MUST(opened.driver_calls == card.calls && opened.passed_over == 1 && opened.runs == 5);
    }
    begin();
    fail(POOL_WORD_RESERVE, 0, CODE);
    MUST(pool_run_open(&runner, config_of(2)).answer == POOL_ANSWER_RESERVE_FAILED && card.calls == 1);
}

static void failures_passed_over(void) {
    begin_open();
    fail(POOL_WORD_CREATE, 2, NO_MEMORY);
    fail(POOL_WORD_UNMAP, 1, CODE);
    const pool_result refused = pool_run_malloc(&runner, 3 * PAGE, 1);
    MUST(refused.answer == POOL_ANSWER_OUT_OF_MEMORY && refused.first == 3 * PAGE && refused.second == 2 * PAGE);
    MUST(refused.passed_over == 1 && refused.stopped_by.kind == 0 && card.held_count == 0);
    MUST(pool_run_malloc(&runner, 2 * PAGE, 1).answer == POOL_ANSWER_DONE);
    fail(POOL_WORD_SYNC, 0, CODE);
    fail(POOL_WORD_UNMAP, 1, CODE);
    const pool_result closed = pool_run_close(&runner);
    MUST(closed.answer == POOL_ANSWER_DONE && closed.first == 2 && closed.passed_over == 2 && card.held_count == 0);
}

/* A driver may give the very handles that are guessed, at their own places and at others; and one of them twice, where the run knows its page by another. */
static void guessed_handles(void) {
    for (uint64_t place = 0; place < 8; place++) {
        begin_open();
        give(GUESSED + place);
        const pool_result made = pool_run_malloc(&runner, 3 * PAGE, 1);
        MUST(made.answer == POOL_ANSWER_DONE && runner.pool.pages.cells[0].handle == GUESSED + place);
        give(GUESSED + place + 1);
        MUST(pool_run_malloc(&runner, 4 * PAGE, 2).answer == POOL_ANSWER_DONE);
        MUST(pool_run_close(&runner).answer == POOL_ANSWER_DONE && card.held_count == 0);
    }
    for (uint64_t place = 0; place < 8; place++) {
        begin_open();
        give(GUESSED + place);
        give(GUESSED + place);
        const pool_result stopped = pool_run_malloc(&runner, 3 * PAGE, 1);
        MUST(stopped.answer == POOL_ANSWER_INCREDIBLE && stopped.driver_calls == 3 && stopped.stopped_by.kind == POOL_WORD_CREATE);
        MUST(stopped.stopped_by.first == GUESSED + place);
    }
}

/* However many pages are made, a call takes two runs, and one where all is as guessed. */
static void runs(void) {
    begin_open();
    const pool_result made = pool_run_malloc(&runner, 10 * PAGE, 1);
    MUST(made.answer == POOL_ANSWER_DONE && made.runs == 2 && made.driver_calls == 22);
    MUST(pool_run_free(&runner, made.first).runs == 1);
    MUST(pool_run_malloc(&runner, 3 * PAGE, 1).runs == 1); /* it fits */
    MUST(pool_run_malloc(&runner, 3 * PAGE, 2).runs == 2); /* it doesn't, and a range is reserved */
    MUST(pool_run_malloc(&runner, 4 * PAGE, 3).runs == 1); /* pages move, and their streams are waited for */
    card.complete = 1;
    MUST(pool_run_malloc(&runner, PAGE, 1).runs == 4); /* two zombies are complete, and a page is made */
}

/* The trace may be turned on and off between calls. */
static void traces(void) {
    char text[100] = "";
    FILE *file = tmpfile();
    MUST(file != NULL);
    begin_open();
    runner.trace = file;
    MUST(pool_run_free(&runner, 5).answer == POOL_ANSWER_INVALID_POINTER);
    runner.trace = NULL;
    MUST(pool_run_free(&runner, 6).answer == POOL_ANSWER_INVALID_POINTER);
    rewind(file);
    text[fread(text, 1, sizeof text - 1, file)] = 0;
    fclose(file);
    MUST(strcmp(text, "free\t5\t0\t0\nresult\t5\t0\t16\n") == 0);
}

/* The trace of the manager since it was last looked at. */
static FILE *manager_trace;
static char manager_text[20000];

static const char *traced(void) {
    fflush(manager_trace);
    rewind(manager_trace);
    manager_text[fread(manager_text, 1, sizeof manager_text - 1, manager_trace)] = 0;
    fclose(manager_trace);
    manager_trace = tmpfile();
    MUST(manager_trace != NULL);
    manager.run.trace = manager_trace;
    return manager_text;
}
#define TRACED(text) MUST(strcmp(traced(), text) == 0)

static void begin_manager(void) {
    memset(&card, 0, sizeof card);
    memset(&manager, 0xa5, sizeof manager);
    if (manager_trace == NULL)
        manager_trace = tmpfile();
    MUST(manager_trace != NULL);
    manager_run_setup(&manager, drive_on, &card, manager_trace);
    MUST(manager.run.pool.state == POOL_STATE_CLOSED && manager.small.count == 0 && manager.current == 0 && manager.highest == 0);
    traced();
    const pool_result opened = manager_run_open(&manager, config_of(0));
    MUST(opened.answer == POOL_ANSWER_DONE && opened.first == BASE && opened.second == PAGE);
    TRACED("open\t4\t40\t0\nreserve\t80\t40\t0\nresult\t80\t4\t0\n");
}

static int is_result(pool_result result, uint64_t answer, uint64_t first, uint64_t second) {
    return result.answer == answer && result.first == first && result.second == second;
}

static int holds(uint64_t current, uint64_t highest, size_t small) {
    return manager.current == current && manager.highest == highest && manager.small.count == small;
}

/* Sizes in bytes: whole pages of the pool, small ones of the driver, on the right streams; what is held; what is traced. */
static void sizes_in_bytes(void) {
    begin_manager();
    MUST(is_result(manager_run_malloc(&manager, 5, 1), POOL_ANSWER_DONE, BASE, 8) && holds(8, 8, 0));
    TRACED("malloc\t8\t1\t0\ncreate\t1\t4\t0\nmap\t80\t1\t0\ncreate\t2\t4\t0\nmap\t84\t2\t0\naccess\t80\t8\t0\nrecord\t0\t1\t0\nresult\t80\t8\t0\n");
    const pool_result small = manager_run_malloc(&manager, 3, 6);
    MUST(is_result(small, POOL_ANSWER_DONE, SMALL, 3) && small.runs == 2 && small.driver_calls == 1 && holds(11, 11, 1) && card.last_stream == 6);
    TRACED("small\t100000\t3\t0\n");
    MUST(is_result(manager_run_malloc(&manager, 1, 7), POOL_ANSWER_DONE, SMALL + 256, 1) && holds(12, 12, 2) && card.last_stream == 7);
    traced();
    const pool_result dropped = manager_run_free(&manager, SMALL);
    MUST(is_result(dropped, POOL_ANSWER_DONE, 3, 6) && dropped.runs == 1 && holds(9, 12, 1) && card.last_stream == 6 && card.last_pointer == SMALL);
    TRACED("dropsmall\t100000\t3\t0\n");
    MUST(is_result(manager_run_free(&manager, BASE), POOL_ANSWER_DONE, 8, 1) && holds(1, 12, 1));
    TRACED("free\t80\t0\t0\nrecord\t1\t1\t0\nresult\t8\t1\t0\n");
    MUST(is_result(manager_run_free(&manager, SMALL), POOL_ANSWER_INVALID_POINTER, SMALL, 0));
    TRACED("free\t100000\t0\t0\nresult\t100000\t0\t16\n");
    MUST(is_result(manager_run_reset_highest(&manager), POOL_ANSWER_DONE, 12, 1) && holds(1, 1, 1));
    TRACED("");
    const pool_result closed = manager_run_close(&manager);
    MUST(is_result(closed, POOL_ANSWER_DONE, 0, 0) && holds(0, 0, 0) && manager.run.pool.state == POOL_STATE_CLOSED && card.last_stream == 7);
    TRACED("dropsmall\t100256\t1\t0\nclose\t0\t0\t0\nsync\t0\t0\t0\nunmap\t80\t4\t0\nrelease\t1\t0\t0\nunmap\t84\t4\t0\nrelease\t2\t0\t0\n"
           "giveback\t80\t40\t0\nresult\t0\t0\t0\n");
    /* what the manager refuses itself has no line; what its pool is asked for has */
    MUST(manager_run_malloc(&manager, 3, 1).answer == POOL_ANSWER_POOL_CLOSED && manager_run_malloc(&manager, 0, 1).answer == POOL_ANSWER_POOL_CLOSED);
    MUST(manager_run_close(&manager).answer == POOL_ANSWER_POOL_CLOSED);
    TRACED("malloc\t3\t1\t0\nresult\t0\t0\t1\nclose\t0\t0\t0\nresult\t0\t0\t1\n");
}

static void sizes_refused(void) {
    begin_manager();
    MUST(is_result(manager_run_malloc(&manager, 0, 1), POOL_ANSWER_BAD_SIZE, 0, 0));
    MUST(is_result(manager_run_malloc(&manager, MANAGER_BYTES + 1, 1), POOL_ANSWER_BAD_SIZE, MANAGER_BYTES + 1, 0));
    MUST(is_result(manager_run_malloc(&manager, UINT64_MAX, 1), POOL_ANSWER_BAD_SIZE, UINT64_MAX, 0));
    TRACED("");
    MUST(is_result(manager_run_malloc(&manager, MANAGER_BYTES - 3, 1), POOL_ANSWER_REQUESTED_EXCEEDS_VA, MANAGER_BYTES, VA));
    TRACED("malloc\t9223372036854775808\t1\t0\nresult\t9223372036854775808\t40\t8\n");
    for (uint64_t i = 0; i < MANAGER_SMALLS; i++)
        MUST(is_result(manager_run_malloc(&manager, 2, i), POOL_ANSWER_DONE, SMALL + 256 * i, 2));
    traced();
    const size_t calls = card.calls;
    MUST(is_result(manager_run_malloc(&manager, 2, 1), POOL_ANSWER_SMALLS_FULL, 0, 0) && manager_run_malloc(&manager, 0, 1).answer == POOL_ANSWER_BAD_SIZE);
    MUST(card.calls == calls && holds(256, 256, MANAGER_SMALLS));
    TRACED("");
    MUST(manager_run_malloc(&manager, PAGE, 1).answer == POOL_ANSWER_DONE);
    for (uint64_t i = 0; i < MANAGER_SMALLS; i += 2)
        MUST(is_result(manager_run_free(&manager, SMALL + 256 * i), POOL_ANSWER_DONE, 2, i) && card.last_stream == i);
    MUST(manager_run_malloc(&manager, 2, 1).answer == POOL_ANSWER_DONE);
    MUST(manager_run_close(&manager).answer == POOL_ANSWER_DONE && card.held_count == 0 && card.calls_of[POOL_WORD_DROPSMALL] == MANAGER_SMALLS + 1);
}

/* 2^63 is no multiple of three: rounded it is too large. */
static void sizes_rounded_too_far(void) {
    const pool_config config = {3, 0, 39, 0, 0};
    begin_manager();
    MUST(manager_run_close(&manager).answer == POOL_ANSWER_DONE);
    give(78);
    MUST(is_result(manager_run_open(&manager, config), POOL_ANSWER_DONE, 78, 3));
    traced();
    MUST(is_result(manager_run_malloc(&manager, MANAGER_BYTES, 1), POOL_ANSWER_BAD_SIZE, MANAGER_BYTES, 0));
    MUST(is_result(manager_run_malloc(&manager, MANAGER_BYTES - 1, 1), POOL_ANSWER_BAD_SIZE, MANAGER_BYTES - 1, 0));
    TRACED("");
    MUST(is_result(manager_run_malloc(&manager, MANAGER_BYTES - 2, 1), POOL_ANSWER_REQUESTED_EXCEEDS_VA, MANAGER_BYTES - 2, 39));
    TRACED("malloc\t9223372036854775806\t1\t0\nresult\t9223372036854775806\t39\t8\n");
    MUST(is_result(manager_run_malloc(&manager, 4, 1), POOL_ANSWER_DONE, 78, 6) && is_result(manager_run_malloc(&manager, 2, 1), POOL_ANSWER_DONE, SMALL, 2));
}

/* A small or dropsmall that fails stops nothing, and changes nothing; a close goes on and tells of it. */
static void failed_smalls(void) {
    begin_manager();
    MUST(manager_run_malloc(&manager, 3, 5).answer == POOL_ANSWER_DONE);
    const manager_value before = manager_run_value_(&manager);
    traced();
    fail(POOL_WORD_SMALL, 0, NO_MEMORY);
    pool_result failed = manager_run_malloc(&manager, 1, 1);
    MUST(is_result(failed, POOL_ANSWER_DRIVER_FAILED, NO_MEMORY, 0) && failed.passed_over == 0 && failed.stopped_by.kind == POOL_WORD_SMALL);
    MUST(failed.stopped_by.first == 0 && failed.stopped_by.second == 1 && failed.stopped_by.code == NO_MEMORY);
    TRACED("small\t0\t1\t2\n");
    fail(POOL_WORD_DROPSMALL, 0, CODE);
    failed = manager_run_free(&manager, SMALL);
    MUST(is_result(failed, POOL_ANSWER_DRIVER_FAILED, CODE, 0) && failed.passed_over == 0 && failed.stopped_by.kind == POOL_WORD_DROPSMALL);
    TRACED("dropsmall\t100000\t3\t700\n");
    const manager_value after = manager_run_value_(&manager);
    MUST(memcmp(&before, &after, sizeof before) == 0);
    MUST(manager_run_malloc(&manager, 2, 8).answer == POOL_ANSWER_DONE && manager_run_malloc(&manager, PAGE, 1).answer == POOL_ANSWER_DONE);
    traced();
    fail(POOL_WORD_DROPSMALL, 0, CODE);
    fail(POOL_WORD_GIVEBACK, 0, CODE);
    const pool_result closed = manager_run_close(&manager);
    MUST(is_result(closed, POOL_ANSWER_DONE, 1, 0) && closed.passed_over == 2 && card.last_stream == 8 && card.held_count == 0);
    TRACED("dropsmall\t100000\t3\t700\ndropsmall\t100256\t2\t0\nclose\t0\t0\t0\nsync\t0\t0\t0\nunmap\t80\t4\t0\nrelease\t1\t0\t0\n"
           "giveback\t80\t40\t700\nresult\t1\t0\t0\n");
    MUST(holds(0, 0, 0) && manager.run.pool.state == POOL_STATE_CLOSED);
}

/* Pointers that can't be stop the pool, and nothing else changes. A guessed one may be given, once. */
static void incredible_pointers(void) {
    static const uint64_t pointers[] = {0, SMALL, BASE, BASE + 1, BASE + VA - 1, GUESSED};
    for (size_t i = 0; i < sizeof pointers / sizeof *pointers; i++) {
        begin_manager();
        if (pointers[i] == GUESSED)
            give(GUESSED);
        MUST(manager_run_malloc(&manager, 3, 1).answer == POOL_ANSWER_DONE);
        traced();
        give(pointers[i]);
        const pool_result stopped = manager_run_malloc(&manager, 2, 1);
        MUST(is_result(stopped, POOL_ANSWER_INCREDIBLE, 0, 0) && stopped.stopped_by.kind == POOL_WORD_SMALL && stopped.stopped_by.first == pointers[i]);
        MUST(manager.run.pool.state == POOL_STATE_STOPPED && holds(3, 3, 1) && stopped.runs == (pointers[i] == GUESSED ? 1 : 2));
        traced();
        const uint64_t held = manager.small.cells[0].pointer;
        MUST(manager_run_malloc(&manager, 2, 1).answer == POOL_ANSWER_POOL_STOPPED && manager_run_free(&manager, held).answer == POOL_ANSWER_POOL_STOPPED);
        TRACED("");
        MUST(manager_run_malloc(&manager, 6, 1).answer == POOL_ANSWER_POOL_STOPPED && manager_run_free(&manager, 5).answer == POOL_ANSWER_POOL_STOPPED);
        TRACED("malloc\t8\t1\t0\nresult\t0\t0\t2\nfree\t5\t0\t0\nresult\t0\t0\t2\n");
        MUST(manager_run_close(&manager).answer == POOL_ANSWER_DONE && card.last_pointer == held);
    }
    begin_manager();
    give(BASE - 1); /* it ends in a root, and the pointer alone counts */
    MUST(is_result(manager_run_malloc(&manager, 3, 1), POOL_ANSWER_DONE, BASE - 1, 3));
    give(BASE + VA);
    MUST(is_result(manager_run_malloc(&manager, 3, 1), POOL_ANSWER_DONE, BASE + VA, 3));
    /* a root that comes to lie there: the small buffer is found first, and then the pool is asked */
    MUST(is_result(manager_run_malloc(&manager, VA, 1), POOL_ANSWER_DONE, BASE, VA));
    give(BASE + VA);
    MUST(is_result(manager_run_malloc(&manager, PAGE, 1), POOL_ANSWER_DONE, BASE + VA, PAGE) && holds(50, 50, 2));
    MUST(is_result(manager_run_free(&manager, BASE + VA), POOL_ANSWER_DONE, 3, 1));
    MUST(is_result(manager_run_free(&manager, BASE + VA), POOL_ANSWER_DONE, PAGE, 1));
    MUST(holds(43, 50, 1));
}

/* What a manager's runner shares with a pool's. */
static void manager_like_a_pool(void) {
    begin_manager();
    MUST(manager_run_open(&manager, config_of(0)).answer == POOL_RUN_NOT_CLOSED);
    library_version = POOL_VERSION + 1;
    MUST(manager_run_malloc(&manager, 1, 1).answer == POOL_RUN_OTHER_VERSION && manager_run_reset_highest(&manager).answer == POOL_RUN_OTHER_VERSION);
    library_version = POOL_VERSION;
    card.calls_back = 1;
    MUST(manager_run_malloc(&manager, 1, 1).answer == POOL_ANSWER_DONE && manager_run_malloc(&manager, PAGE, 1).answer == POOL_ANSWER_DONE);
    card.calls_back = 0;
    MUST(manager_run_close(&manager).answer == POOL_ANSWER_DONE);
    card.jumps = 1;
    MUST(manager_run_malloc(&manager, 1, 1).answer == POOL_ANSWER_POOL_CLOSED);
    card.jumps = 0;
    MUST(manager_run_open(&manager, config_of(0)).answer == POOL_ANSWER_DONE);
    card.jumps = 1;
    if (setjmp(card.out) == 0)
        manager_run_malloc(&manager, 1, 1);
    card.jumps = 0;
    MUST(manager_run_malloc(&manager, 1, 1).answer == POOL_RUN_BUSY && manager_run_close(&manager).answer == POOL_RUN_BUSY);
    /* an opening that fails is closed */
    memset(&card, 0, sizeof card);
    manager_run_setup(&manager, drive_on, &card, NULL);
    fail(POOL_WORD_SYNC, 0, CODE);
    const pool_result opened = manager_run_open(&manager, config_of(2));
    MUST(opened.answer == POOL_ANSWER_DRIVER_FAILED && opened.stopped_by.kind == POOL_WORD_SYNC && card.calls_of[POOL_WORD_GIVEBACK] == 1);
    MUST(manager.run.pool.state == POOL_STATE_CLOSED && card.held_count == 0);
}

int main(void) {
    texts();
    other_version();
    second_opening();
    calls_within_calls();
    orphan_handle();
    orphan_base();
    failed_openings();
    failures_passed_over();
    guessed_handles();
    runs();
    traces();
    sizes_in_bytes();
    sizes_refused();
    sizes_rounded_too_far();
    failed_smalls();
    incredible_pointers();
    manager_like_a_pool();
    printf("cases: %d checks of pool_run.h\n", cases);
    return 0;
}
