/* The stack that a call needs, of a pool and of a manager: each call of a session is made on a thread whose stack is painted, and the paint that is gone is
   counted, with what finder/pool_run.h needs, its copies of pool or manager and reply among it. Frames have fixed sizes, so what counts is which functions are
   reached, not how full the pool is: the session makes room, pulls on its own and on another stream, rolls back, and hands each call pools that must be put in
   order first. */
#define _POSIX_C_SOURCE 200809L
#include "../pool_run.h"
#include <pthread.h>

enum { OPEN, MALLOC, FREE, CLOSE, RESET, CALLS, PAINTED = 4 << 20 };
#define PAGE ((uint64_t)64)
#define VA (PAGE * 4096)

static _Alignas(4096) uint64_t stack[PAINTED / sizeof(uint64_t)];
static const uint64_t paint = 0xa5a5a5a5a5a5a5a5;
static uint64_t answers[POOL_ANSWERS];
static size_t taken; /* pairs of them, by the call that runs */
static int in_bytes; /* the manager is called, and not a pool */
static manager_runner runner; /* of a pool its run */
static struct { int word; uint64_t first, second; pool_result result; } call;
static size_t most[CALLS];

static pool_answer drive(void *unused, const pool_record *wanted) {
    const pool_answer answer = {answers[2 * taken], answers[2 * taken + 1]};
    (void)unused, (void)wanted;
    taken++;
    return answer;
}

static pool_answer drive_on(void *unused, const pool_record *wanted, uint64_t stream) {
    (void)stream;
    return drive(unused, wanted);
}

/* Only what the call itself needs is done here: a function for each, so that no frame holds the values of two. */
static void *call_pool(void *unused) {
    const pool_config config = {PAGE, 0, VA, call.first, call.second};
    if (call.word == OPEN)
        call.result = pool_run_open(&runner.run, config);
    else if (call.word == MALLOC)
        call.result = pool_run_malloc(&runner.run, call.first, call.second);
    else if (call.word == FREE)
        call.result = pool_run_free(&runner.run, call.first);
    else
        call.result = pool_run_close(&runner.run);
    return unused;
}

static void *call_manager(void *unused) {
    const pool_config config = {PAGE, 0, VA, call.first, call.second};
    if (call.word == OPEN)
        call.result = manager_run_open(&runner, config);
    else if (call.word == MALLOC)
        call.result = manager_run_malloc(&runner, call.first, call.second);
    else if (call.word == FREE)
        call.result = manager_run_free(&runner, call.first);
    else
        call.result = manager_run_close(&runner);
    return unused;
}

static void *call_reset(void *unused) {
    call.result = manager_run_reset_highest(&runner);
    return unused;
}

/* Every driver call is done, and its value stands nowhere else: a base that overlaps no root, or a handle. No event is complete. */
static void lend(void) {
    static uint64_t last;
    taken = 0;
    for (size_t i = 0; i < POOL_ANSWERS; i += 2) {
        answers[i] = 0;
        answers[i + 1] = ++last * VA;
    }
}

static uint64_t run(int word, uint64_t first, uint64_t second, uint64_t answer) {
    pthread_attr_t attributes;
    pthread_t thread;
    void *(*make_call)(void *) = word == RESET ? call_reset : in_bytes ? call_manager : call_pool;
    for (size_t i = 0; i < PAINTED / sizeof paint; i++)
        stack[i] = paint;
    call.word = word, call.first = first, call.second = second;
    if (pthread_attr_init(&attributes) || pthread_attr_setstack(&attributes, stack, sizeof stack) ||
        pthread_create(&thread, &attributes, make_call, NULL) || pthread_join(thread, NULL)) {
        fprintf(stderr, "stack: no thread\n");
        exit(1);
    }
    size_t left = 0;
    while (left < PAINTED / sizeof paint && stack[left] == paint)
        left++;
    size_t used = sizeof stack - left * sizeof paint;
    if (used > most[word])
        most[word] = used;
    if (call.result.answer != answer) {
        fprintf(stderr, "stack: call %d answers %d, not %d\n", word, (int)call.result.answer, (int)answer);
        exit(1);
    }
    lend();
    return call.result.first;
}

/* The first two entries of each table that is kept in order change places. */
static void put_out_of_order(void) {
#define SWAP(table, type)                                                \
    if (runner.run.pool.table.count > 1) {                               \
        const type first = runner.run.pool.table.cells[0];               \
        runner.run.pool.table.cells[0] = runner.run.pool.table.cells[1]; \
        runner.run.pool.table.cells[1] = first;                          \
    }
    SWAP(free, pool_free_region)
    SWAP(live, pool_live_buffer)
    SWAP(holes, pool_hole)
    SWAP(pages, pool_page)
}

/* In bytes, sizes lie between whole pages, as far as the pool is asked for the same. */
static uint64_t pages(uint64_t count) { return count * PAGE - (uint64_t)in_bytes; }

static void play(void) {
    lend();
    run(OPEN, 20, 1, POOL_ANSWER_DONE);
    run(CLOSE, 0, 0, POOL_ANSWER_DONE);
    run(OPEN, 0, 0, POOL_ANSWER_DONE);
    uint64_t a = run(MALLOC, pages(2), 1, POOL_ANSWER_DONE);
    uint64_t b = run(MALLOC, PAGE, 2, POOL_ANSWER_DONE);
    uint64_t c = run(MALLOC, PAGE, 1, POOL_ANSWER_DONE);
    run(FREE, a, 0, POOL_ANSWER_DONE);
    a = run(MALLOC, pages(3), 1, POOL_ANSWER_DONE);
    run(FREE, b, 0, POOL_ANSWER_DONE);
    b = run(MALLOC, pages(4), 3, POOL_ANSWER_DONE);
    answers[1] = 1; /* the first zombie's event is complete */
    run(MALLOC, PAGE, 4, POOL_ANSWER_DONE);
    answers[2 * (runner.run.pool.zombies.count + 2 * 5)] = 2; /* behind those that are asked for, the sixth page */
    run(MALLOC, pages(40), 4, POOL_ANSWER_OUT_OF_MEMORY);
    run(FREE, c, 0, POOL_ANSWER_DONE);
    put_out_of_order();
    run(MALLOC, VA, 1, POOL_ANSWER_PAGES_FULL);
    c = run(MALLOC, pages(9), 5, POOL_ANSWER_DONE);
    put_out_of_order();
    run(FREE, a, 0, POOL_ANSWER_DONE);
    run(FREE, b, 0, POOL_ANSWER_DONE);
    put_out_of_order();
    run(MALLOC, pages(12), 6, POOL_ANSWER_DONE);
    put_out_of_order();
    run(FREE, c, 0, POOL_ANSWER_DONE);
    put_out_of_order();
    run(FREE, c, 0, POOL_ANSWER_INVALID_POINTER); /* the pool comes back as it went in */
}

/* As many as there may be: made, one too many, one dropped, and the rest by the close. */
static void play_small(void) {
    uint64_t last = 0;
    for (size_t i = 0; i < MANAGER_SMALLS; i++)
        last = run(MALLOC, PAGE - 1, 7, POOL_ANSWER_DONE);
    run(MALLOC, 1, 7, POOL_ANSWER_SMALLS_FULL);
    run(MALLOC, 0, 7, POOL_ANSWER_BAD_SIZE);
    put_out_of_order();
    run(FREE, last, 0, POOL_ANSWER_DONE);
    answers[1] = 0;
    run(MALLOC, 1, 7, POOL_ANSWER_INCREDIBLE);
    run(RESET, 0, 0, POOL_ANSWER_DONE);
}

/* Prints what the calls so far took, and starts anew. */
static void tell(const char *whose) {
    static const char *const names[] = {"open", "malloc", "free", "close", "reset"};
    int enough = 1;
    printf("stack%s:", whose);
    for (int word = 0; word < CALLS; word++) {
        if (most[word] > 0)
            printf("%s %s %zu", word == OPEN ? "" : ",", names[word], most[word]);
        enough = enough && most[word] <= POOL_STACK;
        most[word] = 0;
    }
    printf(" bytes\n");
    if (!enough) {
        fprintf(stderr, "stack: more than POOL_STACK, %d bytes\n", POOL_STACK);
        exit(1);
    }
}

int main(void) {
    pool_run_setup(&runner.run, drive, NULL, NULL);
    play();
    run(CLOSE, 0, 0, POOL_ANSWER_DONE);
    tell("");
    in_bytes = 1;
    manager_run_setup(&runner, drive_on, NULL, NULL);
    play();
    play_small();
    run(CLOSE, 0, 0, POOL_ANSWER_DONE);
    tell(" of a manager");
    return 0;
}
