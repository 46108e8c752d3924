/* Sizes in bytes from C, on a made-up driver: d_malloc_on and d_free as a program has them that asked the original's memory manager, pointers out, and what is
   held. It prints the trace of the session, which target/run/judge accepts, and on standard error the bytes. */
#include "pool_run.h"

#define PAGE ((uint64_t)2 << 20)
#define VA (32 * PAGE)

/* The driver. A real one calls cudaMallocAsync and cudaFreeAsync on the stream for small and dropsmall (docs/USING.md); this one invents pointers, as it does
   bases and handles, and counts the small buffers that it has handed out. */
typedef struct { uint64_t base, handle, pointer; size_t small; } driver;

/* Makes one driver call: a manager_drive. */
static pool_answer drive(void *context, const pool_record *call, uint64_t stream) {
    driver *made_up = (driver *)context;
    pool_answer answer = {0, 0}; /* code and value */
    (void)stream;
    switch (call->kind) {
    case POOL_WORD_RESERVE:
        answer.value = made_up->base;
        made_up->base += 2 * call->second;
        break;
    case POOL_WORD_CREATE:
        answer.value = made_up->handle++;
        break;
    case POOL_WORD_SMALL:
        answer.value = made_up->pointer;
        made_up->pointer += (call->second + 255) / 256 * 256;
        made_up->small++;
        break;
    case POOL_WORD_DROPSMALL:
        made_up->small--;
        break;
    }
    return answer;
}

static manager_runner manager; /* 180 KB: not on the stack. A program with threads holds a mutex around each call */

static void complain(const char *call, pool_result result) {
    fprintf(stderr, "manager: %s is answered %" PRIu64 " (%" PRIu64 ", %" PRIu64 "): %s\n", call, result.answer, result.first, result.second,
            pool_answer_text(result.answer));
}

/* A buffer of `size` bytes for work on a stream; 0 for none. */
static uint64_t d_malloc_on(uint64_t size, uint64_t stream) {
    const pool_result result = manager_run_malloc(&manager, size, stream);
    if (result.answer == POOL_ANSWER_DONE)
        return result.first;
    complain("d_malloc_on", result);
    return 0;
}

/* Says whether it was taken back. */
static int d_free(uint64_t pointer) {
    const pool_result result = manager_run_free(&manager, pointer);
    if (result.answer != POOL_ANSWER_DONE)
        complain("d_free", result);
    return result.answer == POOL_ANSWER_DONE;
}

/* What is held, as the original's MemTracker tells it. */
static void told(const char *when) {
    fprintf(stderr, "%s: current %" PRIu64 ", highest %" PRIu64 ", small buffers %zu\n", when, manager.current, manager.highest, manager.small.count);
}

static void must(int holds, const char *what) {
    if (holds)
        return;
    fprintf(stderr, "manager: not so: %s\n", what);
    exit(1);
}

int main(void) {
    driver made_up = {VA, 71, 1000, 0};
    pool_config config = {0, 0, 0, 0, 0};
    config.granularity = PAGE;
    config.va_size = VA;
    manager_run_setup(&manager, drive, &made_up, stdout);
    const pool_result opened = manager_run_open(&manager, config);
    if (opened.answer != POOL_ANSWER_DONE) {
        complain("the open", opened);
        return 1;
    }

    const uint64_t tone = d_malloc_on(3 * PAGE - 5, 1); /* three pages of the pool */
    const uint64_t header = d_malloc_on(400, 1);        /* the driver's */
    const uint64_t scores = d_malloc_on(PAGE - 1, 2);   /* the driver's */
    must(tone != 0 && header != 0 && scores != 0, "three buffers are handed out");
    must(made_up.small == 2 && manager.current == 3 * PAGE + 400 + PAGE - 1, "whole pages and small buffers are held");
    told("three buffers");
    must(d_free(header), "a small buffer is taken back");
    must(d_free(tone), "a buffer of the pool is taken back");
    told("two of them freed");
    manager_run_reset_highest(&manager);
    const uint64_t next = d_malloc_on(PAGE + 1, 1); /* two of the pages that are free */
    must(next == tone && manager.highest == 2 * PAGE + PAGE - 1, "highest counts anew");
    told("highest reset, one more");
    must(d_malloc_on(0, 1) == 0, "no bytes are refused");
    must(!d_free(header), "a second free is refused");

    const pool_result closed = manager_run_close(&manager);
    must(closed.answer == POOL_ANSWER_DONE && closed.passed_over == 0, "all is given back");
    must(made_up.small == 0, "the small buffer that was held is dropped");
    told("closed");
    return 0;
}
