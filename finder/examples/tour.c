/* A tour of the pool from C, on a made-up driver: two streams, a buffer that outgrows its place, a zombie and its end. It prints the trace of the session,
   which target/run/judge accepts. */
#include "pool_run.h"

#define PAGE ((uint64_t)2 << 20)
#define VA (32 * PAGE)

/* The driver. A real one calls cuMemAddressReserve, cuMemCreate, cuMemMap and so on (docs/USING.md); this one invents bases and handles. An event is
   complete when it is asked for the second time. */
typedef struct { uint64_t base, handle; unsigned char asked[64]; } driver;

/* Makes one driver call: a pool_drive. */
static pool_answer drive(void *context, const pool_record *call) {
    driver *made_up = (driver *)context;
    pool_answer answer = {0, 0}; /* code and value */
    switch (call->kind) {
    case POOL_WORD_RESERVE:
        answer.value = made_up->base;
        made_up->base += 2 * call->second;
        break;
    case POOL_WORD_CREATE:
        answer.value = made_up->handle++;
        break;
    case POOL_WORD_ASKED:
        answer.value = made_up->asked[call->first % 64]++ > 0;
        break;
    }
    return answer;
}

/* The first value of a call that was served. Any answer but 0 ends the tour. */
static uint64_t served(const char *call, pool_result result) {
    if (result.answer == POOL_ANSWER_DONE)
        return result.first;
    fprintf(stderr, "tour: %s is answered %" PRIu64 " (%" PRIu64 ", %" PRIu64 "): %s\n", call, result.answer, result.first, result.second,
            pool_answer_text(result.answer));
    exit(1);
}

int main(void) {
    static pool_runner runner; /* 180 KB: not on the stack */
    driver made_up = {VA, 71, {0}};
    pool_config config = {0, 0, 0, 0, 0};
    config.granularity = PAGE;
    config.va_size = VA;

    pool_run_setup(&runner, drive, &made_up, stdout);
    served("the open", pool_run_open(&runner, config));
    uint64_t a = served("the malloc of a", pool_run_malloc(&runner, 2 * PAGE, 1));
    uint64_t b = served("the malloc of b", pool_run_malloc(&runner, PAGE, 2));
    served("the free of a", pool_run_free(&runner, a));
    /* three pages where two are free and one is missing: a's two move behind a new one, and their old place is a zombie */
    uint64_t c = served("the malloc of c", pool_run_malloc(&runner, 3 * PAGE, 1));
    size_t made = runner.pool.zombies.count;
    /* the first time that its event is asked for, it is not complete, the second time it is: the old place is unmapped, and a hole */
    uint64_t d = served("the malloc of d", pool_run_malloc(&runner, PAGE, 2));
    uint64_t e = served("the malloc of e", pool_run_malloc(&runner, PAGE, 2));
    if (made != 1 || runner.pool.zombies.count != 0) {
        fprintf(stderr, "tour: %zu zombies were made, %zu are left\n", made, runner.pool.zombies.count);
        return 1;
    }
    served("the free of b", pool_run_free(&runner, b));
    served("the free of c", pool_run_free(&runner, c));
    served("the free of d", pool_run_free(&runner, d));
    served("the free of e", pool_run_free(&runner, e));
    if (served("the close", pool_run_close(&runner)) != 0) {
        fprintf(stderr, "tour: a driver call of the close failed\n");
        return 1;
    }
    return 0;
}
