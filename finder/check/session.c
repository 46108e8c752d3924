/* Random sessions by finder/pool_run.h, of a pool and of a manager in turn, their traces printed, and behind each the number of calls and of runs so far, and
   the bytes that a manager holds and held at most before its close. finder/rust/examples/session.rs prints the same by the package for Rust: finder/rust/check
   compares the two, byte for byte. */
#include "whim.h"

static pool_runner runner;
static manager_runner manager;
static whim card;
static uint64_t calls, runs;

static pool_answer drive(void *context, const pool_record *call) { return whim_answer((whim *)context, call, 0); }
static pool_answer drive_on(void *context, const pool_record *call, uint64_t stream) { return whim_answer((whim *)context, call, stream); }

static uint64_t count(pool_result result) {
    calls++;
    runs += result.runs;
    return result.answer;
}

static void play(session of) {
    if (count(pool_run_open(&runner, session_opening(&of))) != POOL_ANSWER_DONE)
        return;
    while (of.left > 0) {
        const session_call next = session_next(&of, &runner.pool);
        session_went(&of, count(next.is_free ? pool_run_free(&runner, next.first) : pool_run_malloc(&runner, next.first, next.second)));
    }
    count(pool_run_close(&runner));
}

/* Halfway the highest counts anew. */
static void play_bytes(session of) {
    const uint64_t half = of.left / 2;
    if (count(manager_run_open(&manager, session_opening(&of))) != POOL_ANSWER_DONE)
        return;
    while (of.left > 0) {
        if (of.left == half)
            manager_run_reset_highest(&manager);
        const session_call next = session_next_bytes(&of, &manager.run.pool, &manager.small);
        session_went(&of, count(next.is_free ? manager_run_free(&manager, next.first) : manager_run_malloc(&manager, next.first, next.second)));
    }
    printf("bytes\t%" PRIu64 "\t%" PRIu64 "\t%zu\n", manager.current, manager.highest, manager.small.count);
    count(manager_run_close(&manager));
}

int main(int argc, char **argv) {
    if (argc != 3) {
        fprintf(stderr, "session SEEDS CALLS: sessions of so many calls, on seeds from 0 on\n");
        return 1;
    }
    const uint64_t seeds = strtoull(argv[1], NULL, 10), length = strtoull(argv[2], NULL, 10);
    pool_run_setup(&runner, drive, &card, stdout);
    manager_run_setup(&manager, drive_on, &card, stdout);
    for (uint64_t seed = 0; seed < seeds; seed++) {
        card = session_card(seed);
        play(session_begin(seed, length));
        card = session_card(seed);
        play_bytes(session_begin(seed, length));
        printf("session\t%" PRIu64 "\t%" PRIu64 "\t%" PRIu64 "\n", seed, calls, runs);
    }
    return 0;
}
