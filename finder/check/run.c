/* finder/pool_run.h against the plain loop, which is run once more for each driver call: random sessions both ways, each on a card of its own, which begin
   alike, of a pool and then of a manager. Compared after each call are answer, values, pool or manager, the driver calls that the card saw, with the streams of
   small buffers, and what the header counts; after each session the trace. */
#define _POSIX_C_SOURCE 200809L
#include "whim.h"

enum { SEEDS = 120, CALLS = 300, SEEN = 2 * POOL_LOG_RECORDS, NUMBERS = 21 };

/* A card that notes what it sees, with its answers. */
typedef struct {
    whim mood;
    pool_record seen[SEEN]; /* in one call; an opening that fails is two */
    uint64_t streams[SEEN]; /* of small buffers */
    size_t count;
} noting_card;

static noting_card card_ahead, card_plain;
static int in_bytes; /* the manager is run, and not a pool */
static manager_runner runner; /* of a pool its run */
static manager_value plain; /* the plain loop's; of a pool, its pool */
static uint64_t answers[POOL_ANSWERS], log_[POOL_LOG];
static FILE *trace; /* the plain loop's */
static uint64_t seed, calls, runs_ahead, runs_plain, met[NUMBERS];

static void fail(const char *what) {
    fprintf(stderr, "run: seed %" PRIu64 ", call %" PRIu64 ": %s\n", seed, calls, what);
    exit(1);
}

static void must(int holds, const char *what) {
    if (!holds)
        fail(what);
}

static pool_answer drive_on(void *context, const pool_record *call, uint64_t stream) {
    noting_card *card = (noting_card *)context;
    const pool_answer answer = whim_answer(&card->mood, call, stream);
    pool_record record = {call->kind, call->first, call->second, answer.code};
    if (call->kind == POOL_WORD_RESERVE || call->kind == POOL_WORD_CREATE || call->kind == POOL_WORD_SMALL)
        record.first = answer.code == 0 ? answer.value : 0;
    if (call->kind == POOL_WORD_ASKED)
        record.second = answer.code == 0 && answer.value == 1;
    must(card->count < SEEN, "more driver calls than a log has room for");
    card->streams[card->count] = stream;
    card->seen[card->count++] = record;
    return answer;
}

static pool_answer drive(void *context, const pool_record *call) { return drive_on(context, call, 0); }

enum { OPEN, MALLOC, FREE, CLOSE };
typedef struct { int name; pool_config config; uint64_t first, second; } any_call;

static any_call make_call(int name, uint64_t first, uint64_t second) {
    const any_call call = {name, {0, 0, 0, 0, 0}, first, second};
    return call;
}

static pool_reply once_of_pool(const any_call *call, size_t known) {
    const pool_config c = call->config;
    switch (call->name) {
    case OPEN:
        return pool_open(c.granularity, c.override_size, c.va_size, c.initial_pages, c.initial_stream, answers, 2 * known, log_, POOL_LOG);
    case MALLOC:
        return pool_malloc(plain.pool, call->first, call->second, answers, 2 * known, log_, POOL_LOG);
    case FREE:
        return pool_free(plain.pool, call->first, answers, 2 * known, log_, POOL_LOG);
    default:
        return pool_close(plain.pool, answers, 2 * known, log_, POOL_LOG);
    }
}

static manager_reply once(const any_call *call, size_t known) {
    const pool_config c = call->config;
    if (!in_bytes) {
        const pool_reply left = once_of_pool(call, known);
        manager_reply reply = {plain, left.answer, left.first, left.second, left.records, left.taken};
        reply.manager.pool = left.pool;
        return reply;
    }
    switch (call->name) {
    case OPEN:
        return manager_open(c.granularity, c.override_size, c.va_size, c.initial_pages, c.initial_stream, answers, 2 * known, log_, POOL_LOG);
    case MALLOC:
        return manager_malloc(plain, call->first, call->second, answers, 2 * known, log_, POOL_LOG);
    case FREE:
        return manager_free(plain, call->first, answers, 2 * known, log_, POOL_LOG);
    default:
        return manager_close(plain, answers, 2 * known, log_, POOL_LOG);
    }
}

/* The place in the plain loop's table; its count for none. */
static size_t small_at(uint64_t pointer) {
    size_t place = 0;
    while (place < plain.small.count && plain.small.cells[place].pointer != pointer)
        place++;
    return place;
}

static int is_small(const any_call *call) {
    if (call->name == MALLOC)
        return call->first < plain.pool.page;
    return call->name == FREE && small_at(call->first) < plain.small.count;
}

static void print_line(const char *word, uint64_t first, uint64_t second, uint64_t third) {
    fprintf(trace, "%s\t%" PRIu64 "\t%" PRIu64 "\t%" PRIu64 "\n", word, first, second, third);
}

static void print_records(size_t from, size_t to) {
    static const char *const words[] = {"", "reserve", "create", "map", "access", "unmap", "release", "record", "asked", "wait", "sync", "giveback",
                                        "", "", "", "", "", "small", "dropsmall"};
    for (size_t i = from; i < to; i++)
        print_line(words[log_[4 * i]], log_[4 * i + 1], log_[4 * i + 2], log_[4 * i + 3]);
}

/* Sizes are in pages of 4 bytes, as the sessions are. */
static void print_call(const any_call *call, const manager_reply *reply) {
    const uint64_t override_size = call->config.override_size, bytes = call->first;
    const size_t drops = in_bytes && call->name == CLOSE && reply->records > 0 ? plain.small.count : 0;
    if (in_bytes && is_small(call)) {
        print_records(0, reply->records);
        return;
    }
    if (in_bytes && call->name == MALLOC && (bytes == 0 || bytes > MANAGER_BYTES))
        return;
    print_records(0, drops);
    switch (call->name) {
    case OPEN: print_line("open", override_size == 0 ? call->config.granularity : override_size, call->config.va_size, call->config.initial_pages); break;
    case MALLOC: print_line("malloc", in_bytes && plain.pool.page != 0 ? (bytes + 3) / 4 * 4 : bytes, call->second, 0); break;
    case FREE: print_line("free", call->first, 0, 0); break;
    default: print_line("close", 0, 0, 0);
    }
    print_records(drops, reply->records);
    print_line("result", reply->first, reply->second, reply->answer);
}

/* One driver call, one more answer, the same call again. */
static manager_reply plainly(const any_call *call) {
    size_t known = 0;
    manager_reply reply = once(call, known);
    for (; reply.answer == POOL_ANSWER_ANSWERS_RAN_OUT; reply = once(call, known)) {
        const uint64_t *cells = log_ + 4 * (reply.records - 1);
        const pool_record wanted = {cells[0], cells[1], cells[2], cells[3]};
        uint64_t stream = 0;
        if (wanted.kind == POOL_WORD_SMALL)
            stream = call->second;
        if (wanted.kind == POOL_WORD_DROPSMALL)
            stream = plain.small.cells[small_at(wanted.first)].stream;
        const pool_answer answer = drive_on(&card_plain, &wanted, stream);
        answers[2 * known] = answer.code;
        answers[2 * known + 1] = answer.value;
        known++;
    }
    runs_plain += 1 + known;
    print_call(call, &reply);
    plain = reply.manager;
    return reply;
}

static pool_result ahead(const any_call *call) {
    switch (call->name) {
    case OPEN: return in_bytes ? manager_run_open(&runner, call->config) : pool_run_open(&runner.run, call->config);
    case MALLOC: return in_bytes ? manager_run_malloc(&runner, call->first, call->second) : pool_run_malloc(&runner.run, call->first, call->second);
    case FREE: return in_bytes ? manager_run_free(&runner, call->first) : pool_run_free(&runner.run, call->first);
    default: return in_bytes ? manager_run_close(&runner) : pool_run_close(&runner.run);
    }
}

static int same(const pool_record *one, const pool_record *other) { return memcmp(one, other, sizeof *one) == 0; }

/* What the result says of the driver calls. `ended` is how many the call itself made: of an opening that failed, those before the close. */
static void compare_counts(const any_call *call, const pool_result *result, size_t ended) {
    const pool_record none = {0, 0, 0, 0};
    size_t passed_over = 0;
    for (size_t i = 0; i < card_ahead.count; i++) {
        const uint64_t kind = card_ahead.seen[i].kind;
        const int in_close = i >= ended || call->name == CLOSE;
        const int may = kind == POOL_WORD_UNMAP || kind == POOL_WORD_RELEASE || kind == POOL_WORD_ASKED || kind == POOL_WORD_GIVEBACK;
        passed_over += card_ahead.seen[i].code != 0 && (may || in_close);
    }
    must(result->driver_calls == card_ahead.count, "the driver calls are counted wrongly");
    must(result->passed_over == passed_over, "the failures passed over are counted wrongly");
    if (result->answer == POOL_ANSWER_DRIVER_FAILED || result->answer == POOL_ANSWER_INCREDIBLE)
        must(same(&result->stopped_by, &card_ahead.seen[ended - 1]), "another driver call stopped the pool");
    else
        must(same(&result->stopped_by, &none), "a driver call is said to have stopped the pool");
}

static uint64_t both(any_call call) {
    card_ahead.count = card_plain.count = 0;
    const pool_result result = ahead(&call);
    const manager_reply reply = plainly(&call);
    const size_t ended = card_plain.count;
    if (call.name == OPEN && reply.answer != POOL_ANSWER_DONE && plain.pool.state != POOL_STATE_CLOSED) {
        const any_call close = make_call(CLOSE, 0, 0);
        plainly(&close);
    }
    calls++;
    runs_ahead += result.runs;
    must(result.answer == reply.answer && result.first == reply.first && result.second == reply.second, "the answers differ");
    must(memcmp(&runner.run.pool, &plain.pool, sizeof plain.pool) == 0, "the pools differ");
    must(memcmp(&runner.small, &plain.small, sizeof plain.small) == 0, "the small buffers differ");
    must(runner.current == plain.current && runner.highest == plain.highest, "the bytes held differ");
    must(card_ahead.count == card_plain.count, "the numbers of driver calls differ");
    for (size_t i = 0; i < card_plain.count; i++)
        must(same(&card_ahead.seen[i], &card_plain.seen[i]) && card_ahead.streams[i] == card_plain.streams[i], "the driver calls differ");
    const size_t made = runner.run.made_count;
    must(made <= card_ahead.count, "more driver calls are told than were made");
    for (size_t i = 0; i < made; i++)
        must(same(&runner.run.made[i], &card_ahead.seen[card_ahead.count - made + i]), "other driver calls are told than were made");
    compare_counts(&call, &result, ended);
    if (reply.answer < NUMBERS)
        met[reply.answer]++;
    return reply.answer;
}

/* Behind the close the pool is asked once more. */
static void play(session of) {
    any_call call = make_call(OPEN, 0, 0);
    call.config = session_opening(&of);
    if (both(call) != POOL_ANSWER_DONE)
        return;
    while (of.left > 0) {
        const session_call next = in_bytes ? session_next_bytes(&of, &plain.pool, &plain.small) : session_next(&of, &plain.pool);
        session_went(&of, both(make_call(next.is_free ? FREE : MALLOC, next.first, next.second)));
    }
    both(make_call(CLOSE, 0, 0));
    both(make_call((int)(MALLOC + seed % 3), 4, 0));
}

static void play_traced(void) {
    char *text_ahead, *text_plain;
    size_t size_ahead, size_plain;
    runner.run.trace = open_memstream(&text_ahead, &size_ahead);
    trace = open_memstream(&text_plain, &size_plain);
    must(runner.run.trace && trace, "no memory for the traces");
    card_ahead.mood = card_plain.mood = session_card(seed);
    play(session_begin(seed, CALLS));
    fclose(runner.run.trace);
    fclose(trace);
    must(size_ahead == size_plain && memcmp(text_ahead, text_plain, size_plain) == 0, "the traces differ");
    free(text_ahead);
    free(text_plain);
}

/* Each answer of the list is met. */
static void play_all(const char *what, const int *to_meet, size_t numbers) {
    calls = runs_ahead = runs_plain = 0;
    memset(met, 0, sizeof met);
    for (seed = 0; seed < SEEDS; seed++)
        play_traced();
    for (size_t i = 0; i < numbers; i++)
        if (met[to_meet[i]] == 0) {
            fprintf(stderr, "run: answer %d was not met\n", to_meet[i]);
            exit(1);
        }
    must(runs_ahead * (in_bytes ? 2 : 8) < runs_plain, "guessing takes too many runs");
    printf("run: %d sessions%s, %" PRIu64 " calls: %.1f runs a call, the plain loop %.1f\n", (int)SEEDS, what, calls, (double)runs_ahead / (double)calls,
           (double)runs_plain / (double)calls);
}

int main(void) {
    /* those that a runner's user can meet, but 3, and 5, which takes 2^62 calls */
    static const int to_meet[] = {0, 1, 2, 6, 7, 8, 9, 10, 11, 12, 13, 14, 15, 16, 19};
    /* fewer buffers are the pool's */
    static const int to_meet_in_bytes[] = {0, 1, 2, 6, 8, 9, 12, 13, 14, 15, 16, 19, 20};
    pool_run_setup(&runner.run, drive, &card_ahead, NULL);
    play_all("", to_meet, sizeof to_meet / sizeof *to_meet);
    in_bytes = 1;
    manager_run_setup(&runner, drive_on, &card_ahead, NULL);
    play_all(" in bytes", to_meet_in_bytes, sizeof to_meet_in_bytes / sizeof *to_meet_in_bytes);
    return 0;
}
