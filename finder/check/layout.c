/* Holds finder/pool.h to the library. Rattle has no way to tell a size or an offset, so each field is told by what a call does with it: C writes a number
   that stands nowhere else at the field's place, and the library must name it in a record, a result or the pool that it hands back. */
#include "../pool.h"
#include <inttypes.h>
#include <stdio.h>
#include <stdlib.h>
#include <string.h>

/* pool_close once more, with the place of its reply as a plain parameter: under x86-64's conventions a struct in memory is returned through one. And two of
   the manager's. */
void close_into(void *reply, pool_value pool, const uint64_t *answers, size_t answers_len, uint64_t *log, size_t log_len) __asm__("pool_close");
void close_manager_into(void *reply, manager_value manager, const uint64_t *answers, size_t answers_len, uint64_t *log, size_t log_len)
    __asm__("manager_close");
void reset_into(void *value, manager_value manager) __asm__("manager_reset_highest");

static uint64_t log_[POOL_LOG];
static uint64_t answers[POOL_ANSWERS];
static int compared, wrong;

static void is(const char *field, uint64_t library, uint64_t header) {
    compared++;
    if (library == header)
        return;
    fprintf(stderr, "layout: %s: the library has %" PRIu64 " where pool.h has %" PRIu64 "\n", field, library, header);
    if (++wrong == 20)
        exit(1);
}

static void cell(const char *table, size_t place, const char *field, uint64_t library, uint64_t header) {
    char name[100] = "";
    if (library != header)
        snprintf(name, sizeof name, "%s.cells[%zu]%s", table, place, field);
    is(name, library, header);
}

/* A pool that the library handed back, field by field, then whole: nothing stands past the counts. */
static void same(const pool_value *library, const pool_value *header) {
#define FIELD(field) is("pool." #field, library->field, header->field)
#define CELLS(table, field)                          \
    for (size_t i = 0; i < header->table.count; i++) \
    cell(#table, i, "." #field, library->table.cells[i].field, header->table.cells[i].field)
    FIELD(state); FIELD(page); FIELD(va); FIELD(counter);
    FIELD(free.count); FIELD(live.count); FIELD(holes.count); FIELD(zombies.count); FIELD(pages.count); FIELD(roots.count);
    CELLS(free, start); CELLS(free, size); CELLS(free, stream); CELLS(free, id);
    CELLS(live, start); CELLS(live, size); CELLS(live, stream);
    CELLS(holes, start); CELLS(holes, size);
    CELLS(zombies, start); CELLS(zombies, size); CELLS(zombies, id);
    CELLS(pages, start); CELLS(pages, handle);
    for (size_t i = 0; i < header->roots.count; i++)
        cell("roots", i, "", library->roots.cells[i], header->roots.cells[i]);
    is("pool, past the counts", memcmp(library, header, sizeof *header) == 0, 1);
}

static void same_manager(const manager_value *library, const manager_value *header) {
    same(&library->pool, &header->pool);
#define FIELD_ABOVE(field) is("manager." #field, library->field, header->field)
    FIELD_ABOVE(small.count); FIELD_ABOVE(current); FIELD_ABOVE(highest);
    CELLS(small, pointer); CELLS(small, size); CELLS(small, stream);
    is("manager, past the counts", memcmp(library, header, sizeof *header) == 0, 1);
}

/* The number at a record's place: 0 kind, 1 first, 2 second, 3 code. */
static uint64_t record(size_t place, int number) { return log_[POOL_RECORD_NUMBERS * place + number]; }

/* Numbers that stand nowhere else, and rise. */
static uint64_t fresh(void) {
    static uint64_t last = 100000;
    return last += 3;
}

/* Answers: all done, value 0. */
static void none_complete(void) { memset(answers, 0, sizeof answers); }

/* A stopped pool may hold any numbers, and a close names those of zombies, pages and roots: sync, unmap, unmap and release, giveback. */
static void closes(void) {
    static pool_value p;
    memset(&p, 0, sizeof p);
    p.state = POOL_STATE_STOPPED;
    p.page = fresh();
    p.va = fresh();
    for (size_t i = 0; i < POOL_ZOMBIES; i++)
        p.zombies.cells[p.zombies.count++] = (pool_zombie){.start = fresh(), .size = fresh(), .id = fresh()};
    for (size_t i = 0; i < POOL_PAGES; i++)
        p.pages.cells[p.pages.count++] = (pool_page){.start = fresh(), .handle = fresh()};
    for (size_t i = 0; i < POOL_ROOTS; i++)
        p.roots.cells[p.roots.count++] = fresh();
    none_complete();
    pool_reply r = pool_close(p, answers, POOL_ANSWERS, log_, POOL_LOG);
    is("pool.state: close of a stopped pool", r.answer, POOL_ANSWER_DONE);
    size_t k = 1;
    for (size_t i = 0; i < p.zombies.count; i++, k++) {
        cell("zombies", i, ".start", record(k, 1), p.zombies.cells[i].start);
        cell("zombies", i, ".size", record(k, 2), p.zombies.cells[i].size);
    }
    is("zombies.count", record(k, 1), p.pages.cells[0].start);
    is("pool.page", record(k, 2), p.page);
    for (size_t i = 0; i < p.pages.count; i++, k += 2) {
        cell("pages", i, ".start", record(k, 1), p.pages.cells[i].start);
        cell("pages", i, ".handle", record(k + 1, 1), p.pages.cells[i].handle);
    }
    is("pages.count", record(k, 0), POOL_WORD_GIVEBACK);
    is("pool.va", record(k, 2), p.va);
    for (size_t i = 0; i < p.roots.count; i++, k++)
        cell("roots", i, "", record(k, 1), p.roots.cells[i]);
    is("roots.count", r.records, k);
    /* with an answer too few, the last record has none */
    answers[0] = 1;
    r = pool_close(p, answers, 2 * (k - 1), log_, POOL_LOG);
    is("reply.answer", r.answer, POOL_ANSWER_ANSWERS_RAN_OUT);
    is("reply.records", r.records, k);
    is("reply.taken", r.taken, k - 1);
    same(&r.pool, &p);
    /* a reply is written whole, and nothing behind it */
    static struct { pool_reply reply; unsigned char behind[4096]; } painted;
    memset(&painted, 0xa5, sizeof painted);
    close_into(&painted.reply, p, answers, POOL_ANSWERS, log_, POOL_LOG);
    is("reply.first: failed lines of a close", painted.reply.first, 1);
    is("reply.taken", painted.reply.taken, k);
    for (size_t i = 0; i < sizeof painted.behind; i++)
        is("sizeof(pool_reply): a byte behind it", painted.behind[i], 0xa5);
}

/* An open pool with one root and nothing in it. */
static void opened(pool_value *p) {
    memset(p, 0, sizeof *p);
    p->state = POOL_STATE_OPEN;
    p->page = 64;
    p->va = p->page * 4096;
    p->counter = 5000;
    p->roots.cells[p->roots.count++] = p->va;
}

/* Pages for the range, each with a handle of its own. */
static void add_pages(pool_value *p, uint64_t start, uint64_t size) {
    for (uint64_t done = 0; done < size; done += p->page)
        p->pages.cells[p->pages.count++] = (pool_page){.start = start + done, .handle = fresh()};
}

/* Every live buffer freed in turn: its size, its stream, and the whole pool after it. */
static void frees(void) {
    static pool_value p, q;
    opened(&p);
    uint64_t start = p.roots.cells[0];
    for (size_t i = 0; i < POOL_SPANS; i++) {
        const uint64_t size = p.page * (1 + i % 2);
        p.live.cells[p.live.count++] = (pool_live_buffer){.start = start, .size = size, .stream = fresh()};
        add_pages(&p, start, size);
        start += size;
    }
    none_complete();
    for (size_t i = 0; i < p.live.count; i++) {
        const pool_live_buffer b = p.live.cells[i];
        pool_reply r = pool_free(p, b.start, answers, 2, log_, POOL_LOG);
        cell("live", i, ".start: free", r.answer, POOL_ANSWER_DONE);
        cell("live", i, ".size", r.first, b.size);
        cell("live", i, ".stream", r.second, b.stream);
        cell("live", i, ".stream, recorded", record(0, 2), b.stream);
        is("pool.counter", record(0, 1), p.counter);
        q = p;
        memmove(q.live.cells + i, q.live.cells + i + 1, (POOL_SPANS - 1 - i) * sizeof b);
        q.live.cells[--q.live.count] = (pool_live_buffer){0};
        q.free.cells[q.free.count++] = (pool_free_region){.start = b.start, .size = b.size, .stream = b.stream, .id = q.counter++};
        same(&r.pool, &q);
    }
}

/* Free regions, each on a stream of its own: malloc on it hands the region out; on no region's stream it asks for every event. */
static void fits(void) {
    static pool_value p;
    opened(&p);
    uint64_t start = p.roots.cells[0];
    for (size_t i = 0; i < POOL_SPANS - 1; i++) {
        const uint64_t size = p.page * (1 + i % 2);
        p.free.cells[p.free.count++] = (pool_free_region){.start = start, .size = size, .stream = fresh(), .id = 5 * i + 1};
        add_pages(&p, start, size);
        start += size;
    }
    none_complete();
    for (size_t i = 0; i < p.free.count; i++) {
        const pool_free_region f = p.free.cells[i];
        pool_reply r = pool_malloc(p, f.size, f.stream, answers, 0, log_, POOL_LOG);
        cell("free", i, ".stream: malloc on it", r.answer, POOL_ANSWER_DONE);
        cell("free", i, ".start", r.first, f.start);
        cell("free", i, ".size: no rest", r.pool.free.count, p.free.count - 1);
        cell("live", 0, ".start", r.pool.live.cells[0].start, f.start);
        cell("live", 0, ".size", r.pool.live.cells[0].size, f.size);
        cell("live", 0, ".stream", r.pool.live.cells[0].stream, f.stream);
    }
    pool_reply r = pool_malloc(p, p.page, fresh(), answers, 2 * p.free.count, log_, POOL_LOG);
    for (size_t i = 0; i < p.free.count; i++)
        cell("free", i, ".id", record(i, 1), p.free.cells[i].id);
    is("free.count", record(p.free.count, 0), POOL_WORD_RESERVE);
    is("pool.va, reserved", record(p.free.count, 2), p.va);
    is("reply.records, a malloc", r.records, p.free.count + 1);
    /* the log's length lies behind the pool on the stack: the two have one size of it */
    is("sizeof(pool_value): a log of 2,047 records", pool_malloc(p, p.page, 0, answers, 0, log_, POOL_LOG - 1).answer, POOL_ANSWER_SHORT_LOG);
    is("reply.second", pool_malloc(p, 2 * p.va, 0, answers, 0, log_, POOL_LOG).second, p.va);
    is("reply.first", pool_malloc(p, 2 * p.va, 0, answers, 0, log_, POOL_LOG).first, 2 * p.va);
}

/* Zombies, asked for in turn. */
static void asks(void) {
    static pool_value p;
    opened(&p);
    for (size_t i = 0; i < POOL_ZOMBIES; i++)
        p.zombies.cells[p.zombies.count++] = (pool_zombie){.start = p.roots.cells[0] + p.page * i, .size = p.page, .id = 5 * i + 2};
    none_complete();
    pool_malloc(p, p.page, 0, answers, 2 * p.zombies.count, log_, POOL_LOG);
    for (size_t i = 0; i < p.zombies.count; i++)
        cell("zombies", i, ".id", record(i, 1), p.zombies.cells[i].id);
    is("zombies.count, asked for", record(p.zombies.count, 0), POOL_WORD_RESERVE);
}

/* Holes of one page but for one, which a malloc of two pages takes: a page is created, and mapped at its start. */
static void takes(void) {
    static pool_value p;
    opened(&p);
    for (size_t i = 0; i < POOL_HOLES - 1; i++)
        p.holes.cells[p.holes.count++] = (pool_hole){.start = p.roots.cells[0] + 3 * p.page * i, .size = p.page};
    none_complete();
    answers[1] = fresh();
    for (size_t i = 0; i < p.holes.count; i++) {
        p.holes.cells[i].size += p.page;
        pool_malloc(p, 2 * p.page, 0, answers, 2, log_, POOL_LOG);
        cell("holes", i, ".size: it is taken", record(1, 0), POOL_WORD_MAP);
        cell("holes", i, ".start", record(1, 1), p.holes.cells[i].start);
        p.holes.cells[i].size -= p.page;
    }
    is("pool.page, created", record(0, 2), p.page);
    /* of no hole that is large enough, none is taken */
    pool_malloc(p, 2 * p.page, 0, answers, 0, log_, POOL_LOG);
    is("holes.count", record(0, 0), POOL_WORD_RESERVE);
    p.holes.cells[p.holes.count] = (pool_hole){.start = p.roots.cells[0] + 3 * p.page * p.holes.count, .size = p.page};
    p.holes.count++;
    is("holes.count: one too many", pool_malloc(p, p.page, 0, answers, 0, log_, POOL_LOG).answer, POOL_ANSWER_ZOMBIES_FULL);
}

/* The parameters of open, and a pool that the library made. */
static void opens(void) {
    const uint64_t stream = fresh();
    none_complete();
    answers[1] = 64000, answers[3] = 71, answers[7] = 72;
    pool_reply r = pool_open(32, 64, 640, 2, stream, answers, 16, log_, POOL_LOG);
    is("open: answer", r.answer, POOL_ANSWER_DONE);
    is("open: granularity, override_size", r.second, 64);
    is("open: va_size", record(0, 2), 640);
    is("open: initial_pages", r.records, 8);
    is("open: initial_stream", record(6, 2), stream);
    static pool_value p;
    p.state = POOL_STATE_OPEN;
    p.page = 64;
    p.va = 640;
    p.counter = 1;
    p.free.cells[p.free.count++] = (pool_free_region){.start = 64000, .size = 128, .stream = stream, .id = 0};
    p.holes.cells[p.holes.count++] = (pool_hole){.start = 64128, .size = 512};
    p.pages.cells[p.pages.count++] = (pool_page){.start = 64000, .handle = 71};
    p.pages.cells[p.pages.count++] = (pool_page){.start = 64064, .handle = 72};
    p.roots.cells[p.roots.count++] = 64000;
    same(&r.pool, &p);
}

/* A stopped manager may hold any numbers: its close names the small buffers before what its pool holds. */
static void closes_manager(void) {
    static manager_value m;
    memset(&m, 0, sizeof m);
    m.pool.state = POOL_STATE_STOPPED;
    m.pool.page = fresh();
    m.pool.va = fresh();
    m.pool.pages.cells[m.pool.pages.count++] = (pool_page){.start = fresh(), .handle = fresh()};
    for (size_t i = 0; i < POOL_ROOTS; i++)
        m.pool.roots.cells[m.pool.roots.count++] = fresh();
    for (size_t i = 0; i < MANAGER_SMALLS; i++)
        m.small.cells[m.small.count++] = (manager_small_buffer){.pointer = fresh(), .size = fresh(), .stream = fresh()};
    m.current = fresh();
    m.highest = fresh();
    none_complete();
    manager_reply r = manager_close(m, answers, POOL_ANSWERS, log_, POOL_LOG);
    is("manager.pool.state: close of a stopped manager", r.answer, POOL_ANSWER_DONE);
    size_t k = 0;
    for (; k < m.small.count; k++) {
        is("manager.small: a dropsmall", record(k, 0), POOL_WORD_DROPSMALL);
        cell("small", k, ".pointer", record(k, 1), m.small.cells[k].pointer);
        cell("small", k, ".size", record(k, 2), m.small.cells[k].size);
    }
    is("manager.small.count", record(k, 0), POOL_WORD_SYNC);
    is("manager.pool.pages", record(k + 1, 1), m.pool.pages.cells[0].start);
    is("manager.pool.page", record(k + 1, 2), m.pool.page);
    is("manager.pool.pages", record(k + 2, 1), m.pool.pages.cells[0].handle);
    k += 3;
    is("manager.pool.va", record(k, 2), m.pool.va);
    for (size_t i = 0; i < m.pool.roots.count; i++, k++)
        cell("manager.pool.roots", i, "", record(k, 1), m.pool.roots.cells[i]);
    is("manager_reply.records", r.records, k);
    is("manager_reply.taken", r.taken, k);
    static const manager_value closed;
    same_manager(&r.manager, &closed);
    /* with an answer too few, the manager comes back as it went in */
    r = manager_close(m, answers, 2 * (k - 1), log_, POOL_LOG);
    is("manager_reply.answer", r.answer, POOL_ANSWER_ANSWERS_RAN_OUT);
    is("manager_reply.records", r.records, k);
    is("manager_reply.taken", r.taken, k - 1);
    same_manager(&r.manager, &m);
    /* reply and value are written whole, and nothing behind them */
    static struct { manager_reply reply; unsigned char behind[4096]; } painted;
    memset(&painted, 0xa5, sizeof painted);
    answers[2 * (k - 1)] = 1;
    close_manager_into(&painted.reply, m, answers, POOL_ANSWERS, log_, POOL_LOG);
    is("manager_reply.first: failed lines of a close", painted.reply.first, 1);
    is("manager_reply.second", painted.reply.second, 0);
    is("manager_reply.taken", painted.reply.taken, k);
    for (size_t i = 0; i < sizeof painted.behind; i++)
        is("sizeof(manager_reply): a byte behind it", painted.behind[i], 0xa5);
    static struct { manager_value value; unsigned char behind[4096]; } reset;
    memset(&reset, 0xa5, sizeof reset);
    reset_into(&reset.value, m);
    m.highest = m.current;
    same_manager(&reset.value, &m);
    for (size_t i = 0; i < sizeof reset.behind; i++)
        is("sizeof(manager_value): a byte behind it", reset.behind[i], 0xa5);
}

/* Small buffers are made one after the other, and each is freed in turn from all of them: pointer, size and stream, and the whole manager after it. */
static void small_buffers(void) {
    static manager_value m, q;
    memset(&m, 0, sizeof m);
    opened(&m.pool);
    m.highest = 1000;
    none_complete();
    for (size_t i = 0; i < MANAGER_SMALLS; i++) {
        const manager_small_buffer b = {.pointer = 1 + fresh() * m.pool.va, .size = 1 + i % (m.pool.page - 1), .stream = fresh()};
        answers[1] = b.pointer;
        const manager_reply r = manager_malloc(m, b.size, b.stream, answers, 2, log_, POOL_LOG);
        cell("small", i, ": malloc", r.answer, POOL_ANSWER_DONE);
        cell("small", i, ".pointer", r.first, b.pointer);
        cell("small", i, ".size", r.second, b.size);
        is("manager_reply.records, a small malloc", r.records, 1);
        m.small.cells[m.small.count++] = b;
        m.current += b.size;
        m.highest = m.current > m.highest ? m.current : m.highest;
        same_manager(&r.manager, &m);
    }
    is("manager.small.count: one too many", manager_malloc(m, 1, 0, answers, 2, log_, POOL_LOG).answer, POOL_ANSWER_SMALLS_FULL);
    m.highest += fresh();
    for (size_t i = 0; i < m.small.count; i++) {
        const manager_small_buffer b = m.small.cells[i];
        const manager_reply r = manager_free(m, b.pointer, answers, 2, log_, POOL_LOG);
        cell("small", i, ".pointer: free", r.answer, POOL_ANSWER_DONE);
        cell("small", i, ".size", r.first, b.size);
        cell("small", i, ".stream", r.second, b.stream);
        cell("small", i, ".pointer, dropped", record(0, 1), b.pointer);
        q = m;
        memmove(q.small.cells + i, q.small.cells + i + 1, (MANAGER_SMALLS - 1 - i) * sizeof b);
        q.small.cells[--q.small.count] = (manager_small_buffer){0};
        q.current -= b.size;
        same_manager(&r.manager, &q);
    }
    /* the log's length lies behind the manager on the stack: the two have one size of it */
    is("sizeof(manager_value): a log of 2,047 records", manager_malloc(m, 1, 0, answers, 0, log_, POOL_LOG - 1).answer, POOL_ANSWER_SHORT_LOG);
    is("manager_reply.first", manager_malloc(m, 2 * m.pool.va - 1, 0, answers, 0, log_, POOL_LOG).first, 2 * m.pool.va);
    is("manager_reply.second", manager_malloc(m, 2 * m.pool.va - 1, 0, answers, 0, log_, POOL_LOG).second, m.pool.va);
    is("manager.current", (m.current++, manager_malloc(m, 1, 0, answers, 0, log_, POOL_LOG).answer), POOL_ANSWER_NOT_WELL_FORMED);
    m.current--;
    m.highest = m.current - 1;
    is("manager.highest", manager_malloc(m, 1, 0, answers, 0, log_, POOL_LOG).answer, POOL_ANSWER_NOT_WELL_FORMED);
}

/* The parameters of a manager's open, and a buffer of its pool. */
static void opens_manager(void) {
    const uint64_t stream = fresh();
    none_complete();
    answers[1] = 64000, answers[3] = 71, answers[7] = 72;
    manager_reply r = manager_open(32, 64, 640, 2, stream, answers, 16, log_, POOL_LOG);
    is("manager_open: answer", r.answer, POOL_ANSWER_DONE);
    is("manager_open: granularity, override_size", r.second, 64);
    is("manager_open: va_size", record(0, 2), 640);
    is("manager_open: initial_pages", r.records, 8);
    is("manager_open: initial_stream", record(6, 2), stream);
    r = manager_malloc(r.manager, 100, stream, answers, 0, log_, POOL_LOG);
    is("manager_malloc of the pool", r.answer, POOL_ANSWER_DONE);
    static manager_value m;
    m.pool.state = POOL_STATE_OPEN;
    m.pool.page = 64;
    m.pool.va = 640;
    m.pool.counter = 1;
    m.pool.live.cells[m.pool.live.count++] = (pool_live_buffer){.start = 64000, .size = 128, .stream = stream};
    m.pool.holes.cells[m.pool.holes.count++] = (pool_hole){.start = 64128, .size = 512};
    m.pool.pages.cells[m.pool.pages.count++] = (pool_page){.start = 64000, .handle = 71};
    m.pool.pages.cells[m.pool.pages.count++] = (pool_page){.start = 64064, .handle = 72};
    m.pool.roots.cells[m.pool.roots.count++] = 64000;
    m.current = m.highest = 128;
    same_manager(&r.manager, &m);
}

int main(void) {
    opens();
    closes();
    frees();
    fits();
    asks();
    takes();
    opens_manager();
    closes_manager();
    small_buffers();
    if (wrong)
        return 1;
    printf("layout: %d places agree; a pool has %zu bytes, a reply %zu; a manager %zu, a reply %zu\n", compared, sizeof(pool_value), sizeof(pool_reply),
           sizeof(manager_value), sizeof(manager_reply));
    return 0;
}
