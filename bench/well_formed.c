/* What the test of a pool costs: on pools with few, some and as many entries as the ceilings allow. */
#define _POSIX_C_SOURCE 199309L
#include "pool.h"
#include <stdio.h>
#include <stdlib.h>
#include <string.h>
#include <time.h>

bool measured_well_formed(Pool p);

/* Roots of `slots` slots of four pages each. A slot is a live buffer of two pages, a free region of two, a hole, or a zombie, in turn, with a page
   between that is lost, so that no two holes touch; `spans` of them are free or live. */
static Pool pool_with(int roots, int spans, int holes, int zombies) {
    const uint64_t page = 4096, slots = 64, va = slots * 4 * page;
    static Pool p;
    memset(&p, 0, sizeof p);
    p.state = 1;
    p.page = page;
    p.va = va;
    for (int i = 0; i < roots; i++)
        p.roots.cells[p.roots.count++] = (uint64_t)(i + 1) * 2 * va;
    int left[4] = {spans / 2, spans - spans / 2, holes, zombies};
    uint64_t handle = 1;
    for (int i = 0, kind = 0; i < roots * (int)slots; i++) {
        if (left[0] + left[1] + left[2] + left[3] == 0)
            break;
        while (left[kind] == 0)
            kind = (kind + 1) % 4;
        left[kind]--;
        uint64_t start = p.roots.cells[i / slots] + (uint64_t)(i % slots) * 4 * page, size = 2 * page;
        if (kind == 0)
            p.live.cells[p.live.count++] = (LiveBuffer){start, size, 1};
        if (kind == 1) {
            p.free.cells[p.free.count++] = (FreeRegion){start, size, 2, p.counter};
            p.counter++;
        }
        if (kind == 2)
            p.holes.cells[p.holes.count++] = (Hole){start, size};
        if (kind == 3) {
            p.zombies.cells[p.zombies.count++] = (Zombie){start, size, p.counter};
            p.counter++;
        }
        if (kind < 2)
            for (int k = 0; k < 2; k++)
                p.pages.cells[p.pages.count++] = (Page){start + (uint64_t)k * page, handle++};
        kind = (kind + 1) % 4;
    }
    return p;
}

static double now_ns(void) {
    struct timespec t;
    clock_gettime(CLOCK_MONOTONIC, &t);
    return t.tv_sec * 1e9 + t.tv_nsec;
}

static void measure(const char *name, int roots, int spans, int holes, int zombies) {
    static Pool p;
    p = pool_with(roots, spans, holes, zombies);
    if (!measured_well_formed(p)) {
        printf("%s: the pool is not well formed\n", name);
        exit(1);
    }
    Pool broken = p;
    broken.pages.cells[0].handle = broken.pages.cells[1].handle;
    if (measured_well_formed(broken)) {
        printf("%s: a handle twice passes\n", name);
        exit(1);
    }
    const int turns = 2000;
    double best = 1e18;
    for (int run = 0; run < 7; run++) {
        double start = now_ns();
        for (int i = 0; i < turns; i++)
            if (!measured_well_formed(p))
                exit(1);
        double spent = (now_ns() - start) / turns;
        if (spent < best)
            best = spent;
    }
    printf("%-7s %9.0f ns  %2zu roots %3zu free %3zu live %3zu holes %3zu zombies %3zu pages\n", name, best, p.roots.count, p.free.count, p.live.count,
           p.holes.count, p.zombies.count, p.pages.count);
}

int main(void) {
    printf("well_formed, best of 7 (a pool is %zu bytes):\n", sizeof(Pool));
    measure("small", 1, 4, 2, 1);
    measure("middle", 2, 32, 16, 8);
    measure("full", 11, 128, 384, 128);
    return 0;
}
