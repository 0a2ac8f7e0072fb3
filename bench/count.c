/* Times the proved counting functions: fewest, most, and one rule's tightest windows with a tight ceiling and a tight
 * floor. Nothing here is proved. Windows come from a fixed seed. Times are medians, in microseconds. */
#include <stdint.h>
#include <stdio.h>
#include <stdlib.h>
#include <string.h>
#include <time.h>

struct window { uint32_t low, high; };

size_t bench_fewest(uint32_t *words, size_t words_len, size_t lots, uint32_t *answer, size_t answer_len,
                    uint32_t *work, size_t work_len);
size_t bench_most(uint32_t *words, size_t words_len, size_t lots, uint32_t *answer, size_t answer_len,
                  uint32_t *work, size_t work_len);
uint32_t bench_tighten(struct window *windows, size_t windows_len, uint32_t floor, uint32_t ceiling);

enum { LOTS = 256, ROUNDS = 31, LAST_DAY = 9999 };

static uint64_t state = 88172645463325252u;

static uint32_t below(uint32_t n)
{
    state ^= state << 13;
    state ^= state >> 7;
    state ^= state << 17;
    return (uint32_t)(state % n);
}

static double now_us(void)
{
    struct timespec t;
    clock_gettime(CLOCK_MONOTONIC, &t);
    return t.tv_sec * 1e6 + t.tv_nsec / 1e3;
}

static int by_size(const void *a, const void *b)
{
    double x = *(const double *)a, y = *(const double *)b;
    return (x > y) - (x < y);
}

static double median(double *times)
{
    qsort(times, ROUNDS, sizeof *times, by_size);
    return times[ROUNDS / 2];
}

/* windows of up to `width` days, spread over a season that has `season` days */
static void scatter(struct window *w, size_t lots, uint32_t width, uint32_t season)
{
    for (size_t i = 0; i < lots; i++) {
        uint32_t days = 1 + below(width);
        uint32_t first = below(season);
        if (first + days > LAST_DAY)
            first = LAST_DAY - days;
        w[i].low = first;
        w[i].high = first + days - 1;
    }
}

/* lot i may take any day from 0 to i: every floor at the most is tight */
static void staircase(struct window *w, size_t lots)
{
    for (size_t i = 0; i < lots; i++) {
        w[i].low = 0;
        w[i].high = (uint32_t)i;
    }
}

static uint32_t answer[2 * LOTS], work[4096];

static void row(const char *name, const struct window *from, size_t lots)
{
    struct window w[LOTS];
    double few[ROUNDS], many[ROUNDS], ceiling[ROUNDS], floor_[ROUNDS];
    size_t least = 0, most = 0;
    for (int r = 0; r < ROUNDS; r++) {
        memcpy(w, from, lots * sizeof *w);
        double t0 = now_us();
        least = bench_fewest((uint32_t *)w, 2 * lots, lots, answer, 2 * LOTS, work, 4096);
        double t1 = now_us();
        most = bench_most((uint32_t *)w, 2 * lots, lots, answer, 2 * LOTS, work, 4096);
        double t2 = now_us();
        bench_tighten(w, lots, 0, (uint32_t)least);
        double t3 = now_us();
        memcpy(w, from, lots * sizeof *w);
        double t4 = now_us();
        bench_tighten(w, lots, (uint32_t)most, LOTS);
        double t5 = now_us();
        few[r] = t1 - t0;
        many[r] = t2 - t1;
        ceiling[r] = t3 - t2;
        floor_[r] = t5 - t4;
    }
    printf("| %-28s | %3zu | %3zu | %3zu | %8.1f | %8.1f | %9.1f | %9.1f |\n", name, lots, least, most,
           median(few), median(many), median(ceiling), median(floor_));
}

int main(void)
{
    static const size_t sizes[] = {8, 40, 256};
    static const uint32_t widths[] = {2, 200, 9999};
    struct window w[LOTS];
    printf("| windows                      | lots | fewest | most | fewest us | most us | ceiling us | floor us |\n");
    printf("|---|---|---|---|---|---|---|---|\n");
    for (size_t s = 0; s < 3; s++)
        for (size_t d = 0; d < 3; d++) {
            char name[64];
            snprintf(name, sizeof name, "up to %u days", widths[d]);
            scatter(w, sizes[s], widths[d], (uint32_t)(sizes[s] + widths[d] / 2));
            row(name, w, sizes[s]);
        }
    staircase(w, LOTS);
    row("staircase", w, LOTS);
    return 0;
}
