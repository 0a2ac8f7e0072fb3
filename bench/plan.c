/* Times the proved planner on whole sheets: start, rules, close, plan. Nothing here is proved. Sheets come from a
   fixed seed. Times are medians, in microseconds. */
#include <stdint.h>
#include <stdio.h>
#include <stdlib.h>
#include <string.h>
#include <time.h>

uint32_t bench_plan(uint32_t *words, size_t words_len, const uint32_t *rules, size_t rules_len, uint32_t *answer,
                    size_t answer_len, uint32_t *work, size_t work_len);

enum { LOTS = 256, RULES = 32, ROUNDS = 31, DAYS = 10000 };

static uint64_t state = 88172645463325252u;

static uint32_t below(uint32_t n)
{
    state ^= state << 13;
    state ^= state >> 7;
    state ^= state << 17;
    return (uint32_t)(state % n);
}

static double now_us(void)
{
    struct timespec t;
    clock_gettime(CLOCK_MONOTONIC, &t);
    return t.tv_sec * 1e6 + t.tv_nsec / 1e3;
}

static int by_size(const void *a, const void *b)
{
    double x = *(const double *)a, y = *(const double *)b;
    return (x > y) - (x < y);
}

struct sheet {
    uint32_t words[2 * LOTS];
    uint32_t rules[4 * RULES];
    size_t lots, used;
};

static void window(struct sheet *s, size_t lot, uint32_t low, uint32_t high)
{
    s->words[2 * lot] = low;
    s->words[2 * lot + 1] = high;
}

static void rule(struct sheet *s, uint32_t first, uint32_t length, uint32_t floor, uint32_t ceiling)
{
    uint32_t *r = s->rules + 4 * s->used++;
    r[0] = first;
    r[1] = length;
    r[2] = floor;
    r[3] = ceiling;
}

static void scatter(struct sheet *s, uint32_t width, uint32_t season)
{
    s->lots = LOTS;
    s->used = 0;
    for (size_t i = 0; i < LOTS; i++) {
        uint32_t low = below(season);
        window(s, i, low, low + below(width));
    }
}

/* fewest and most different days of lots, each time by serving the lots in the order of their last days */
static uint32_t fewest(const struct sheet *s, size_t first, size_t length)
{
    uint32_t count = 0;
    int64_t point = -1;
    char served[LOTS] = {0};
    for (;;) {
        size_t best = LOTS;
        for (size_t i = first; i < first + length; i++)
            if (!served[i] && (best == LOTS || s->words[2 * i + 1] < s->words[2 * best + 1]))
                best = i;
        if (best == LOTS)
            return count;
        if ((int64_t)s->words[2 * best] > point) {
            point = s->words[2 * best + 1];
            count++;
        }
        served[best] = 1;
    }
}

static uint32_t most(const struct sheet *s, size_t first, size_t length)
{
    static char taken[DAYS + 1];
    char served[LOTS] = {0};
    uint32_t count = 0;
    memset(taken, 0, sizeof taken);
    for (;;) {
        size_t best = LOTS;
        for (size_t i = first; i < first + length; i++)
            if (!served[i] && (best == LOTS || s->words[2 * i + 1] < s->words[2 * best + 1]))
                best = i;
        if (best == LOTS)
            return count;
        served[best] = 1;
        for (uint32_t d = s->words[2 * best]; d <= s->words[2 * best + 1]; d++)
            if (!taken[d]) {
                taken[d] = 1;
                count++;
                break;
            }
    }
}

static void time_sheet(const char *name, const struct sheet *s)
{
    static uint32_t work[4096];
    uint32_t words[2 * LOTS], answer[LOTS];
    double times[ROUNDS];
    uint32_t said = 0;
    for (int round = 0; round < ROUNDS; round++) {
        memcpy(words, s->words, sizeof words);
        double t = now_us();
        said = bench_plan(words, 2 * s->lots, s->rules, 4 * s->used, answer, LOTS, work, 4096);
        times[round] = now_us() - t;
    }
    qsort(times, ROUNDS, sizeof *times, by_size);
    if (said == 0)
        printf("%-58s %10.1f us  planned\n", name, times[ROUNDS / 2]);
    else
        printf("%-58s %10.1f us  refused %u\n", name, times[ROUNDS / 2], said);
}

int main(void)
{
    static struct sheet s;
    scatter(&s, 30, 300);
    time_sheet("256 lots, no rule", &s);

    scatter(&s, 30, 300);
    for (uint32_t g = 0; g < RULES; g++)
        rule(&s, 8 * g, 8, 0, fewest(&s, 8 * g, 8));
    time_sheet("32 groups of 8, ceiling = fewest", &s);

    scatter(&s, 30, 300);
    for (uint32_t g = 0; g < RULES; g++)
        rule(&s, 8 * g, 8, 0, fewest(&s, 8 * g, 8) + 1);
    time_sheet("32 groups of 8, ceiling = fewest + 1", &s);

    scatter(&s, 6, 6);
    for (uint32_t g = 0; g < RULES; g++)
        rule(&s, 8 * g, 8, most(&s, 8 * g, 8), 256);
    time_sheet("32 groups of 8 on few days, floor = most", &s);

    scatter(&s, 30, 300);
    for (uint32_t g = 0; g < RULES - 1; g++)
        rule(&s, 8 * g, 8, 0, fewest(&s, 8 * g, 8));
    rule(&s, 248, 8, 0, fewest(&s, 248, 8) - 1);
    time_sheet("31 groups of 8, and a last one that is impossible", &s);

    scatter(&s, 30, 300);
    for (uint32_t g = 0; g < 10; g++) {
        for (uint32_t i = 0; i < 3; i++)
            window(&s, 24 * g + i, 0, 9999);
        rule(&s, 24 * g, 2, 1, 1);
        rule(&s, 24 * g + 1, 2, 1, 1);
        rule(&s, 24 * g, 3, 1, g == 9 ? 3 : 1);
    }
    s.rules[4 * 29 + 2] = 2;
    time_sheet("10 groups on 10,000 days, the last impossible after search", &s);

    scatter(&s, 30, 300);
    rule(&s, 0, 256, 0, fewest(&s, 0, 256));
    time_sheet("one rule over all lots, ceiling = fewest", &s);

    scatter(&s, 30, 200);
    rule(&s, 0, 256, most(&s, 0, 256), 256);
    time_sheet("one rule over all lots, floor = most", &s);

    scatter(&s, 20, 60);
    for (uint32_t g = 0; g < RULES; g++) {
        uint32_t first = 7 * g, length = 16;
        rule(&s, first, length, 0, fewest(&s, first, length) + 1);
    }
    time_sheet("32 overlapping stretches of 16, ceiling = fewest + 1", &s);

    for (size_t i = 0; i < LOTS; i++)
        window(&s, i, 0, 0);
    scatter(&s, 8, 12);
    for (uint32_t g = 0; g < RULES; g++) {
        uint32_t first = 7 * g, length = 12;
        uint32_t few = fewest(&s, first, length), many = most(&s, first, length);
        rule(&s, first, length, g % 2 ? many : 0, g % 2 ? 256 : few);
    }
    time_sheet("32 overlapping stretches of 12, floors and ceilings mixed", &s);
    return 0;
}
