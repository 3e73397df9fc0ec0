/* The library and plain C side by side: every answer is compared, and both are timed.
 *
 * Each figure is the best of many short rounds, in which the two take turns; time is that of the processor. The plans come from
 * a fixed seed. */
#define _POSIX_C_SOURCE 199309L

#include "drive.h"
#include "plain.h"
#include "plan_times.h"

#include <stdbool.h>
#include <stdio.h>
#include <stdlib.h>
#include <string.h>
#include <time.h>

enum { RECORD = 20, LINES = 20, PAIR = 8, PLANS = 120, TICKS = 20000 };

static uint64_t seed = 20;

/* splitmix64 */
static uint64_t draw(void)
{
    uint64_t z = seed += 0x9e3779b97f4a7c15u;
    z = (z ^ z >> 30) * 0xbf58476d1ce4e5b9u;
    z = (z ^ z >> 27) * 0x94d049bb133111ebu;
    return z ^ z >> 31;
}

static uint32_t between(uint32_t low, uint32_t high)
{
    return low + (uint32_t)(draw() % (high - low + 1));
}

static double seconds(void)
{
    struct timespec t;
    clock_gettime(CLOCK_PROCESS_CPUTIME_ID, &t);
    return (double)t.tv_sec + (double)t.tv_nsec / 1e9;
}

/* ---- plans ---- */

struct bytes {
    size_t len;
    uint8_t at[(LINES + 2) * RECORD];
};

static void put32(uint8_t *at, uint32_t n)
{
    for (int i = 0; i < 4; i++)
        at[i] = (uint8_t)(n >> (8 * i));
}

static void add(struct bytes *plan, char letter, uint32_t work, uint32_t period, uint32_t first)
{
    uint8_t *at = plan->at + plan->len;
    memset(at, 0, RECORD);
    at[0] = (uint8_t)letter;
    put32(at + 4, work);
    put32(at + 8, period);
    if (letter == 'T') {
        put32(at + 12, period);
        put32(at + 16, first);
    }
    plan->len += RECORD;
}

static const char letters[] = "PDS";

/* Lines with periods in a range and a load of about `percent`, some of them servers of one kind. */
static struct bytes random_plan(uint32_t lines, uint32_t shortest, uint32_t longest, uint32_t percent, char letter, uint32_t servers)
{
    struct bytes plan = {0};
    for (uint32_t i = 0; i < lines; i++) {
        uint32_t period = between(shortest, longest);
        uint32_t mean = (uint32_t)((uint64_t)period * percent / 100 / lines);
        uint32_t work = between(mean / 2, mean + mean / 2);
        work = work < 1 ? 1 : work > period ? period : work;
        bool server = draw() % (lines - i) < servers;
        servers -= server;
        add(&plan, server ? letter : 'T', work, period, between(0, period - 1));
    }
    return plan;
}

/* 16 lines of work 1 and the periods 2, 4, 8 and so on leave one tick in 65,536; four lines below them. Most lines pass, and
   the search goes on in steps of a few ticks. */
static struct bytes halving_plan(void)
{
    struct bytes plan = {0};
    for (uint32_t i = 1; i <= 16; i++)
        add(&plan, 'T', 1, 1u << i, 0);
    for (uint32_t i = 17; i <= LINES; i++)
        add(&plan, 'T', 1, 1000000, 0);
    return plan;
}

/* The first line takes every tick. The search for line i goes up to the longest limit in steps of i - 1. */
static struct bytes full_plan(uint32_t lines)
{
    struct bytes plan = {0};
    add(&plan, 'T', 1, 1, 0);
    for (uint32_t i = 2; i <= lines; i++)
        add(&plan, 'T', 1, 1000000, 0);
    return plan;
}

/* ---- comparing ---- */

static void differ(const char *what, const struct bytes *plan)
{
    printf("%s: the library and plain C differ for this plan:\n", what);
    for (size_t i = 0; i < plan->len; i++)
        printf("%02x%s", plan->at[i], i % RECORD == RECORD - 1 ? "\n" : " ");
    exit(1);
}

static void same_times(const char *what, const struct bytes *plan, size_t room)
{
    uint8_t library[LINES * PAIR], plain[LINES * PAIR];
    memset(library, 0xee, sizeof library);
    memset(plain, 0xee, sizeof plain);
    uint32_t a = plan_times(plan->at, plan->len, library, room);
    uint32_t b = plain_plan_times(plan->at, plan->len, plain, room);
    if (a != b || memcmp(library, plain, sizeof library) != 0)
        differ(what, plan);
}

/* Plans of every sort, also with faults. */
static void compare(void)
{
    uint32_t driven = 0;
    for (uint32_t i = 0; i < 20000; i++) {
        uint32_t longest = i % 3 == 0 ? 12 : i % 3 == 1 ? 100 : 1000000;
        struct bytes plan = random_plan(between(1, LINES + 1), longest / 4, longest, between(20, 110), letters[draw() % 3], between(0, 5));
        if (draw() % 4 == 0)
            plan.at[draw() % plan.len] ^= (uint8_t)(1u << draw() % 8);
        if (draw() % 16 == 0)
            plan.len -= 1;
        same_times("times", &plan, draw() % 8 == 0 ? draw() % (LINES * PAIR) : LINES * PAIR);
        uint32_t ticks = between(0, 400), amount = draw() % 2 ? between(0, 3) : between(0, 70000), places = between(0, 70);
        uint64_t sum = drive(plan.at, plan.len, ticks, amount, places);
        if (sum != plain_drive(plan.at, plan.len, ticks, amount, places))
            differ("turns", &plan);
        driven += sum != 0;
    }
    printf("20000 plans compared, %u of them run: all answers are equal\n", driven);
}

/* ---- timing ---- */

struct best {
    double library;
    double plain;
};

/* Whether to make one more round: 7 at least, then until a second has passed. */
static bool more(int round, double begun)
{
    return round < 7 || (round < 200 && seconds() - begun < 1);
}

static void keep(double *best, double took)
{
    if (*best == 0 || took < *best)
        *best = took;
}

static uint8_t result[LINES * PAIR];

/* Seconds for all plans, `again` times over. */
static struct best time_times(const struct bytes *plans, uint32_t count, uint32_t again)
{
    struct best best = {0, 0};
    for (uint32_t i = 0; i < count; i++)
        same_times("times", &plans[i], sizeof result);
    double begun = seconds();
    for (int round = 0; more(round, begun); round++) {
        double start = seconds();
        for (uint32_t n = 0; n < again; n++)
            for (uint32_t i = 0; i < count; i++)
                plan_times(plans[i].at, plans[i].len, result, sizeof result);
        double middle = seconds();
        for (uint32_t n = 0; n < again; n++)
            for (uint32_t i = 0; i < count; i++)
                plain_plan_times(plans[i].at, plans[i].len, result, sizeof result);
        keep(&best.library, middle - start);
        keep(&best.plain, seconds() - middle);
    }
    return best;
}

static void show_times(const char *what, const struct bytes *plans, uint32_t count, uint32_t again)
{
    struct best best = time_times(plans, count, again);
    double plans_timed = (double)count * again;
    printf("%-52s %10.2f %10.2f %7.2f\n", what, best.library / plans_timed * 1e6, best.plain / plans_timed * 1e6, best.library / best.plain);
}

static struct best time_turns(const struct bytes *plan, uint32_t ticks, uint32_t amount, uint32_t places)
{
    struct best best = {0, 0};
    double begun = seconds();
    for (int round = 0; more(round, begun); round++) {
        double start = seconds();
        uint64_t library = drive(plan->at, plan->len, ticks, amount, places);
        double middle = seconds();
        uint64_t plain = plain_drive(plan->at, plan->len, ticks, amount, places);
        double end = seconds();
        if (library != plain)
            differ("turns", plan);
        if (library == 0) {
            printf("a plan to be run does not pass\n");
            exit(1);
        }
        keep(&best.library, middle - start);
        keep(&best.plain, end - middle);
    }
    return best;
}

static void show_turns(const char *what, const struct bytes *plan, uint32_t amount, uint32_t places)
{
    struct best best = time_turns(plan, TICKS, amount, places);
    printf("%-52s %10.2f %10.2f %7.2f\n", what, TICKS / best.library / 1e6, TICKS / best.plain / 1e6, best.library / best.plain);
}

/* Servers first, a third of the load; then tasks. */
static struct bytes run_plan(uint32_t lines, uint32_t servers, char letter)
{
    struct bytes plan = {0};
    for (uint32_t i = 0; i < servers; i++)
        add(&plan, letter, 20 / servers, 60, 0);
    for (uint32_t i = servers; i < lines; i++)
        add(&plan, 'T', 20, 60 * (lines - servers), 7 * i);
    return plan;
}

int main(void)
{
    static struct bytes plans[PLANS];
    char what[80];

    compare();

    printf("\n%-52s %10s %10s %7s\n", "times, microseconds a plan", "library", "C", "ratio");
    for (uint32_t i = 0; i < PLANS; i++)
        plans[i] = random_plan(LINES, 25, 100, 80, letters[i % 3], i % 5);
    show_times("20 lines, periods up to 100", plans, PLANS, 4);
    for (uint32_t i = 0; i < PLANS; i++)
        plans[i] = random_plan(LINES, 900000, 1000000, 80, letters[i % 3], i % 5);
    show_times("20 lines, periods near 1,000,000", plans, PLANS, 4);
    for (uint32_t i = 0; i < PLANS; i++)
        plans[i] = random_plan(LINES, 1000, 1000000, 96, letters[i % 3], i % 5);
    show_times("20 lines, periods 1,000 to 1,000,000, load 0.96", plans, PLANS, 4);
    plans[0] = halving_plan();
    show_times("20 lines, a load of 0.99998 in short periods", plans, 1, 1);
    plans[0] = full_plan(LINES);
    show_times("20 lines, the first takes every tick", plans, 1, 1);
    for (uint32_t lines = 1; lines <= LINES; lines = lines == 1 ? 5 : lines * 2) {
        for (uint32_t i = 0; i < PLANS; i++)
            plans[i] = random_plan(lines, 900000, 1000000, 80, letters[i % 3], 0);
        snprintf(what, sizeof what, "%u line%s, tasks only, periods near 1,000,000", (unsigned)lines, lines == 1 ? "" : "s");
        show_times(what, plans, PLANS, 4);
    }

    printf("\n%-52s %10s %10s %7s\n", "turns, millions a second", "library", "C", "ratio");
    static const char *kinds[] = {"polling", "deferrable", "sporadic"};
    for (int kind = 0; kind < 3; kind++)
        for (uint32_t lines = 3; lines <= LINES; lines += 17)
            for (uint32_t places = 2; places <= 60; places += 58) {
                plans[0] = run_plan(lines, lines == 3 ? 1 : 4, letters[kind]);
                snprintf(what, sizeof what, "%s, %u lines, %u requests wait", kinds[kind], (unsigned)lines, (unsigned)places);
                show_turns(what, &plans[0], 65535, places);
            }
    for (int kind = 0; kind < 3; kind += 2) {
        for (uint32_t places = 0; places <= 64; places += 16) {
            plans[0] = run_plan(10, 2, letters[kind]);
            snprintf(what, sizeof what, "%s, 10 lines, %u requests wait", kinds[kind], (unsigned)places);
            show_turns(what, &plans[0], 65535, places);
        }
        for (uint32_t lines = 5; lines <= LINES; lines += 5) {
            plans[0] = run_plan(lines, 1, letters[kind]);
            snprintf(what, sizeof what, "%s, %u lines, short requests come and go", kinds[kind], (unsigned)lines);
            show_turns(what, &plans[0], 1, 64);
        }
    }
    return 0;
}
