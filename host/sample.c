/* Works out the times of three plans through the C entry, and prints what it got. */
#include "plan_times.h"

#include <stdio.h>
#include <string.h>

enum { RECORD = 20, LINES = 20, PAIR = 8 };

static void put32(uint8_t *at, uint32_t n)
{
    for (int i = 0; i < 4; i++)
        at[i] = (uint8_t)(n >> (8 * i));
}

static uint32_t get32(const uint8_t *at)
{
    return at[0] | (uint32_t)at[1] << 8 | (uint32_t)at[2] << 16 | (uint32_t)at[3] << 24;
}

static void record(uint8_t *at, char letter, uint32_t work, uint32_t period, uint32_t deadline, uint32_t first)
{
    memset(at, 0, RECORD);
    at[0] = (uint8_t)letter;
    put32(at + 4, work);
    put32(at + 8, period);
    put32(at + 12, deadline);
    put32(at + 16, first);
}

static void show(const char *name, const uint8_t *plan, size_t lines, size_t room)
{
    uint8_t result[LINES * PAIR];
    memset(result, 0xee, sizeof result);
    uint32_t answer = plan_times(plan, lines * RECORD, result, room);
    printf("%s: answer %u\n", name, (unsigned)answer);
    if (answer == 0)
        for (size_t i = 0; i < lines; i++)
            printf("  line %u time %u\n", (unsigned)get32(result + i * PAIR), (unsigned)get32(result + i * PAIR + 4));
    size_t kept = 0;
    while (kept < sizeof result && result[sizeof result - 1 - kept] == 0xee)
        kept++;
    printf("  %u bytes untouched\n", (unsigned)kept);
}

int main(void)
{
    uint8_t plan[3 * RECORD];
    record(plan, 'T', 1, 4, 4, 0);
    record(plan + RECORD, 'S', 2, 8, 0, 0);
    record(plan + 2 * RECORD, 'T', 3, 12, 12, 0);
    show("a plan that passes", plan, 3, LINES * PAIR);
    show("a result one byte too short", plan, 3, 3 * PAIR - 1);
    record(plan + 2 * RECORD, 'T', 3, 12, 6, 0);
    show("a line that does not pass", plan, 3, LINES * PAIR);
    record(plan + RECORD, 'S', 9, 8, 0, 0);
    show("a budget above the period", plan, 3, LINES * PAIR);
    return 0;
}
