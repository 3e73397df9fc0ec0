/* Works out the times of plans through the C entry, and prints what it got. Each call has areas of its own that are exactly as
 * long as stated. With GUARD a page that may not be touched begins where an area ends; else the areas are malloc's, for the
 * address sanitizer. */
#ifdef GUARD
#define _DEFAULT_SOURCE
#include <sys/mman.h>
#include <unistd.h>
#endif

#include "plan_times.h"

#include <stdio.h>
#include <stdlib.h>
#include <string.h>

enum { RECORD = 20, LINES = 20, PAIR = 8, PATTERN = 0xee };

static void stop(const char *why)
{
    printf("%s\n", why);
    exit(1);
}

#ifdef GUARD
static uint8_t *area(size_t len)
{
    size_t page = (size_t)sysconf(_SC_PAGESIZE);
    uint8_t *at = mmap(NULL, 2 * page, PROT_READ | PROT_WRITE, MAP_PRIVATE | MAP_ANONYMOUS, -1, 0);
    if (len > page || at == MAP_FAILED || mprotect(at + page, page, PROT_NONE) != 0)
        stop("no memory");
    return at + page - len;
}

static void leave(uint8_t *at) { (void)at; }
#else
/* malloc may answer null for no bytes, and neither pointer may be null */
static uint8_t *area(size_t len)
{
    uint8_t *at = malloc(len > 0 ? len : 1);
    if (at == NULL)
        stop("no memory");
    return at;
}

static void leave(uint8_t *at) { free(at); }
#endif

static void put32(uint8_t *at, uint32_t n)
{
    for (int i = 0; i < 4; i++)
        at[i] = (uint8_t)(n >> (8 * i));
}

static uint32_t get32(const uint8_t *at)
{
    return at[0] | (uint32_t)at[1] << 8 | (uint32_t)at[2] << 16 | (uint32_t)at[3] << 24;
}

static void record(uint8_t *at, char letter, uint32_t work, uint32_t period, uint32_t deadline, uint32_t first)
{
    memset(at, 0, RECORD);
    at[0] = (uint8_t)letter;
    put32(at + 4, work);
    put32(at + 8, period);
    put32(at + 12, deadline);
    put32(at + 16, first);
}

/* Prints the answer, how many result bytes were written, which is up to the last that has lost the pattern put there before, and
 * each line with its time. */
static void show(const char *name, const uint8_t *bytes, size_t len, size_t room)
{
    uint8_t *plan = area(len);
    uint8_t *result = area(room);
    memcpy(plan, bytes, len);
    memset(result, PATTERN, room);
    uint32_t answer = plan_times(plan, len, result, room);
    size_t written = room;
    while (written > 0 && result[written - 1] == PATTERN)
        written--;
    printf("%s: answer %u, %u of %u bytes written\n", name, (unsigned)answer, (unsigned)written, (unsigned)room);
    for (size_t at = 0; at + PAIR <= written; at += PAIR)
        printf(" %u:%u%s", (unsigned)get32(result + at), (unsigned)get32(result + at + 4), at + PAIR < written ? "" : "\n");
    if (memcmp(plan, bytes, len) != 0)
        stop("the plan was changed");
    leave(plan);
    leave(result);
}

int main(void)
{
    uint8_t plan[3 * RECORD];
    uint8_t *second = plan + RECORD;
    uint8_t *third = plan + 2 * RECORD;
    const size_t len = sizeof plan;
    const size_t need = 3 * PAIR;
    record(plan, 'T', 1, 4, 4, 0);
    record(second, 'S', 2, 8, 0, 0);
    record(third, 'T', 3, 12, 12, 0);
    show("a plan that passes", plan, len, need);
    show("a longer result", plan, len, LINES * PAIR);
    show("a result one byte too short", plan, len, need - 1);
    show("no result bytes", plan, len, 0);
    show("its first line alone", plan, RECORD, PAIR);
    show("no lines", plan, 0, 0);
    show("no lines, and a longer result", plan, 0, PAIR);

    show("half a record more", plan, RECORD + RECORD / 2, need);
    record(third, 'T', 3, 12, 6, 0);
    show("a line that does not pass", plan, len, need);
    record(third, 'X', 3, 12, 12, 0);
    show("an unknown letter", plan, len, need);
    record(third, 'T', 3, 12, 12, 0);
    third[3] = 1;
    show("a byte that is not zero", plan, len, need);
    record(third, 'T', 3, 1000001, 12, 0);
    show("a period above a million", plan, len, need);
    record(third, 'T', 3, 12, 12, 12);
    show("a first arrival at the period", plan, len, need);
    record(third, 'D', 3, 12, 0, 0);
    show("a server of another letter", plan, len, need);
    record(second, 'S', 9, 8, 0, 0);
    show("a budget above the period, in an earlier record", plan, len, need);
    show("the same, and a result too short", plan, len, need - 1);

    uint8_t long_plan[(LINES + 1) * RECORD];
    for (int i = 0; i <= LINES; i++)
        record(long_plan + i * RECORD, 'T', 1, 100, 100, 0);
    show("20 lines", long_plan, LINES * RECORD, LINES * PAIR);
    show("20 lines, and a result one byte too short", long_plan, LINES * RECORD, LINES * PAIR - 1);
    show("21 lines", long_plan, sizeof long_plan, (LINES + 1) * PAIR);
    for (int i = 0; i < 5; i++)
        record(long_plan + i * RECORD, 'P', 1, 100, 0, 0);
    show("four servers", long_plan, 4 * RECORD, 4 * PAIR);
    show("five servers", long_plan, 5 * RECORD, 5 * PAIR);
    return 0;
}
