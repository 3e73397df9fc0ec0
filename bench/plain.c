/* Plans, response times and runs in plain C, as docs/RULES.md and docs/FORMATS.md have them. */
#include "plain.h"

#include <stdbool.h>
#include <string.h>

enum { RECORD = 20, PAIR = 8, LINES = 20, SERVERS = 4, PLACES = 64, PENDING = 16 };
enum { LONGEST = 1000000, MOST = 65535, LAST = 1000000000 };

/* ---- plans ---- */

struct line {
    char letter;
    uint32_t work; /* or a server's budget */
    uint32_t period;
    uint32_t deadline;
    uint32_t first;
};

struct plan {
    uint32_t count;
    struct line lines[LINES];
};

static uint32_t get32(const uint8_t *at)
{
    return at[0] | (uint32_t)at[1] << 8 | (uint32_t)at[2] << 16 | (uint32_t)at[3] << 24;
}

static void put32(uint8_t *at, uint32_t n)
{
    for (int i = 0; i < 4; i++)
        at[i] = (uint8_t)(n >> (8 * i));
}

static bool is_server(char letter)
{
    return letter == 'P' || letter == 'D' || letter == 'S';
}

/* The number of the refusal, 0 where the record is a line. */
static uint32_t read_line(const uint8_t *at, struct line *line)
{
    line->letter = (char)at[0];
    line->work = get32(at + 4);
    line->period = get32(at + 8);
    line->deadline = get32(at + 12);
    line->first = get32(at + 16);
    if (line->letter != 'T' && !is_server(line->letter))
        return 2;
    if (at[1] || at[2] || at[3])
        return 3;
    if (line->period < 1 || line->period > LONGEST)
        return 4;
    if (line->work < 1 || line->work > line->period)
        return 5;
    if (line->letter == 'T') {
        if (line->deadline < line->work || line->deadline > line->period || line->first >= line->period)
            return 6;
    } else if (line->deadline || line->first) {
        return 6;
    }
    return 0;
}

/* 0, or the refusal's number x 1,000 + the record. */
static uint32_t read_plan(const uint8_t *bytes, size_t len, struct plan *plan)
{
    if (len % RECORD)
        return 1000;
    uint32_t servers = 0;
    char letter = 0;
    plan->count = 0;
    for (size_t at = 0; at < len; at += RECORD) {
        struct line line;
        uint32_t number = plan->count + 1;
        uint32_t refusal = read_line(bytes + at, &line);
        if (refusal)
            return refusal * 1000 + number;
        if (plan->count == LINES)
            return 11000 + number;
        if (line.letter != 'T') {
            if (servers == SERVERS)
                return 12000 + number;
            if (servers && line.letter != letter)
                return 13000 + number;
            letter = line.letter;
            servers++;
        }
        plan->lines[plan->count++] = line;
    }
    return 0;
}

/* ---- response times ---- */

/* The most that a line takes from the lines below it in w ticks, w >= 1. */
static uint64_t share(const struct line *line, uint32_t w)
{
    uint32_t n = line->letter == 'D' ? w + line->period - line->work : w;
    return (uint64_t)((n + line->period - 1) / line->period) * line->work;
}

/* The least w with demand(w) <= w, 0 where there is none within the limit. */
static uint32_t response_time(const struct plan *plan, uint32_t i)
{
    const struct line *line = &plan->lines[i];
    uint32_t limit = line->letter == 'T' ? line->deadline : line->period;
    uint64_t w = line->work;
    while (w <= limit) {
        uint64_t demand = line->work;
        for (uint32_t j = 0; j < i; j++)
            demand += share(&plan->lines[j], (uint32_t)w);
        if (demand <= w)
            return (uint32_t)w;
        w = demand;
    }
    return 0;
}

uint32_t plain_plan_times(const uint8_t *bytes, size_t len, uint8_t *result, size_t result_len)
{
    struct plan plan;
    uint32_t refusal = read_plan(bytes, len, &plan);
    if (refusal)
        return refusal;
    if (result_len < (size_t)PAIR * plan.count)
        return 9000;
    for (uint32_t i = 0; i < plan.count; i++) {
        put32(result + PAIR * i, i + 1);
        put32(result + PAIR * i + 4, response_time(&plan, i));
    }
    return 0;
}

/* ---- runs ---- */

struct request {
    uint32_t line;
    uint32_t number;
    uint32_t offered;
    uint32_t left;
};

struct completion {
    uint32_t line;
    uint32_t number;
    uint32_t ticks;
    bool early;
};

struct entry {
    uint32_t due;
    uint32_t amount;
};

struct row {
    struct line line;
    /* a task */
    uint64_t unfinished;
    uint64_t next;
    /* a server */
    uint32_t waits; /* how many requests wait for it */
    uint32_t held;
    /* a sporadic server */
    uint32_t slice; /* its amount, 0: none is open */
    uint32_t slice_first;
    uint32_t pending_count;
    struct entry pending[PENDING];
};

struct run {
    uint32_t time;
    uint32_t count;
    uint32_t offers;
    uint32_t request_count;
    uint32_t request_room;
    uint32_t completion_first; /* a ring */
    uint32_t completion_count;
    struct row rows[LINES];
    struct request requests[PLACES];
    struct completion completions[PLACES];
};

static void start(struct run *run, const struct plan *plan, uint32_t places)
{
    memset(run, 0, sizeof *run);
    run->count = plan->count;
    run->request_room = places < PLACES ? places : PLACES;
    for (uint32_t i = 0; i < plan->count; i++) {
        struct row *row = &run->rows[i];
        row->line = plan->lines[i];
        row->next = row->line.first;
        row->held = row->line.letter == 'P' ? 0 : row->line.work;
    }
}

static void close_slice(struct row *row)
{
    if (!row->slice)
        return;
    uint32_t due = row->slice_first + row->line.period;
    if (row->pending_count < PENDING) {
        row->pending[row->pending_count++] = (struct entry){due, row->slice};
    } else {
        row->pending[PENDING - 1].due = due;
        row->pending[PENDING - 1].amount += row->slice;
    }
    row->slice = 0;
}

static void begin_tick(struct row *row, uint32_t time)
{
    switch (row->line.letter) {
    case 'T':
        if (row->next == time) {
            row->unfinished += row->line.work;
            row->next += row->line.period;
        }
        break;
    case 'P':
        if (!row->waits)
            row->held = 0;
        else if (time % row->line.period == 0)
            row->held = row->line.work;
        break;
    case 'D':
        if (time % row->line.period == 0)
            row->held = row->line.work;
        break;
    case 'S':
        if (row->pending_count && row->pending[0].due == time) {
            row->held += row->pending[0].amount;
            row->pending_count--;
            memmove(row->pending, row->pending + 1, row->pending_count * sizeof row->pending[0]);
            close_slice(row);
        }
        break;
    }
}

static bool is_ready(const struct row *row)
{
    return row->line.letter == 'T' ? row->unfinished > 0 : row->waits > 0 && row->held > 0;
}

static void end_tick(struct row *row, uint32_t time, bool ran)
{
    if (row->line.letter == 'T')
        return;
    if (row->line.letter == 'S') {
        if (!ran) {
            close_slice(row);
            return;
        }
        if (!row->slice)
            row->slice_first = time;
        row->slice++;
        row->held--;
        if (!row->held)
            close_slice(row);
    } else if (ran) {
        row->held--;
    }
}

static void complete(struct run *run, uint32_t line, uint32_t number, uint32_t ticks)
{
    uint32_t at = (run->completion_first + run->completion_count) % PLACES;
    run->completions[at] = (struct completion){line, number, ticks, false};
    run->completion_count++;
}

/* The chosen line works for the tick that ends at a time. */
static void work(struct run *run, uint32_t line, uint32_t end)
{
    struct row *row = &run->rows[line - 1];
    if (row->line.letter == 'T') {
        row->unfinished--;
        if (!row->unfinished)
            complete(run, line, 0, end - (uint32_t)(row->next - row->line.period));
        return;
    }
    uint32_t i = 0;
    while (run->requests[i].line != line)
        i++;
    struct request *request = &run->requests[i];
    request->left--;
    if (!request->left) {
        complete(run, line, request->number, end - request->offered);
        row->waits--;
        run->request_count--;
        memmove(request, request + 1, (run->request_count - i) * sizeof *request);
    }
}

struct ticked {
    uint32_t number;
    uint32_t line;
    uint32_t ready;
};

/* 0, or the number of the refusal. */
static uint32_t tick(struct run *run, struct ticked *ticked)
{
    if (run->completion_count == PLACES)
        return 15;
    if (run->time >= LAST)
        return 16;
    uint32_t line = 0;
    uint32_t ready = 0;
    for (uint32_t i = 0; i < run->count; i++) {
        struct row *row = &run->rows[i];
        begin_tick(row, run->time);
        if (is_ready(row)) {
            ready |= 1u << i;
            if (!line)
                line = i + 1;
        }
    }
    if (line)
        work(run, line, run->time + 1);
    for (uint32_t i = 0; i < run->count; i++)
        end_tick(&run->rows[i], run->time, i + 1 == line);
    *ticked = (struct ticked){run->time, line, ready};
    run->time++;
    return 0;
}

/* 0, or the number of the refusal. */
static uint32_t offer(struct run *run, uint32_t line, uint32_t amount, uint32_t *number)
{
    if (line < 1 || line > run->count || run->rows[line - 1].line.letter == 'T')
        return 7;
    if (amount < 1 || amount > MOST)
        return 8;
    if (run->request_count >= run->request_room)
        return 14;
    if (run->offers < UINT32_MAX)
        run->offers++;
    run->requests[run->request_count++] = (struct request){line, run->offers, run->time, amount};
    run->rows[line - 1].waits++;
    *number = run->offers;
    return 0;
}

static bool fetch(struct run *run, struct completion *completion)
{
    if (!run->completion_count)
        return false;
    *completion = run->completions[run->completion_first];
    run->completion_first = (run->completion_first + 1) % PLACES;
    run->completion_count--;
    return true;
}

uint64_t plain_drive(const uint8_t *bytes, size_t len, uint32_t ticks, uint32_t amount, uint32_t places)
{
    struct plan plan;
    if (read_plan(bytes, len, &plan))
        return 0;
    for (uint32_t i = 0; i < plan.count; i++)
        if (!response_time(&plan, i))
            return 0;
    struct run run;
    start(&run, &plan, places);
    uint64_t sum = 0;
    for (uint32_t i = 0; i < ticks; i++) {
        uint32_t number = 0;
        struct ticked ticked;
        struct completion completion;
        uint64_t value = offer(&run, i % (plan.count + 1), amount, &number);
        value += number;
        uint32_t refusal = tick(&run, &ticked);
        value += refusal ? refusal : (uint64_t)ticked.number + ticked.line + ticked.ready;
        if (fetch(&run, &completion))
            value += (uint64_t)completion.line + completion.number + completion.ticks;
        sum = sum * 31 + value;
    }
    return sum;
}
