/*
 * The queue of waiting jobs, as a C program lends it, against a model that is written here on its own: document 01's
 * examples, each refusal and the order of the refusals, and 100,000 sequences of calls on queues of every kind. Before
 * each call the stack is filled with bytes that are not zero. After it every byte of the queue and of the job handed out
 * is compared, and the bytes around both. So what a call leaves does not depend on what was on the stack.
 */
#include <stdio.h>
#include <stdlib.h>
#include <string.h>

#include "bekurapi.h"

_Static_assert(sizeof(struct trpc_job) == 24, "the size of a job");
_Static_assert(offsetof(struct trpc_job, request) == 4, "the place of the request id");
_Static_assert(offsetof(struct trpc_job, timeout) == 8, "the place of the timeout");
_Static_assert(offsetof(struct trpc_job, zero) == 12, "the place of the number zero");
_Static_assert(offsetof(struct trpc_job, arrival) == 16, "the place of the arrival");
_Static_assert(sizeof(struct trpc_queue) == 64 * 24 + 8, "the size of a queue");
_Static_assert(offsetof(struct trpc_queue, count) == 64 * 24, "the place of the count");

enum { CAPACITY = 64, SEQUENCES = 100000, GUARD = 64, GUARD_BYTE = 0x25, STACK = 6 * 1024 };

#define LATEST (UINT64_C(1) << 62)

static unsigned long checks;
static unsigned long codes[27]; /* how often each error code was returned */

/* What the controller lends, with bytes around it that no call may change. */
struct lent {
    uint8_t before[GUARD];
    struct trpc_queue queue;
    uint8_t between[GUARD];
    struct trpc_job removed;
    uint8_t after[GUARD];
};

enum kind { ADD, TAKE, CANCEL };

struct call {
    enum kind kind;
    struct trpc_job job; /* of a cancel the pair */
};

static const struct trpc_job zero;

/* ---- the model: document 01, "Waiting jobs" and "Refusal numbers" */

static int same_pair(struct trpc_job a, struct trpc_job b)
{
    return a.connection == b.connection && a.request == b.request;
}

static int invalid(const struct trpc_queue *q)
{
    if (q->count > CAPACITY)
        return 1;
    for (size_t i = 0; i < q->count; i++) {
        if (q->jobs[i].arrival > LATEST)
            return 1;
        for (size_t k = 0; k < i; k++)
            if (same_pair(q->jobs[k], q->jobs[i]))
                return 1;
    }
    return 0;
}

/* The place of a job's pair, or the count. */
static size_t place(const struct trpc_queue *q, struct trpc_job j)
{
    size_t at = 0;
    while (at < q->count && !same_pair(q->jobs[at], j))
        at++;
    return at;
}

/* Whether a comes before b by due time only. */
static int sooner(struct trpc_job a, struct trpc_job b)
{
    if (a.timeout == 0 || b.timeout == 0)
        return a.timeout != 0 && b.timeout == 0;
    return a.arrival + a.timeout < b.arrival + b.timeout;
}

static size_t first_due(const struct trpc_queue *q)
{
    size_t best = 0;
    for (size_t i = 1; i < q->count; i++)
        if (sooner(q->jobs[i], q->jobs[best]))
            best = i;
    return best;
}

static struct trpc_job take_out(struct trpc_queue *q, size_t at)
{
    struct trpc_job job = q->jobs[at];
    q->count--;
    memmove(&q->jobs[at], &q->jobs[at + 1], (q->count - at) * sizeof job);
    q->jobs[q->count] = zero;
    return job;
}

/* The error code of a call; q and removed become what the call has to leave there. */
static uint32_t model(struct trpc_queue *q, struct trpc_job *removed, struct call c)
{
    if (c.kind != ADD)
        *removed = zero;
    if (invalid(q))
        return 24;
    size_t at = place(q, c.job);
    switch (c.kind) {
    case ADD:
        if (c.job.arrival > LATEST)
            return 22;
        if (at < q->count)
            return 25;
        if (q->count == CAPACITY)
            return 21;
        q->jobs[q->count++] = c.job;
        return 0;
    case TAKE:
        if (q->count == 0)
            return 23;
        *removed = take_out(q, first_due(q));
        return 0;
    default:
        if (at == q->count)
            return 26;
        *removed = take_out(q, at);
        return 0;
    }
}

/* ---- a call, compared */

static void fail(const char *what, const char *where)
{
    fprintf(stderr, "queue: %s: %s\n", what, where);
    exit(1);
}

/* A job and a queue have no padding: every byte is compared. */
static int same_job(struct trpc_job a, struct trpc_job b)
{
    return memcmp(&a, &b, sizeof a) == 0;
}

static void compare(const char *what, const struct lent *l, const struct trpc_queue *q, struct trpc_job removed)
{
    if (l->queue.count != q->count)
        fail(what, "another count");
    for (size_t i = 0; i < CAPACITY; i++)
        if (!same_job(l->queue.jobs[i], q->jobs[i]))
            fail(what, i < q->count ? "another job waits" : "another job past the count");
    if (memcmp(&l->queue, q, sizeof *q) != 0)
        fail(what, "another byte of the queue");
    if (!same_job(l->removed, removed))
        fail(what, "another job was handed out");
    for (size_t i = 0; i < GUARD; i++)
        if (l->before[i] != GUARD_BYTE || l->between[i] != GUARD_BYTE || l->after[i] != GUARD_BYTE)
            fail(what, "bytes beside the queue or the job were changed");
    checks++;
}

/* Fills the stack that the next call uses with bytes that are not zero, others each time. */
static __attribute__((noinline)) void fill_stack(void)
{
    static uint8_t byte;
    uint8_t used[STACK];

    byte = (uint8_t)(byte + 1) == 0 ? 1 : (uint8_t)(byte + 1);
    memset(used, byte, sizeof used);
    __asm__ volatile("" : : "r"(used) : "memory"); /* the bytes are looked at, for all that the compiler knows */
}

static uint32_t run(struct lent *l, struct call c)
{
    fill_stack();
    switch (c.kind) {
    case ADD:
        return trpc_queue_add(&l->queue, c.job.connection, c.job.request, c.job.timeout, c.job.arrival);
    case TAKE:
        return trpc_queue_take(&l->queue, &l->removed);
    default:
        return trpc_queue_cancel(&l->queue, c.job.connection, c.job.request, &l->removed);
    }
}

static uint32_t check(const char *what, struct lent *l, struct call c)
{
    struct trpc_queue q = l->queue;
    struct trpc_job removed = l->removed;
    uint32_t want = model(&q, &removed, c);
    uint32_t got = run(l, c);
    if (got != want) {
        fprintf(stderr, "queue: %s: expected %u, got %u\n", what, (unsigned)want, (unsigned)got);
        exit(1);
    }
    compare(what, l, &q, removed);
    codes[got]++;
    return got;
}

/* ---- what document 01 says in so many words: the code is named here, too, and not only by the model */

static void expect(const char *what, int holds)
{
    if (!holds)
        fail(what, "not as document 01 says");
    checks++;
}

static struct call add_call(uint32_t connection, uint32_t request, uint32_t timeout, uint64_t arrival)
{
    struct call c = {ADD, {connection, request, timeout, 0, arrival}};
    return c;
}

static void add(const char *what, struct lent *l, uint32_t request, uint32_t timeout, uint64_t arrival, uint32_t code)
{
    expect(what, check(what, l, add_call(1, request, timeout, arrival)) == code);
}

static void take(const char *what, struct lent *l, uint32_t code, uint32_t request)
{
    struct call c = {TAKE, zero};
    expect(what, check(what, l, c) == code);
    expect(what, code == 0 ? l->removed.request == request : same_job(l->removed, zero));
}

static void cancel(const char *what, struct lent *l, uint32_t connection, uint32_t request, uint32_t code)
{
    struct call c = {CANCEL, {connection, request, 0, 0, 0}};
    expect(what, check(what, l, c) == code);
    expect(what, code == 0 ? l->removed.request == request : same_job(l->removed, zero));
}

/* An empty queue, which held anything. */
static void start(struct lent *l)
{
    static const struct trpc_queue empty;
    memset(l, GUARD_BYTE, sizeof *l);
    struct trpc_job removed = l->removed;
    fill_stack();
    trpc_queue_init(&l->queue);
    compare("init", l, &empty, removed);
}

static void fill(struct lent *l, uint32_t jobs)
{
    start(l);
    for (uint32_t i = 0; i < jobs; i++)
        add("filling", l, i, 1000 - i, i, 0);
}

static void due_order(void)
{
    struct lent l;

    start(&l);
    add("the night shift", &l, 1, 4000000000, 0, 0);
    add("the night shift", &l, 2, 600000, 0, 0);
    take("the night shift", &l, 0, 2);
    take("the night shift", &l, 0, 1);

    start(&l);
    add("document 01's example", &l, 1, 0, 0, 0);
    add("document 01's example", &l, 2, 4000000000, 0, 0);
    add("document 01's example", &l, 3, 600000, 0, 0);
    take("document 01's example", &l, 0, 3);
    take("document 01's example", &l, 0, 2);
    take("document 01's example", &l, 0, 1);
    take("document 01's example", &l, 23, 0);

    start(&l);
    add("ties by acceptance", &l, 1, 30, 10, 0);
    add("ties by acceptance", &l, 2, 20, 20, 0);
    add("ties by acceptance", &l, 3, 10, 30, 0);
    add("no deadline sorts last", &l, 4, 0, 0, 0);
    add("no deadline sorts last", &l, 5, 0, 0, 0);
    add("at the latest arrival", &l, 6, UINT32_MAX, LATEST, 0);
    add("at the latest arrival", &l, 7, UINT32_MAX - 1, LATEST, 0);
    add("due 2^32 apart", &l, 8, UINT32_MAX, 30, 0);
    add("the clock went back", &l, 9, 1, 2, 0);
    static const uint32_t order[] = {9, 1, 2, 3, 8, 7, 6, 4, 5};
    for (size_t i = 0; i < sizeof order / sizeof *order; i++)
        take("the order of nine jobs", &l, 0, order[i]);
}

static void refusals(void)
{
    struct lent l;

    fill(&l, 64);
    add("21: 64 jobs wait", &l, 64, 1, 1, 21);
    add("25 before 21", &l, 63, 1, 1, 25);
    add("22 before 25 and 21", &l, 63, 1, LATEST + 1, 22);
    add("22 before 21", &l, 64, 1, UINT64_MAX, 22);
    cancel("26: no such request", &l, 1, 64, 26);
    cancel("26: another connection", &l, 2, 5, 26);
    cancel("a pair that waits", &l, 1, 5, 0);
    add("freed room is used", &l, 5, 0, LATEST, 0);
    add("21 again", &l, 64, 1, 1, 21);
    cancel("the first", &l, 1, 0, 0);
    cancel("the last", &l, 1, 5, 0);
    cancel("26: removed already", &l, 1, 5, 26);

    start(&l);
    take("23: nothing waits", &l, 23, 0);
    cancel("26: nothing waits", &l, 1, 1, 26);
    cancel("26: zeros past the count", &l, 0, 0, 26);

    static const size_t counts[] = {65, 66, SIZE_MAX};
    for (size_t i = 0; i < 3; i++) {
        fill(&l, 64);
        l.queue.count = counts[i];
        add("24 before 22: count over 64", &l, 1, 1, UINT64_MAX, 24);
        take("24: count over 64", &l, 24, 0);
        cancel("24: count over 64", &l, 1, 1, 24);
    }

    fill(&l, 3);
    l.queue.jobs[2] = l.queue.jobs[0];
    add("24 before 25: a pair twice", &l, 1, 1, 1, 24);
    take("24: a pair twice", &l, 24, 0);
    cancel("24 before 26: a pair twice", &l, 9, 9, 24);
    l.queue.count = 2;
    cancel("a pair again past the count", &l, 1, 0, 0);

    fill(&l, 3);
    l.queue.jobs[1].arrival = LATEST + 1;
    take("24: a late arrival", &l, 24, 0);
    cancel("24: a late arrival", &l, 1, 0, 24);
    add("24: a late arrival", &l, 9, 1, 1, 24);
    l.queue.count = 1;
    take("a late arrival past the count", &l, 0, 0);
}

/* ---- sequences of calls */

static uint64_t state = 88172645463325252;

static uint32_t below(uint32_t n)
{
    state ^= state << 13;
    state ^= state >> 7;
    state ^= state << 17;
    return (uint32_t)((state >> 32) % n);
}

static struct trpc_job any_job(uint32_t pairs)
{
    static const uint32_t timeouts[] = {0, 1, 2, 600000, INT32_MAX, 2147483648, 4000000000, UINT32_MAX - 1, UINT32_MAX};
    static const uint64_t arrivals[] = {0, 1, UINT32_MAX, UINT64_C(1) << 32, LATEST - 1, LATEST, LATEST + 1, UINT64_MAX};
    struct trpc_job j;
    j.connection = below(2);
    j.request = below(pairs);
    j.timeout = below(2) ? timeouts[below(9)] : below(50);
    j.zero = 0;
    j.arrival = below(8) == 0 ? arrivals[below(8)] : below(50);
    return j;
}

/* A queue with any count of jobs, anything past the count and as the number zero, and one time in eight invalid or nearly
   so. */
static void any_queue(struct lent *l, uint32_t pairs)
{
    start(l);
    for (size_t i = 0; i < CAPACITY; i++) {
        l->queue.jobs[i] = any_job(pairs);
        l->queue.jobs[i].zero = below(2) ? below(UINT32_MAX) : 0;
    }
    size_t count = below(4) == 0 ? CAPACITY : below(CAPACITY + 1);
    int repaired = below(8) != 0;
    for (size_t i = 0; i < count && repaired; i++) {
        l->queue.jobs[i].request = (uint32_t)i;
        if (l->queue.jobs[i].arrival > LATEST)
            l->queue.jobs[i].arrival = below(100);
    }
    l->queue.count = below(64) == 0 ? CAPACITY + below(3) : count;
}

static void sequence(void)
{
    struct lent l;
    uint32_t pairs = 1 + below(100);
    uint32_t calls = 1 + below(40);

    if (below(2))
        start(&l);
    else
        any_queue(&l, pairs);
    for (uint32_t i = 0; i < calls; i++) {
        uint32_t k = below(8);
        struct call c = {k < 4 ? ADD : k < 6 ? TAKE : CANCEL, any_job(pairs)};
        check("a sequence of calls", &l, c);
    }
}

int main(void)
{
    due_order();
    refusals();
    memset(codes, 0, sizeof codes);
    for (int i = 0; i < SEQUENCES; i++)
        sequence();
    for (size_t i = 0; i < sizeof codes / sizeof *codes; i++)
        if ((i == 0 || i > 20) && codes[i] < 1000)
            fail("sequences of calls", "an error code was met too seldom");
    printf("queue: %lu checks\n", checks);
    return 0;
}
