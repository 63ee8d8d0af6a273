/*
 * How much stack each function uses, on calls that go as deep as any: each runs on a stack of its own, which is filled
 * with a pattern before. None may use more than include/bekurapi.h says.
 */
#define _DEFAULT_SOURCE
#include <stdio.h>
#include <stdlib.h>
#include <string.h>
#include <ucontext.h>

#include "by_kind.h"

enum { SAID = 6 * 1024, STACK = 64 * 1024, PATTERN = 0xC9, MOST_GROUPS = 32 /* the deepest that are read */ };

static uint8_t stack[STACK];
static ucontext_t back;
static void (*function)(void);
static uint8_t *from; /* where the stack is when the function is called */

static __attribute__((noinline)) void start(void)
{
    from = __builtin_frame_address(0);
    function();
}

/* The stack that a call uses, that of the memory functions included. */
static size_t used_by(void (*call)(void))
{
    ucontext_t context;
    size_t untouched = 0;

    function = call;
    call(); /* once before, so that the dynamic linker has found what it calls */
    memset(stack, PATTERN, sizeof stack);
    getcontext(&context);
    context.uc_stack.ss_sp = stack;
    context.uc_stack.ss_size = sizeof stack;
    context.uc_link = &back;
    makecontext(&context, start, 0);
    swapcontext(&back, &context);
    while (stack[untouched] == PATTERN)
        untouched++;
    return (size_t)(from - stack) - untouched;
}

/* ---- What the calls are lent ---- */

static uint8_t frame[TRPC_MAX_FRAME], out[TRPC_MAX_FRAME];
static size_t frame_len;
static uint32_t rows[ROW_NUMBERS], record[NUMBERS], kind;
static struct trpc_queue queue;
static struct trpc_job job;

static void put(uint8_t byte)
{
    frame[frame_len++] = byte;
}

/* Groups, one inside the other. */
static void put_groups(unsigned count)
{
    for (unsigned i = 0; i < count; i++)
        put(0x7B); /* field 15 starts a group */
    for (unsigned i = 0; i < count; i++)
        put(0x7C);
}

/* A byte field, or a part, around what follows its length, which is under 128. */
static size_t open_part(unsigned field)
{
    put((uint8_t)(field << 3 | 2));
    put(0);
    return frame_len;
}

static void close_part(size_t opened)
{
    frame[opened - 1] = (uint8_t)(frame_len - opened);
}

/*
 * A frame with so many groups: in the message, in the first part of Init, and in a map entry. In Init's entry there are
 * no more than are read, so that groups in the part around it are reached.
 */
static void make_frame(unsigned groups)
{
    static const unsigned maps[KINDS] = {9, 8, 5, 5, 5, 5};
    size_t part, entry;

    frame_len = TRPC_HEADER_SIZE;
    if (kind == 2) {
        part = open_part(1);
        entry = open_part(maps[kind]);
        put_groups(groups < MOST_GROUPS ? groups : MOST_GROUPS);
        close_part(entry);
        close_part(part);
        part = open_part(1);
        put_groups(groups);
        close_part(part);
    } else {
        entry = open_part(maps[kind]);
        put_groups(groups);
        close_part(entry);
    }
    put_groups(groups);
    put_header(frame, kind, (uint32_t)frame_len, (uint32_t)frame_len - TRPC_HEADER_SIZE, 7);
}

/* A record with 64 rows where its kind has rows, and parts that are present. */
static void make_record(void)
{
    for (size_t i = 0; i < NUMBERS; i++)
        record[i] = 1;
    record[1] = kind == 3 || kind == 4 ? 0 : 64;
    for (uint32_t i = 0; i < 64; i++) {
        rows[4 * i] = 2 * i;
        rows[4 * i + 1] = i;
        rows[4 * i + 2] = 0;
        rows[4 * i + 3] = 1;
    }
}

static uint32_t code;

static void call_check(void)
{
    code = trpc_header_check(frame, TRPC_HEADER_SIZE, TRPC_MAX_FRAME);
}

static void call_parse(void)
{
    uint32_t type, id;
    uint8_t version;
    size_t total, size;

    code = trpc_header_parse(frame, TRPC_HEADER_SIZE, TRPC_MAX_FRAME, &type, &total, &size, &id, &version);
}

static size_t cut; /* how much of the frame comes with a call of its own */

static void call_deframe(void)
{
    size_t held = 0, taken, size;
    uint32_t error = 0;

    trpc_deframe(&held, &error, out, sizeof out, TRPC_MAX_FRAME, frame, cut, &taken, &size);
    code = trpc_deframe(&held, &error, out, sizeof out, TRPC_MAX_FRAME, frame + cut, frame_len - cut, &taken, &size);
}

static void call_finish(void)
{
    size_t short_by;

    code = trpc_finish(0, 0, out, sizeof out, TRPC_MAX_FRAME, &short_by);
}

static void call_read(void)
{
    code = read_as(kind, (struct bytes_lent){frame, frame_len}, TRPC_MAX_FRAME, rows, ROW_NUMBERS, record);
}

static size_t room, written;
static uint32_t ceiling; /* of the writers */

static void call_write(void)
{
    size_t body = kind == 0 || kind == 1 || kind == 3;
    struct written_from lent = {{frame, sizeof frame}, {rows, ROW_NUMBERS}, {frame, body}, out, room, ceiling};

    code = write_as(kind, record, lent, &written);
}

static void call_init(void)
{
    trpc_queue_init(&queue);
    code = 0;
}

static void call_add(void)
{
    code = trpc_queue_add(&queue, 1, (uint32_t)queue.count, 1, 1);
}

static void call_take(void)
{
    code = trpc_queue_take(&queue, &job);
}

static void call_cancel(void)
{
    code = trpc_queue_cancel(&queue, 1, (uint32_t)queue.count - 1, &job);
}

/* ---- The calls ---- */

/* The most that any function of a group has used. */
static void check(const char *group, size_t *most, void (*call)(void), uint32_t want)
{
    size_t used = used_by(call);

    if (code != want) {
        fprintf(stderr, "stack: %s, kind %u: answer %u, not %u\n", group, (unsigned)kind, (unsigned)code, (unsigned)want);
        exit(1);
    }
    if (used > SAID) {
        fprintf(stderr, "stack: %s, kind %u: %zu bytes, over %d\n", group, (unsigned)kind, used, (int)SAID);
        exit(1);
    }
    if (used > *most)
        *most = used;
}

int main(void)
{
    static const size_t cuts[] = {0, 1, TRPC_HEADER_SIZE + 1}; /* a whole frame; a part of the header held; more than it */
    size_t header = 0, deframer = 0, readers = 0, writers = 0, jobs = 0;

    for (kind = 0; kind < KINDS; kind++) {
        make_frame(MOST_GROUPS);
        check("header", &header, call_check, TRPC_HEADER_GOOD);
        check("header", &header, call_parse, TRPC_HEADER_GOOD);
        for (size_t i = 0; i < sizeof cuts / sizeof *cuts; i++) {
            cut = cuts[i];
            check("deframer", &deframer, call_deframe, TRPC_DEFRAME_DONE);
        }
        check("deframer", &deframer, call_finish, TRPC_DEFRAME_DONE);
        check("readers", &readers, call_read, TRPC_READ_DONE);
        make_frame(MOST_GROUPS + 1);
        check("readers", &readers, call_read, kind == 3 ? TRPC_READ_DONE : TRPC_READ_DEPTH);
        make_record();
        room = sizeof out;
        ceiling = TRPC_MAX_FRAME;
        check("writers", &writers, call_write, TRPC_WRITE_DONE);
        room = written; /* no bound fits: the message is measured first */
        check("writers", &writers, call_write, TRPC_WRITE_DONE);
        room = sizeof out;
        ceiling = (uint32_t)written; /* nor does one here */
        check("writers", &writers, call_write, TRPC_WRITE_DONE);
    }
    check("queue", &jobs, call_init, TRPC_QUEUE_DONE);
    for (size_t i = 0; i < 40; i++)
        call_add();
    check("queue", &jobs, call_add, TRPC_QUEUE_DONE);
    check("queue", &jobs, call_take, TRPC_QUEUE_DONE);
    check("queue", &jobs, call_cancel, TRPC_QUEUE_DONE);
    printf("stack: header %zu, deframer %zu, readers %zu, writers %zu, queue %zu bytes, of %d\n", header, deframer, readers,
           writers, jobs, (int)SAID);
    return 0;
}
