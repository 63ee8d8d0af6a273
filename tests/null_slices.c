/*
 * A null pointer with length 0, for every slice parameter of every function and every set of them: the answer, and all
 * that is lent, is as with a pointer to memory and length 0. The memory that such a pointer refers to is not changed.
 */
#include <stdio.h>
#include <stdlib.h>
#include <string.h>

#include "by_kind.h"

enum { GUARD = 0x5A };

static unsigned long checks;
static _Alignas(8) uint8_t elsewhere[64]; /* what pointers with length 0 refer to, if they are not null */

static void expect(const char *what, uint32_t kind, unsigned empty, int holds)
{
    checks++;
    if (holds)
        return;
    fprintf(stderr, "null_slices: %s: kind %u, empty slices %u\n", what, (unsigned)kind, empty);
    exit(1);
}

static int elsewhere_stays(void)
{
    for (size_t i = 0; i < sizeof elsewhere; i++)
        if (elsewhere[i] != GUARD)
            return 0;
    return 1;
}

/* What is lent for an empty slice: null, or memory. */
static void *nothing(int null)
{
    return null ? NULL : elsewhere;
}

/* Whether a slice is empty: `empty` has a bit for each slice parameter, in their order. */
static int has(unsigned empty, unsigned parameter)
{
    return empty >> parameter & 1;
}

static void headers(void)
{
    for (int null = 0; null < 2; null++) {
        uint32_t type = 9, id = 9;
        uint8_t version = 9;
        size_t total = 9, size = 9;

        expect("trpc_header_check", 0, 1, trpc_header_check(nothing(null), 0, TRPC_MAX_FRAME) == TRPC_HEADER_LENGTH);
        expect("trpc_header_parse", 0, 1,
               trpc_header_parse(nothing(null), 0, TRPC_MAX_FRAME, &type, &total, &size, &id, &version) ==
                   TRPC_HEADER_LENGTH);
        expect("what a refused header says", 0, 1, type == 0 && total == 0 && size == 0 && id == 0 && version == 0);
    }
}

struct deframed {
    uint8_t buffer[TRPC_MAX_FRAME];
    size_t held, taken, size, short_by;
    uint32_t error, code, end;
};

static void deframe(struct deframed *d, unsigned empty, int null)
{
    static const uint8_t piece[3] = {0x09, 0x30, 1};
    uint8_t *buffer = has(empty, 0) ? nothing(null) : d->buffer;
    const uint8_t *offered = has(empty, 1) ? nothing(null) : piece;
    size_t room = has(empty, 0) ? 0 : sizeof d->buffer, offered_len = has(empty, 1) ? 0 : sizeof piece;

    memset(d, GUARD, sizeof *d);
    d->held = d->error = 0;
    d->code = trpc_deframe(&d->held, &d->error, buffer, room, TRPC_MAX_FRAME, offered, offered_len, &d->taken, &d->size);
    d->end = trpc_finish(d->held, d->error, buffer, room, TRPC_MAX_FRAME, &d->short_by);
}

static void deframing(void)
{
    static struct deframed lent, null;

    for (unsigned empty = 0; empty < 4; empty++) {
        uint32_t code = has(empty, 0) ? TRPC_DEFRAME_BUFFER : TRPC_DEFRAME_DONE;
        size_t taken = empty == 0 ? 3 : 0;

        deframe(&lent, empty, 0);
        deframe(&null, empty, 1);
        expect("trpc_deframe and trpc_finish", 0, empty, memcmp(&lent, &null, sizeof lent) == 0);
        expect("their answers", 0, empty, null.code == code && null.end == code && null.size == 0);
        expect("what was taken", 0, empty, null.taken == taken && null.held == taken && null.short_by == taken);
    }
}

struct reading {
    uint32_t rows[ROW_NUMBERS], record[NUMBERS], code;
};

static void read_one(struct reading *r, uint32_t kind, unsigned empty, int null)
{
    uint8_t frame[TRPC_HEADER_SIZE];
    struct bytes_lent lent = {has(empty, 0) ? nothing(null) : frame, has(empty, 0) ? 0 : sizeof frame};
    uint32_t *rows = has(empty, 1) ? nothing(null) : r->rows;

    put_header(frame, kind, sizeof frame, 0, 7);
    frame[14] = 3;
    memset(r, GUARD, sizeof *r);
    r->code = read_as(kind, lent, TRPC_MAX_FRAME, rows, has(empty, 1) ? 0 : ROW_NUMBERS, r->record);
}

static void reading(uint32_t kind)
{
    for (unsigned empty = 0; empty < 4; empty++) {
        struct reading lent, null;

        read_one(&lent, kind, empty, 0);
        read_one(&null, kind, empty, 1);
        expect("a reader", kind, empty, memcmp(&lent, &null, sizeof lent) == 0);
        expect("its answer", kind, empty,
               null.code == (uint32_t)(has(empty, 1) ? TRPC_READ_ROWS : has(empty, 0) ? TRPC_READ_KIND : TRPC_READ_DONE));
        expect("the id", kind, empty, null.record[0] == (empty == 0 ? 7 : 0));
        expect("the version", kind, empty, null.record[VERSION_AT] == (empty == 0 ? 3 : 0));
    }
}

struct writing {
    uint8_t out[64];
    size_t size;
    uint32_t code;
};

static void write_one(struct writing *w, uint32_t kind, const uint32_t *record, unsigned empty, int null)
{
    static const uint8_t bytes[4] = {1, 2, 3, 4};
    static const uint32_t rows[4] = {0, 1, 1, 1};
    const struct bytes_lent lent = {bytes, sizeof bytes};
    struct written_from from = {lent, {rows, 4}, lent, w->out, sizeof w->out, TRPC_MAX_FRAME};

    if (has(empty, 0))
        from.source = (struct bytes_lent){nothing(null), 0};
    if (has(empty, 1))
        from.rows = (struct rows_lent){nothing(null), 0};
    if (has(empty, 2))
        from.body = (struct bytes_lent){nothing(null), 0};
    if (has(empty, 3)) {
        from.out = nothing(null);
        from.out_len = 0;
    }
    memset(w, GUARD, sizeof *w);
    w->code = write_as(kind, record, from, &w->size);
}

static void writing(uint32_t kind)
{
    static const uint32_t zeros[NUMBERS];
    uint32_t ones[NUMBERS], one_row[NUMBERS] = {0, 1};
    const uint32_t *const records[] = {zeros, one_row, ones};

    for (size_t i = 0; i < NUMBERS; i++)
        ones[i] = 1;
    for (size_t i = 0; i < 3; i++)
        for (unsigned empty = 0; empty < 16; empty++) {
            struct writing lent, null;

            memset(&lent, 0, sizeof lent);
            memset(&null, 0, sizeof null);
            write_one(&lent, kind, records[i], empty, 0);
            write_one(&null, kind, records[i], empty, 1);
            expect("a writer", kind, empty, memcmp(&lent, &null, sizeof lent) == 0);
            if (i == 0 && empty == 7)
                expect("a frame of nothing", kind, empty, null.code == TRPC_WRITE_DONE && null.size == TRPC_HEADER_SIZE);
            if (i == 0 && empty == 15)
                expect("no output", kind, empty, null.code == TRPC_WRITE_OUTPUT && null.size == 0);
            if (i == 2 && has(empty, 1))
                expect("no rows", kind, empty, null.code == TRPC_WRITE_ROWS && null.size == 0);
        }
}

int main(void)
{
    memset(elsewhere, GUARD, sizeof elsewhere);
    headers();
    deframing();
    for (uint32_t kind = 0; kind < KINDS; kind++) {
        reading(kind);
        writing(kind);
    }
    expect("what pointers with length 0 refer to", 0, 0, elsewhere_stays());
    printf("null_slices: %lu checks\n", checks);
    return 0;
}
