/*
 * The six readers on damaged frames, under ceilings in range and out of it, each lent buffer exactly as long as it is said
 * to be: once from malloc, under -fsanitize=address,undefined, and, since the archive's own code carries no checks of the
 * sanitizer, once before and once after a page that cannot be touched. The three have to answer the same; what a refusal
 * leaves has to be as document 01 says, and the version of a record is the frame's byte 15.
 */
#define _DEFAULT_SOURCE
#include <stdio.h>
#include <stdlib.h>
#include <string.h>

#include "by_kind.h"
#include "fenced.h"

enum { FRAMES = 200000, LAST_CODE = TRPC_BAD_CEILING, LARGEST = 1 << 16 };

/* ---- Numbers that look random and are the same in each run ---- */

static uint64_t state = 0x62656B7572617069;

static uint32_t any(void)
{
    state += 0x9E3779B97F4A7C15;
    uint64_t z = state;
    z = (z ^ z >> 30) * 0xBF58476D1CE4E5B9;
    z = (z ^ z >> 27) * 0x94D049BB133111EB;
    return (uint32_t)((z ^ z >> 31) >> 16);
}

static uint32_t below(uint32_t limit)
{
    return any() % limit;
}

/* ---- Frames ---- */

struct bytes {
    uint8_t at[LARGEST + 64];
    size_t len;
};

static void put(struct bytes *out, uint32_t byte)
{
    if (out->len < LARGEST)
        out->at[out->len++] = (uint8_t)byte;
}

static void put_varint(struct bytes *out, uint64_t value)
{
    unsigned more = below(8) == 0 ? below(4) : 0;
    for (; value >= 0x80; value >>= 7)
        put(out, (uint32_t)(value | 0x80));
    for (; more > 0; more--, value = 0)
        put(out, (uint32_t)(value | 0x80));
    put(out, (uint32_t)value);
}

static uint64_t number(void)
{
    uint64_t wide = (uint64_t)any() << 32 | any();
    return below(2) ? below(200) : wide >> below(64);
}

static void put_fields(struct bytes *out, unsigned count, unsigned depth);

/* A length and so many bytes: plain ones, or fields again; now and then the length is another. */
static void put_delimited(struct bytes *out, unsigned depth)
{
    static struct bytes parts[4];
    struct bytes *part = &parts[depth];
    part->len = 0;
    if (depth < 3 && below(2))
        put_fields(part, below(6), depth + 1);
    else
        for (unsigned count = below(below(30) == 0 ? 300 : 12); count > 0; count--)
            put(part, any());
    put_varint(out, below(40) == 0 ? number() : part->len);
    for (size_t i = 0; i < part->len; i++)
        put(out, part->at[i]);
}

static void put_group(struct bytes *out, unsigned number, unsigned levels)
{
    put_varint(out, (uint64_t)number << 3 | 3);
    if (levels > 1)
        put_group(out, 1 + below(20), levels - 1);
    if (below(50))
        put_varint(out, (uint64_t)number << 3 | 4);
}

static void put_fixed(struct bytes *out, unsigned count)
{
    for (; count > 0; count--)
        put(out, any());
}

static void put_tag(struct bytes *out, uint64_t field, unsigned wire_type)
{
    put_varint(out, field << 3 | wire_type);
}

static void put_field(struct bytes *out, unsigned field, unsigned depth)
{
    switch (below(12)) {
    case 0:
        put_group(out, field, below(4) ? 1 + below(3) : 30 + below(5));
        break;
    case 1:
        put_tag(out, field, 1);
        put_fixed(out, 8);
        break;
    case 2:
        put_tag(out, field, 5);
        put_fixed(out, 4);
        break;
    case 3:
    case 4:
    case 5:
        put_tag(out, field, 0);
        put_varint(out, number());
        break;
    case 6:
        put_fixed(out, below(10) == 0);
        break;
    default:
        put_tag(out, field, 2);
        put_delimited(out, depth);
    }
}

static void put_fields(struct bytes *out, unsigned count, unsigned depth)
{
    for (; count > 0; count--)
        put_field(out, below(30) ? 1 + below(13) : any() >> 3, depth);
}

/* Map entries around the limit of 64, some keys again, in the field that is the kind's map; Init's is in its first part. */
static void put_entries(struct bytes *out, uint32_t kind)
{
    static const unsigned fields[KINDS] = {9, 8, 5, 5, 5, 5};
    static struct bytes entries;
    entries.len = 0;
    for (unsigned count = 60 + below(8); count > 0; count--) {
        put_tag(&entries, fields[kind], 2);
        put_varint(&entries, 5);
        const uint8_t entry[] = {0x0A, 1, (uint8_t)below(100), 0x12, 0};
        for (size_t i = 0; i < sizeof entry; i++)
            put(&entries, entry[i]);
    }
    if (kind == 2) {
        put_tag(out, 1, 2);
        put_varint(out, entries.len);
    }
    for (size_t i = 0; i < entries.len; i++)
        put(out, entries.at[i]);
}

static void put_big(uint8_t *at, uint32_t value, unsigned size)
{
    for (unsigned i = 0; i < size; i++)
        at[i] = (uint8_t)(value >> 8 * (size - 1 - i));
}

static void fit(struct bytes *frame, size_t header_size)
{
    if (frame->len < 16)
        return;
    put_big(frame->at + 4, (uint32_t)frame->len, 4);
    put_big(frame->at + 8, frame->at[2] == 0 ? (uint32_t)header_size : 0, 2);
}

static void make_frame(struct bytes *frame, uint32_t kind)
{
    frame->len = 16;
    put_header(frame->at, kind, 0, 0, any());
    frame->at[14] = (uint8_t)any();
    frame->at[15] = (uint8_t)any();
    if (below(20) == 0)
        put_entries(frame, kind);
    put_fields(frame, below(8), 0);
    size_t header_size = frame->len - 16;
    for (unsigned body = kind < 2 ? below(12) : 0; body > 0; body--)
        put(frame, any());
    fit(frame, header_size);
    for (unsigned damages = below(4); damages > 0 && frame->len > 0; damages--) {
        size_t place = below((uint32_t)frame->len);
        unsigned damage = below(4);
        if (damage == 0) {
            frame->at[place] = (uint8_t)any();
        } else if (damage == 1) {
            frame->at[place] ^= (uint8_t)(1 << below(8));
        } else if (damage == 2 && (place >= 16 || below(8) == 0)) {
            frame->len = place;
        } else if (place >= 16) {
            memmove(frame->at + place, frame->at + place + 1, frame->len - place - 1);
            frame->len--;
        }
    }
    if (below(4)) {
        size_t most = frame->len < 16 ? 0 : frame->len - 16;
        fit(frame, header_size < most ? header_size : most - (most > 0 && below(2)));
    }
}

/* A ceiling: most often the largest, else one around the frame's size, or out of range. */
static uint32_t any_ceiling(const struct bytes *frame)
{
    static const uint32_t others[] = {0, 15, 16, 17, 65535, 65537, UINT32_MAX};
    uint32_t size = (uint32_t)frame->len;

    switch (below(8)) {
    case 0:
        return others[below(7)];
    case 1:
        return size - 1 + below(3);
    default:
        return TRPC_MAX_FRAME;
    }
}

/* ---- The calls ---- */

struct lent {
    uint8_t *frame;
    uint32_t *rows, *record;
};

static uint32_t answer(uint32_t kind, const struct bytes *frame, uint32_t ceiling, struct lent lent, size_t rows)
{
    memcpy(lent.frame, frame->at, frame->len);
    for (size_t i = 0; i < rows; i++)
        lent.rows[i] = 0xA5A50000u + (uint32_t)i;
    for (size_t i = 0; i < NUMBERS; i++)
        lent.record[i] = 0x5A5A0000u + (uint32_t)i;
    return read_as(kind, (struct bytes_lent){lent.frame, frame->len}, ceiling, lent.rows, rows, lent.record);
}

static void fail(const char *what, uint32_t kind, const struct bytes *frame, uint32_t code)
{
    fprintf(stderr, "sanitized_reader: %s: kind %u, answer %u, frame", what, (unsigned)kind, (unsigned)code);
    for (size_t i = 0; i < frame->len; i++)
        fprintf(stderr, " %02X", frame->at[i]);
    fprintf(stderr, "\n");
    exit(1);
}

/* What document 01 says of the row numbers and the record after a refusal. */
static int left_as_said(uint32_t code, struct lent lent, size_t rows)
{
    for (size_t i = 0; i < rows; i++) {
        uint32_t kept = 0xA5A50000u + (uint32_t)i;
        if (lent.rows[i] != (code >= 10 && code <= 15 && i < ROW_NUMBERS ? 0 : kept))
            return 0;
    }
    for (size_t i = 0; i < NUMBERS; i++)
        if (lent.record[i] != 0)
            return 0;
    return 1;
}

static int is_code(uint32_t code)
{
    return (code >= 3 && code <= 7) || (code >= 9 && code <= 16) || code == TRPC_BAD_CEILING;
}

/* One frame read as a kind, in three places. Returns the answer. */
static uint32_t check(uint32_t kind, const struct bytes *frame, uint32_t ceiling, size_t rows, struct fenced frames,
                      struct fenced all_rows, struct fenced records)
{
    struct lent exact = {malloc(frame->len), malloc(rows * 4), malloc(NUMBERS * 4)};
    struct lent others[] = {
        {frames.start, (uint32_t *)all_rows.start, (uint32_t *)records.start},
        {frames.start + frames.size - frame->len, (uint32_t *)(all_rows.start + all_rows.size - rows * 4),
         (uint32_t *)(records.start + records.size - NUMBERS * 4)},
    };
    uint32_t code = answer(kind, frame, ceiling, exact, rows);

    if (code != 0 && !is_code(code))
        fail("no such refusal", kind, frame, code);
    if ((code == TRPC_BAD_CEILING) != (ceiling < TRPC_MIN_CEILING || ceiling > TRPC_MAX_FRAME))
        fail("the ceiling", kind, frame, code);
    if (code == 0 && frame->len > ceiling)
        fail("a frame over the ceiling", kind, frame, code);
    if (code == 0 && exact.record[VERSION_AT] != frame->at[14])
        fail("the version", kind, frame, code);
    if (code != 0 && !left_as_said(code, exact, rows))
        fail("the row numbers or the record after a refusal", kind, frame, code);
    if (memcmp(exact.frame, frame->at, frame->len) != 0)
        fail("the frame was changed", kind, frame, code);
    for (int i = 0; i < 2; i++) {
        uint32_t again = answer(kind, frame, ceiling, others[i], rows);
        if (again != code || memcmp(others[i].rows, exact.rows, rows * 4) != 0 ||
            memcmp(others[i].record, exact.record, NUMBERS * 4) != 0 ||
            memcmp(others[i].frame, frame->at, frame->len) != 0)
            fail("another answer where the memory is another", kind, frame, again);
    }
    free(exact.frame);
    free(exact.rows);
    free(exact.record);
    return code;
}

int main(void)
{
    static const size_t row_lengths[] = {0, 1, 255, 257, 300};
    static struct bytes frame;
    struct fenced frames = fence(LARGEST), all_rows = fence(300 * 4), records = fence(NUMBERS * 4);
    unsigned long codes[LAST_CODE + 1] = {0};

    for (long count = 0; count < FRAMES; count++) {
        uint32_t kind = below(KINDS);
        make_frame(&frame, kind);
        if (below(20) == 0)
            kind = below(KINDS);
        size_t rows = below(8) ? ROW_NUMBERS : row_lengths[below(5)];
        codes[check(kind, &frame, any_ceiling(&frame), rows, frames, all_rows, records)]++;
    }

    printf("sanitized_reader: %d frames, nothing touched outside; answers", (int)FRAMES);
    for (unsigned code = 0; code <= LAST_CODE; code++)
        if (codes[code] > 0)
            printf(" %u:%lu", code, codes[code]);
    printf("\n");
    return 0;
}
