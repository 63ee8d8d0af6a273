/*
 * The ceiling of a connection, as a C program passes it: every function under ceilings in range and out of it, with totals
 * and buffers one to each side; 41 with every other ground at once; the smallest ceiling; total, ceiling and buffer all
 * equal; another ceiling than the last call's; a stream cut in many ways for a buffer of 4,096 bytes. What is lent ends at
 * a page that cannot be touched, or has guard bytes after it.
 */
#define _DEFAULT_SOURCE
#include <stdio.h>
#include <stdlib.h>
#include <string.h>

#include "by_kind.h"
#include "fenced.h"

enum { GUARD = 0x5A, CONTENT = 0xA5, ID = 0x01020304, LARGEST = 65538, SENSOR = 4096 };

#define COUNT(array) (sizeof(array) / sizeof *(array))

static const uint32_t ceilings[] = {0, 15, 16, 17, 4095, 4096, 65536, 65537, UINT32_MAX};

/* The sizes of frames: one to each side of each ceiling, as far as there are frames. */
static const uint32_t sizes[] = {16, 17, 18, 4094, 4095, 4096, 4097, 65535, 65536, 65537, 65538};

static unsigned long checks;

static void expect(const char *what, uint32_t kind, uint32_t ceiling, size_t size, int holds)
{
    checks++;
    if (holds)
        return;
    fprintf(stderr, "ceilings: %s: kind %u, ceiling %u, size %zu\n", what, (unsigned)kind, (unsigned)ceiling, size);
    exit(1);
}

static int in_range(uint32_t ceiling)
{
    return ceiling >= 16 && ceiling <= 65536;
}

/* The code of a header that is good but for its total. */
static uint32_t code_of(uint32_t ceiling, uint32_t total)
{
    return !in_range(ceiling) ? 41 : total < 16 || total > ceiling ? 6 : 0;
}

static int all_are(const void *at, size_t len, uint8_t byte)
{
    const uint8_t *bytes = at;

    return len == 0 || (bytes[0] == byte && memcmp(bytes, bytes + 1, len - 1) == 0);
}

/* Room for a frame, and for a buffer or an output. What is lent ends with the room, at a page that cannot be touched. */
static struct fenced frame_room, buffer_room;

static uint8_t *at_end(struct fenced room, size_t len)
{
    return room.start + room.size - len;
}

/* So many bytes at the end of the room; all of the room is guard bytes. */
static uint8_t *guarded(size_t len)
{
    memset(buffer_room.start, GUARD, buffer_room.size);
    return at_end(buffer_room, len);
}

/* Whether all of the room, but for so many bytes at a place, still is guard bytes. */
static int guarded_but(const uint8_t *at, size_t len)
{
    size_t before = (size_t)(at - buffer_room.start);

    return all_are(buffer_room.start, before, GUARD) && all_are(at + len, buffer_room.size - before - len, GUARD);
}

/* ---- The fixed header ---- */

/* The code of the two functions, and what they leave. */
static void check_header(const uint8_t *bytes, size_t len, uint32_t kind, uint32_t ceiling, uint32_t total, uint32_t want)
{
    static const uint32_t types[KINDS] = {0, 0, 1, 2, 3, 4};
    uint32_t type = 9, id = 9;
    uint8_t version = 9;
    size_t said = 9, header_size = 9;

    expect("trpc_header_check", kind, ceiling, total, trpc_header_check(bytes, len, ceiling) == want);
    expect("trpc_header_parse", kind, ceiling, total,
           trpc_header_parse(bytes, len, ceiling, &type, &said, &header_size, &id, &version) == want);
    expect("what a header says", kind, ceiling, total,
           want == 0 ? type == types[kind] && said == total && id == ID : type == 0 && said == 0 && id == 0);
    expect("a size and a version of 0", kind, ceiling, total, header_size == 0 && version == 0);
}

static void headers(uint32_t ceiling)
{
    static const uint32_t others[] = {0, 1, 15, UINT32_MAX - 1, UINT32_MAX};
    static const uint8_t damaged[17] = {0x30, 0x09, 2, 9, 0, 0, 0, 0, 1, 1};
    uint8_t header[TRPC_HEADER_SIZE];

    for (uint32_t kind = 0; kind < KINDS; kind++) {
        for (size_t i = 0; i < COUNT(sizes) + COUNT(others); i++) {
            uint32_t total = i < COUNT(sizes) ? sizes[i] : others[i - COUNT(sizes)];

            put_header(header, kind, total, 0, ID);
            check_header(header, sizeof header, kind, ceiling, total, code_of(ceiling, total));
        }
    }
    /* with every other ground: a length that is not 16, and every rule broken */
    for (size_t len = 0; len <= sizeof damaged; len++)
        check_header(damaged, len, 0, ceiling, 0, !in_range(ceiling) ? 41 : len != 16 ? 9 : 3);
    check_header(NULL, 0, 0, ceiling, 0, in_range(ceiling) ? 9 : 41);
}

/* ---- The deframer and the end ---- */

static uint8_t frame[LARGEST], kept[LARGEST];

/* A Data frame of so many bytes. */
static void make_data(uint32_t total)
{
    memset(frame, CONTENT, sizeof frame);
    put_header(frame, 3, total, 0, ID);
}

struct state {
    size_t held;
    uint32_t error;
};

/* What is lent to a call, but for the state. */
struct lent {
    uint8_t *buffer;
    size_t buffer_len;
    uint32_t ceiling;
};

/* A call of the deframer, and then of the end: the code of both, what the first takes and hands out, the state after it. */
static void deframe(struct lent lent, struct state *state, struct bytes_lent piece, uint32_t want, size_t frame_size,
                    size_t want_taken, struct state after)
{
    size_t taken = 9, size = 9, short_by = 9;
    uint32_t code = trpc_deframe(&state->held, &state->error, lent.buffer, lent.buffer_len, lent.ceiling, piece.at, piece.len,
                                 &taken, &size);

    expect("trpc_deframe", 3, lent.ceiling, lent.buffer_len, code == want);
    expect("what is taken", 3, lent.ceiling, lent.buffer_len, taken == want_taken && size == frame_size);
    expect("the state", 3, lent.ceiling, lent.buffer_len, state->held == after.held && state->error == after.error);
    code = trpc_finish(state->held, state->error, lent.buffer, lent.buffer_len, lent.ceiling, &short_by);
    expect("trpc_finish", 3, lent.ceiling, lent.buffer_len, code == want);
    expect("what it is short", 3, lent.ceiling, lent.buffer_len, short_by == (code == 0 ? after.held : 0));
}

/* A call that is refused with 41, 1 or 2, or again with a header's code: all is as it was. */
static void refused(struct lent lent, struct state state, struct bytes_lent piece, uint32_t want)
{
    struct state given = state;

    memcpy(kept, lent.buffer, lent.buffer_len);
    deframe(lent, &state, piece, want, 0, 0, given);
    expect("the buffer", 3, lent.ceiling, lent.buffer_len, memcmp(lent.buffer, kept, lent.buffer_len) == 0);
}

/* A frame that arrives in two pieces, under a ceiling and in a buffer that is long enough. */
static void arrives(uint32_t ceiling, size_t buffer_len, uint32_t total, size_t cut)
{
    struct lent lent = {guarded(buffer_len), buffer_len, ceiling};
    struct state state = {0, 0};
    int whole = total <= ceiling;
    size_t end = whole ? total : TRPC_HEADER_SIZE;

    make_data(total);
    deframe(lent, &state, (struct bytes_lent){frame, cut}, 0, 0, cut, (struct state){cut, 0});
    expect("a part of a frame", 3, ceiling, total, memcmp(lent.buffer, frame, cut) == 0 && guarded_but(lent.buffer, cut));
    deframe(lent, &state, (struct bytes_lent){frame + cut, total - cut}, whole ? 0 : 6, whole ? total : 0, end - cut,
            whole ? (struct state){0, 0} : (struct state){TRPC_HEADER_SIZE, 6});
    expect("a frame", 3, ceiling, total, memcmp(lent.buffer, frame, end) == 0 && guarded_but(lent.buffer, end));
    if (!whole)
        refused(lent, state, (struct bytes_lent){frame, total}, 6);
}

/* Totals one to each side of the ceiling, in a buffer as long as it is and in one that is a byte longer. */
static void sides(uint32_t ceiling)
{
    static const size_t cuts[] = {0, 1, 15};

    for (size_t buffer_len = ceiling; buffer_len <= ceiling + 1; buffer_len++)
        for (uint32_t total = ceiling > 16 ? ceiling - 1 : 16; total <= ceiling + 1; total++) {
            for (size_t i = 0; i < COUNT(cuts); i++)
                arrives(ceiling, buffer_len, total, cuts[i]);
            if (total <= ceiling && total > TRPC_HEADER_SIZE)
                arrives(ceiling, buffer_len, total, total - 1);
        }
}

/* States, known and not, the largest numbers among them. */
static const struct state states[] = {{0, 0},  {15, 0}, {16, 0}, {20, 0}, {24, 0},       {16, 3},
                                      {16, 6}, {16, 8}, {15, 3}, {0, 41}, {SIZE_MAX, 0}, {SIZE_MAX, UINT32_MAX}};

/* Every state, with the start of a good frame in the buffer or of a bad one, and a piece that has one or is empty. */
static void every_state(struct lent lent, uint32_t want)
{
    make_data(24);
    for (int bad = 0; bad < 2; bad++) {
        memcpy(lent.buffer, frame, lent.buffer_len < TRPC_HEADER_SIZE ? lent.buffer_len : TRPC_HEADER_SIZE);
        for (size_t i = 0; i < COUNT(states); i++) {
            refused(lent, states[i], (struct bytes_lent){frame, 24}, want);
            refused(lent, states[i], (struct bytes_lent){NULL, 0}, want);
        }
        frame[0] = 0x90;
    }
}

/* 41 before 1, 2 and the codes of a header, and 1 before 2. */
static void deframer_grounds(uint32_t ceiling)
{
    static const size_t lengths[] = {0, 15, 16, 4096, 65535, 65536, 65537};

    for (size_t i = 0; i < COUNT(lengths); i++)
        if (!in_range(ceiling) || lengths[i] < ceiling)
            every_state((struct lent){guarded(lengths[i]), lengths[i], ceiling}, in_range(ceiling) ? 1 : 41);
    if (in_range(ceiling))
        every_state((struct lent){guarded(ceiling - 1), ceiling - 1, ceiling}, 1);
    struct state fresh = {0, 0};
    deframe((struct lent){NULL, 0, ceiling}, &fresh, (struct bytes_lent){NULL, 0}, in_range(ceiling) ? 1 : 41, 0, 0, fresh);
}

static void deframing(uint32_t ceiling)
{
    deframer_grounds(ceiling);
    if (in_range(ceiling))
        sides(ceiling);
}

/* ---- Another ceiling than the last call's ---- */

/* Holds so many bytes of a Data frame, in a buffer for every ceiling. */
static struct lent hold(struct state *state, uint32_t ceiling, uint32_t total, size_t held, uint32_t want)
{
    struct lent lent = {guarded(TRPC_MAX_FRAME), TRPC_MAX_FRAME, ceiling};

    make_data(total);
    *state = (struct state){0, 0};
    deframe(lent, state, (struct bytes_lent){frame, held}, want, 0, held, (struct state){held, want});
    return lent;
}

static void switched(void)
{
    struct bytes_lent rest = {frame + 100, 4900}, none = {NULL, 0};
    struct state state;
    struct lent lent = hold(&state, TRPC_MAX_FRAME, 5000, 100, 0);

    /* inside a frame that is over the other ceiling; under the first one it goes on */
    lent.ceiling = SENSOR;
    refused(lent, state, rest, TRPC_DEFRAME_STATE);
    lent.ceiling = 4999;
    refused(lent, state, none, TRPC_DEFRAME_STATE);
    lent.ceiling = 5000;
    deframe(lent, &state, none, 0, 0, 0, state);
    lent.ceiling = TRPC_MAX_FRAME;
    deframe(lent, &state, rest, 0, 5000, 4900, (struct state){0, 0});

    /* after a refused total that is not over the other ceiling */
    lent = hold(&state, SENSOR, 5000, TRPC_HEADER_SIZE, TRPC_HEADER_TOTAL);
    lent.ceiling = TRPC_MAX_FRAME;
    refused(lent, state, rest, TRPC_DEFRAME_STATE);
    lent.ceiling = 5000;
    refused(lent, state, none, TRPC_DEFRAME_STATE);
    lent.ceiling = 4999;
    refused(lent, state, none, TRPC_HEADER_TOTAL);

    /* with under 16 bytes held, and inside a frame that is over neither ceiling, the state is known */
    lent = hold(&state, TRPC_MAX_FRAME, 5000, 15, 0);
    lent.ceiling = SENSOR;
    deframe(lent, &state, (struct bytes_lent){frame + 15, 4985}, TRPC_HEADER_TOTAL, 0, 1, (struct state){16, 6});
    lent = hold(&state, TRPC_MAX_FRAME, 200, 100, 0);
    lent.ceiling = SENSOR;
    deframe(lent, &state, (struct bytes_lent){frame + 100, 100}, 0, 200, 100, (struct state){0, 0});
}

/* ---- The readers ---- */

static int has_body(uint32_t kind)
{
    return kind == 0 || kind == 1 || kind == 3;
}

/* A frame of so many bytes: a body, or a message of fields that are skipped. A message of one byte is cut off. */
static void make_frame(uint32_t kind, uint32_t total)
{
    memset(frame, CONTENT, sizeof frame);
    put_header(frame, kind, total, 0, ID);
    if (has_body(kind))
        return;
    uint32_t at = TRPC_HEADER_SIZE;
    if ((total - at) % 2 == 1) {
        memcpy(frame + at, (const uint8_t[]){0x78, 0x80, 0}, 3); /* field 15 is 0, in a varint of two bytes */
        at += 3;
    }
    for (; at < total; at += 2)
        memcpy(frame + at, (const uint8_t[]){0x78, 0}, 2);
}

static uint32_t rows[ROW_NUMBERS], record[NUMBERS];

/* A reading of the frame's first bytes, as many as are said, and what it leaves. */
static void check_read(uint32_t kind, uint32_t ceiling, struct bytes_lent lent, size_t rows_len, uint32_t want)
{
    memset(rows, GUARD, sizeof rows);
    memset(record, GUARD, sizeof record);
    uint32_t code = read_as(kind, lent, ceiling, rows_len == 0 ? NULL : rows, rows_len, record);
    int cleared = want == 0 || (want >= 10 && want <= 15);

    expect("a reader", kind, ceiling, lent.len, code == want);
    expect("its rows", kind, ceiling, lent.len, all_are(rows, sizeof rows, cleared ? 0 : GUARD));
    if (want != 0)
        expect("its record", kind, ceiling, lent.len, all_are(record, sizeof record, 0));
    else
        expect("the id and the parts", kind, ceiling, lent.len,
               record[0] == ID && record[3] + record[5] == lent.len - TRPC_HEADER_SIZE);
}

/* So many bytes of the frame, with their end at a page that cannot be touched. */
static struct bytes_lent lent_frame(size_t len)
{
    return (struct bytes_lent){memcpy(at_end(frame_room, len), frame, len), len};
}

static void reading(uint32_t kind, uint32_t ceiling)
{
    for (size_t i = 0; i < COUNT(sizes); i++) {
        uint32_t code = code_of(ceiling, sizes[i]), cut_off = sizes[i] == 17 && !has_body(kind) ? TRPC_READ_VARINT : 0;

        make_frame(kind, sizes[i]);
        check_read(kind, ceiling, lent_frame(sizes[i]), ROW_NUMBERS, code != 0 ? code : cut_off);
    }
    if (!in_range(ceiling))
        return;
    /* another length than the total: 6 where the total is over the ceiling, whatever the length is, else 9 */
    for (uint32_t total = ceiling; total <= ceiling + 1; total++)
        for (size_t len = ceiling - 1; len <= ceiling + 1; len++) {
            make_frame(kind, total);
            if (len != total)
                check_read(kind, ceiling, lent_frame(len), ROW_NUMBERS, len < 16 ? 9 : total > ceiling ? 6 : 9);
        }
}

/* What can be wrong with a frame that is read, as a set: its header in the order of the codes, its kind, its message. */
enum { MAGIC = 1, DATA_TYPE = 2, STREAM_TYPE = 4, TOTAL = 8, HEADER_SIZE = 16, OTHER_KIND = 32, TAG = 64, DAMAGES = 128 };

/* A frame of 18 bytes with every damage of a set. Its two bytes after the header are the message, where it has one. */
static void make_damaged(uint32_t kind, int set)
{
    put_header(frame, kind, 18, 2, ID);
    if (set & MAGIC)
        frame[0] = 0x90;
    if (set & DATA_TYPE)
        frame[2] = 2;
    if (set & STREAM_TYPE)
        frame[3] = 5;
    if (set & TOTAL)
        frame[5] = 1; /* 65,554 */
    if (set & HEADER_SIZE)
        frame[9] = 3;
    memcpy(frame + TRPC_HEADER_SIZE, set & TAG ? (const uint8_t[]){0x07, 0} : (const uint8_t[]){0x78, 0}, 2);
}

/* The code of so many bytes of that frame, which is made as one kind and read as another or the same. */
static uint32_t damaged_code(uint32_t made, uint32_t kind, int set, size_t len)
{
    if (len < TRPC_HEADER_SIZE)
        return 9;
    if (set & (MAGIC | DATA_TYPE))
        return set & MAGIC ? 3 : 4;
    if (set & STREAM_TYPE && made > 1)
        return 5;
    if (set & (TOTAL | HEADER_SIZE))
        return set & TOTAL ? 6 : 7;
    return len != 18 || made != kind ? 9 : set & TAG && kind != 3 ? 11 : 0;
}

/* A frame whose message has the ground of a code from 10 to 15. Returns its size, or 0 where the kind cannot have it. */
static uint32_t make_refused(uint32_t kind, uint32_t code)
{
    static const uint8_t entries[KINDS] = {0x4A, 0x42, 0x2A, 0, 0, 0x2A}; /* the tags of the map */
    uint32_t at = TRPC_HEADER_SIZE;

    if (kind == 3 || (code == 14 && entries[kind] == 0) || (code == 15 && kind > 1))
        return 0;
    switch (code) {
    case 10:
        frame[at++] = 0x80; /* a tag that is cut off */
        break;
    case 11:
        frame[at++] = 0x07; /* no field, of no type */
        break;
    case 12:
        memcpy(frame + at, (const uint8_t[]){0x7A, 2, 0}, 3); /* two bytes in field 15, and only one comes */
        at += 3;
        break;
    case 13:
        memset(frame + at, 0x7B, 33); /* groups, one inside the other */
        at += 33;
        break;
    case 14:
        if (kind == 2) {
            memcpy(frame + at, (const uint8_t[]){0x0A, 0x82, 1}, 3); /* request_meta, of 130 bytes */
            at += 3;
        }
        for (int i = 0; i < 65; i++, at += 2)
            memcpy(frame + at, (const uint8_t[]){entries[kind], 0}, 2);
        break;
    default:
        memcpy(frame + at, (const uint8_t[]){0x60, 1}, 2); /* attachment_size, and there is no body */
        at += 2;
    }
    put_header(frame, kind, at, at - TRPC_HEADER_SIZE, ID);
    return at;
}

/*
 * A frame with every damage of a set, as so many bytes of it, with so many row numbers: under the largest ceiling the
 * first ground counts, and 41 comes before all. So it does before each code of a message.
 */
static void reader_grounds(uint32_t kind, uint32_t ceiling)
{
    static const size_t row_lengths[] = {0, 1, ROW_NUMBERS - 1, ROW_NUMBERS};
    static const size_t lengths[] = {0, 15, 16, 17, 18, 19};

    for (size_t j = 0; j < COUNT(row_lengths); j++) {
        size_t rows_len = row_lengths[j];
        uint32_t before = !in_range(ceiling) ? 41 : rows_len < ROW_NUMBERS ? 16 : 0; /* the code before those of a frame */

        for (int set = 0; set < DAMAGES; set++)
            for (size_t i = 0; i < COUNT(lengths); i++) {
                uint32_t made = set & OTHER_KIND ? (kind + 2) % KINDS : kind;

                make_damaged(made, set);
                check_read(kind, ceiling, lent_frame(lengths[i]), rows_len,
                           before != 0 ? before : damaged_code(made, kind, set, lengths[i]));
            }
        for (uint32_t code = 10; code <= 15; code++) {
            uint32_t size = make_refused(kind, code);

            if (size != 0)
                check_read(kind, ceiling, lent_frame(size), rows_len, before != 0 ? before : code);
        }
    }
    check_read(kind, ceiling, (struct bytes_lent){NULL, 0}, 0, in_range(ceiling) ? 16 : 41);
}

/* ---- The writers ---- */

static uint8_t content[LARGEST];

/* Where the first byte field of a kind is in its record; 0 where it has none. */
static const size_t field_at[KINDS] = {12, 13, 9, 0, 0, 10};

static uint32_t varint_len(uint32_t value)
{
    return value < 1u << 7 ? 1 : value < 1u << 14 ? 2 : 3; /* no number here has four */
}

/* The bytes of a field with so many bytes of content. */
static uint32_t field_len(uint32_t len)
{
    return 1 + varint_len(len) + len;
}

/*
 * The size of the frame of a record with an amount: the length of its body, Feedback's number, or the length of its byte
 * field, which in Init is in a part that is present.
 */
static uint32_t frame_len(uint32_t kind, uint32_t amount)
{
    uint32_t field = amount == 0 ? 0 : field_len(amount), number = amount == 0 ? 0 : 1 + varint_len(amount);
    const uint32_t after_header[KINDS] = {amount, amount, field_len(field), amount, number, field};

    return TRPC_HEADER_SIZE + after_header[kind];
}

/* Makes the record with the amount, and what is lent beside it. */
static struct written_from make_record(uint32_t kind, uint32_t ceiling, uint32_t amount)
{
    struct written_from from = {{content, sizeof content}, {NULL, 0}, {NULL, 0}, NULL, 0, ceiling};

    memset(record, 0, sizeof record);
    record[0] = ID;
    if (has_body(kind))
        from.body = (struct bytes_lent){content, amount};
    else if (kind == 4)
        record[8] = amount;
    else
        record[field_at[kind] + 1] = amount;
    if (kind == 2)
        record[8] = 1; /* request_meta is present */
    return from;
}

/* A writing to an output of so many bytes, and what it leaves. */
static void check_write(uint32_t kind, struct written_from from, size_t out_len, uint32_t want, size_t want_size)
{
    size_t size = 9;

    from.out = out_len == 0 ? NULL : guarded(out_len);
    from.out_len = out_len;
    expect("a writer", kind, from.ceiling, want_size, write_as(kind, record, from, &size) == want);
    expect("its size", kind, from.ceiling, want_size, size == (want == 0 ? want_size : 0));
    if (out_len == 0)
        return;
    expect("the bytes around its frame", kind, from.ceiling, want_size, guarded_but(from.out, size));
    if (want != 0)
        return;
    uint8_t header[TRPC_HEADER_SIZE];
    put_header(header, kind, (uint32_t)size, 0, ID);
    expect("its header", kind, from.ceiling, want_size, memcmp(from.out, header, sizeof header) == 0);
    expect("its body", kind, from.ceiling, want_size,
           !has_body(kind) || all_are(from.out + TRPC_HEADER_SIZE, size - TRPC_HEADER_SIZE, CONTENT));
    memset(rows, GUARD, sizeof rows);
    expect("its frame, read", kind, from.ceiling, want_size,
           read_as(kind, (struct bytes_lent){from.out, size}, from.ceiling, rows, ROW_NUMBERS, record) == 0);
}

/* A record under a ceiling: outputs that hold its frame, and some that do not. */
static void write_amount(uint32_t kind, uint32_t ceiling, uint32_t amount)
{
    uint32_t size = frame_len(kind, amount), total_code = code_of(ceiling, size);
    uint32_t code = total_code == 6 ? 19 : total_code;
    const size_t outs[] = {0, size - 1, size, size + 1, LARGEST};

    for (size_t i = 0; i < COUNT(outs); i++)
        check_write(kind, make_record(kind, ceiling, amount), outs[i], code != 0 ? code : outs[i] < size ? 27 : 0, size);
}

/*
 * Frames of all the sizes above, and of others, under every ceiling, and each under those that it is just under, at and
 * just over. Without a body the first sizes are not all there, and Feedback has none over 20.
 */
static void writing(uint32_t kind)
{
    static const uint32_t borders[] = {3, 131, 4083, 65522};
    uint8_t tried[LARGEST + 1] = {0};

    for (size_t i = 0; i < COUNT(borders); i++)
        for (uint32_t less = 0; less <= 11 && less <= borders[i]; less++) {
            uint32_t amount = borders[i] - less, size = frame_len(kind, amount);

            if (size < sizeof tried)
                tried[size] = 1;
            for (size_t j = 0; j < COUNT(ceilings); j++)
                write_amount(kind, ceilings[j], amount);
            for (uint32_t ceiling = size - 1; ceiling <= size + 1; ceiling++)
                write_amount(kind, ceiling, amount);
        }
    for (size_t i = 0; i < COUNT(sizes); i++)
        expect("a frame of each size", kind, 0, sizes[i],
               tried[sizes[i]] || (!has_body(kind) && sizes[i] <= 18) || (kind == 4 && sizes[i] > 20));
}

/* The grounds of a writer, in their order, as a set. */
enum { ROWS = 1, SOURCE = 2, KEYS = 4, PART = 8, BODY = 16, FRAME = 32, OUTPUT = 64, GROUNDS = 128 };

/*
 * The grounds of the set that the kind can have. Those with a byte field can have rows, and two keys that are equal; Init
 * can have a part that is absent and not empty.
 */
static int grounds_of(uint32_t kind, int set)
{
    int none = kind == 2 ? 0 : PART;

    if (field_at[kind] == 0)
        none |= SOURCE | KEYS;
    return set & ~(none | (kind == 3 ? BODY : 0) | (kind == 4 ? FRAME : 0));
}

/* The code of the first ground; 0 for none. */
static uint32_t first_code(int set)
{
    if (set & (ROWS | SOURCE))
        return set & ROWS ? 18 : 17;
    return set & (KEYS | PART) ? 18 : set & BODY ? 15 : set & FRAME ? 19 : set & OUTPUT ? 27 : 0;
}

/* A record with every ground of a set: under the largest ceiling the first of them counts, and 41 comes before all. */
static void writer_grounds(uint32_t kind, uint32_t ceiling)
{
    static const uint32_t empty_rows[8];

    for (int all = 0; all < GROUNDS; all++) {
        int set = grounds_of(kind, all);
        struct written_from from = make_record(kind, ceiling, kind == 3 && set & FRAME ? 65521 : 0);
        size_t size = frame_len(kind, 0);

        if (set & KEYS) {
            record[1] = 2;
            from.rows = (struct rows_lent){empty_rows, COUNT(empty_rows)};
        }
        if (set & ROWS)
            record[1] = 65;
        if (set & PART)
            record[17] = 1; /* ret, and response_meta is absent */
        if (!(set & FRAME))
            from.source = (struct bytes_lent){NULL, 0};
        if (field_at[kind] != 0) {
            record[field_at[kind]] = set & SOURCE ? LARGEST : 0; /* with no bytes after it this is past the end, too */
            record[field_at[kind] + 1] = set & FRAME ? 65536 : 0;
        }
        if (set & BODY && has_body(kind))
            record[kind == 0 ? 21 : 18] = 1; /* attachment_size */
        else if (set & BODY)
            from.body = (struct bytes_lent){content, 1};
        check_write(kind, from, set & OUTPUT ? 0 : 64, in_range(ceiling) ? first_code(set) : 41, size);
    }
}

/* ---- The smallest ceiling ---- */

/* The empty frame of a kind is written and read, and nothing longer is. */
static void smallest(uint32_t kind)
{
    uint8_t header[TRPC_HEADER_SIZE];
    struct written_from from = make_record(kind, TRPC_MIN_CEILING, 0);

    if (kind == 2)
        record[8] = 0;
    check_write(kind, from, TRPC_HEADER_SIZE, 0, TRPC_HEADER_SIZE);
    put_header(header, kind, TRPC_HEADER_SIZE, 0, ID);
    expect("an empty frame", kind, TRPC_MIN_CEILING, 16, memcmp(at_end(buffer_room, 16), header, sizeof header) == 0);
    for (uint32_t amount = 1; amount < 3; amount++)
        check_write(kind, make_record(kind, TRPC_MIN_CEILING, amount), LARGEST, 19, 0);
}

/* Empty frames of every kind in pieces of a size, and then a header that says 17, in a buffer of 16 bytes. */
static void empty_frames(size_t piece)
{
    uint8_t bytes[(KINDS + 1) * TRPC_HEADER_SIZE];
    struct lent lent = {guarded(16), 16, TRPC_MIN_CEILING};
    size_t held = 0, taken = 0, size = 0, frames = 0;
    uint32_t error = 0, code = 0;

    for (uint32_t i = 0; i <= KINDS; i++)
        put_header(bytes + 16 * i, i % KINDS, i < KINDS ? 16 : 17, 0, ID);
    for (size_t at = 0; at < sizeof bytes && code == 0; at += taken) {
        size_t left = sizeof bytes - at;

        code = trpc_deframe(&held, &error, lent.buffer, lent.buffer_len, lent.ceiling, bytes + at,
                            piece < left ? piece : left, &taken, &size);
        if (size != 0)
            check_read((uint32_t)frames++, TRPC_MIN_CEILING, (struct bytes_lent){lent.buffer, size}, ROW_NUMBERS, 0);
    }
    expect("empty frames", 0, TRPC_MIN_CEILING, piece, frames == KINDS && code == 6 && held == 16 && error == 6);
    expect("the bytes before the buffer", 0, TRPC_MIN_CEILING, piece, guarded_but(lent.buffer, 16));
}

/* ---- A stream, and a buffer with guard bytes after it ---- */

/* The frames have 16, 4,096 and 17 bytes. Then come the header of one with 4,097, and bytes that are never taken. */
enum { FIRST = 16, SECOND = FIRST + SENSOR, THIRD = SECOND + 17, REFUSED = THIRD + 16, STREAM = REFUSED + 8 };

static const size_t frame_ends[] = {FIRST, SECOND, THIRD};
static uint8_t stream[STREAM];

struct line {
    uint8_t buffer[SENSOR], guard[64];
    size_t lent; /* how many bytes are lent; the guard bytes may be among them */
    struct state state;
    size_t at, frames; /* of the stream, so far */
};

static void make_stream(void)
{
    memset(stream, CONTENT, sizeof stream);
    put_header(stream, 0, FIRST, 0, 1);
    put_header(stream + FIRST, 3, SENSOR, 0, 2);
    put_header(stream + SECOND, 1, THIRD - SECOND, 1, 3);
    put_header(stream + THIRD, 3, SENSOR + 1, 0, 4);
}

/* Offers the bytes of the stream up to a place, until they are used up. */
static void offer(struct line *line, size_t to)
{
    size_t taken, size;
    uint32_t code;

    do {
        code = trpc_deframe(&line->state.held, &line->state.error, line->buffer, line->lent, SENSOR, stream + line->at,
                            to - line->at, &taken, &size);
        line->at += taken;
        if (size != 0) {
            expect("a frame's end", 3, SENSOR, size, line->frames < 3 && line->at == frame_ends[line->frames]);
            expect("its bytes", 3, SENSOR, size, memcmp(line->buffer, stream + line->at - size, size) == 0);
            line->frames++;
        }
    } while (size != 0);
    expect("a piece", 3, SENSOR, to, line->at == (to < REFUSED ? to : REFUSED));
    expect("its code", 3, SENSOR, to, code == (to < REFUSED ? 0 : 6));
}

static void start(struct line *line, int lend_guard)
{
    memset(line->guard, GUARD, sizeof line->guard);
    line->lent = lend_guard ? sizeof line->buffer + sizeof line->guard : sizeof line->buffer;
    line->state = (struct state){0, 0};
    line->at = line->frames = 0;
}

/* After the whole stream. */
static void ended(struct line *line)
{
    struct state state = line->state;
    size_t short_by = 9;
    uint32_t end = trpc_finish(state.held, state.error, line->buffer, line->lent, SENSOR, &short_by);

    expect("all frames", 3, SENSOR, line->lent, line->frames == 3);
    expect("the refused header", 3, SENSOR, line->lent, state.held == 16 && state.error == 6);
    expect("the end", 3, SENSOR, line->lent, end == 6 && short_by == 0);
    expect("the guard bytes", 3, SENSOR, line->lent, all_are(line->guard, sizeof line->guard, GUARD));
}

/* Pieces of every size, and then every set of cuts around the ends of headers and frames. */
static void streams(int lend_guard)
{
    static const size_t places[] = {
        1,           FIRST - 1,   FIRST,       FIRST + 1, FIRST + 15, FIRST + 16,  FIRST + 17, SECOND - 1,  SECOND,
        SECOND + 1,  SECOND + 15, SECOND + 16, THIRD,     THIRD + 1,  REFUSED - 1, REFUSED,    REFUSED + 1,
    };
    static struct line line;

    for (size_t piece = 1; piece <= STREAM; piece++) {
        start(&line, lend_guard);
        for (size_t to = piece; to < STREAM; to += piece)
            offer(&line, to);
        offer(&line, STREAM);
        ended(&line);
    }
    for (uint32_t set = 0; set < 1u << COUNT(places); set++) {
        start(&line, lend_guard);
        for (size_t i = 0; i < COUNT(places); i++)
            if (set >> i & 1)
                offer(&line, places[i]);
        offer(&line, STREAM);
        ended(&line);
    }
}

int main(void)
{
    frame_room = fence(LARGEST);
    buffer_room = fence(LARGEST);
    memset(content, CONTENT, sizeof content);
    for (size_t i = 0; i < COUNT(ceilings); i++) {
        headers(ceilings[i]);
        deframing(ceilings[i]);
        for (uint32_t kind = 0; kind < KINDS; kind++) {
            reading(kind, ceilings[i]);
            if (!in_range(ceilings[i]) || ceilings[i] == TRPC_MAX_FRAME) {
                reader_grounds(kind, ceilings[i]);
                writer_grounds(kind, ceilings[i]);
            }
        }
    }
    switched();
    for (uint32_t kind = 0; kind < KINDS; kind++) {
        writing(kind);
        smallest(kind);
    }
    for (size_t piece = 1; piece <= (KINDS + 1) * TRPC_HEADER_SIZE; piece++)
        empty_frames(piece);
    make_stream();
    streams(0);
    streams(1);
    printf("ceilings: %lu checks passed\n", checks);
    return 0;
}
