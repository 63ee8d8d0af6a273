/*
 * The protocol version, byte 15 of a fixed header, and the reserved byte 16, as a C program meets them: every version of
 * every kind written and read; refused records; states of the deframer that bytes 15 and 16 once decided; a stream whose
 * frames have different versions, cut at every two places.
 */
#include <stdio.h>
#include <stdlib.h>
#include <string.h>

#include "by_kind.h"

enum { GUARD = 0x5A, ID = 0x01020304, MESSAGE_VERSION_AT = 8, MESSAGE_VERSION = 77, FRAMES = 2 * KINDS };

static const uint8_t reserved[] = {0, 1, 0x80, 0xFF}; /* values of byte 16 */

static unsigned long checks;

static void expect(const char *what, uint32_t kind, unsigned version, int holds)
{
    checks++;
    if (holds)
        return;
    fprintf(stderr, "versions: %s: kind %u, version %u\n", what, (unsigned)kind, version);
    exit(1);
}

/* ---- Written and read ---- */

struct frame {
    uint8_t at[64];
    size_t len;
};

static void write_record(struct frame *frame, uint32_t kind, const uint32_t *record, struct bytes_lent source,
                         struct bytes_lent body)
{
    struct written_from lent = {source, {NULL, 0}, body, frame->at, sizeof frame->at, TRPC_MAX_FRAME};

    memset(frame, GUARD, sizeof *frame);
    expect("written", kind, record[VERSION_AT], write_as(kind, record, lent, &frame->len) == TRPC_WRITE_DONE);
}

/* The frame of a record with a version. The `version` in the message of a request or a response is another. */
static void write_version(struct frame *frame, uint32_t kind, unsigned version)
{
    static const uint8_t body[3] = {1, 2, 3};
    uint32_t record[NUMBERS] = {ID};
    size_t body_len = kind == 0 || kind == 1 || kind == 3 ? sizeof body : 0;

    if (kind < 2)
        record[MESSAGE_VERSION_AT] = MESSAGE_VERSION;
    record[VERSION_AT] = 0xA5A5A500 | version; /* a writer does not look at the unused bytes */
    write_record(frame, kind, record, (struct bytes_lent){NULL, 0}, (struct bytes_lent){body, body_len});
}

static uint32_t read_frame(const uint8_t *frame, size_t len, uint32_t kind, uint32_t *record)
{
    static uint32_t rows[ROW_NUMBERS];

    memset(record, GUARD, NUMBERS * sizeof *record);
    return read_as(kind, (struct bytes_lent){frame, len}, TRPC_MAX_FRAME, rows, ROW_NUMBERS, record);
}

/* What a frame says that has these bytes 15 and 16: the record given, with this version. Written again, byte 16 is 0. */
static void check_frame(struct frame frame, uint32_t kind, unsigned version, uint8_t byte_16, const uint32_t *said)
{
    static const uint32_t zeros[NUMBERS];
    struct frame again;
    uint32_t record[NUMBERS];

    frame.at[15] = byte_16;
    expect("read", kind, version, read_frame(frame.at, frame.len, kind, record) == TRPC_READ_DONE);
    expect("the version", kind, version, record[VERSION_AT] == version);
    expect("the record", kind, version, memcmp(record, said, VERSION_AT * sizeof *record) == 0);

    write_record(&again, kind, record, (struct bytes_lent){frame.at, frame.len},
                 (struct bytes_lent){frame.at + record[4], record[5]});
    expect("byte 16, written again", kind, version, again.at[15] == 0);
    frame.at[15] = 0;
    expect("written again", kind, version, memcmp(&again, &frame, sizeof frame) == 0);

    frame.at[15] = byte_16;
    expect("a refusal", kind, version, read_frame(frame.at, frame.len - 1, kind, record) == TRPC_READ_KIND);
    expect("a refused record", kind, version, memcmp(record, zeros, sizeof zeros) == 0);
}

static void written_and_read(uint32_t kind)
{
    struct frame first, frame;
    uint32_t said[NUMBERS];

    write_version(&first, kind, 0);
    expect("byte 16", kind, 0, first.at[15] == 0);
    expect("read", kind, 0, read_frame(first.at, first.len, kind, said) == TRPC_READ_DONE);
    expect("the message's version", kind, 0, kind > 1 || said[MESSAGE_VERSION_AT] == MESSAGE_VERSION);
    for (unsigned version = 0; version < 256; version++) {
        write_version(&frame, kind, version);
        expect("byte 15", kind, version, frame.at[14] == version);
        first.at[14] = (uint8_t)version;
        expect("all other bytes", kind, version, memcmp(&frame, &first, sizeof frame) == 0);
        for (size_t i = 0; i < sizeof reserved; i++)
            check_frame(frame, kind, version, reserved[i], said);
    }
}

/* The members of a struct, by their names. */
static void members(void)
{
    struct trpc_close read, close = {.id = 5, .ret = -1, .header_version = 200, .unused = {1, 2, 3}};
    uint32_t rows[ROW_NUMBERS];
    uint8_t out[64];
    size_t size;

    memset(&read, GUARD, sizeof read);
    expect("a close", 5, 200,
           trpc_write_close(&close, NULL, 0, NULL, 0, NULL, 0, out, sizeof out, TRPC_MAX_FRAME, &size) == TRPC_WRITE_DONE);
    expect("its bytes 15 and 16", 5, 200, out[14] == 200 && out[15] == 0);
    expect("a close, read", 5, 200,
           trpc_read_close(out, size, TRPC_MAX_FRAME, rows, ROW_NUMBERS, &read) == TRPC_READ_DONE);
    expect("its version", 5, 200, read.header_version == 200 && read.id == 5 && read.ret == -1);
    expect("its unused bytes", 5, 200, read.unused[0] == 0 && read.unused[1] == 0 && read.unused[2] == 0);
}

/* ---- States of the deframer ---- */

static uint8_t buffer[TRPC_MAX_FRAME], kept[TRPC_MAX_FRAME];

static uint32_t deframe(size_t *held, uint32_t *error, const uint8_t *piece, size_t len, size_t *taken, size_t *size)
{
    return trpc_deframe(held, error, buffer, sizeof buffer, TRPC_MAX_FRAME, piece, len, taken, size);
}

static uint32_t finish(size_t held, uint32_t error, size_t *short_by)
{
    return trpc_finish(held, error, buffer, sizeof buffer, TRPC_MAX_FRAME, short_by);
}

/* A Data frame's fixed header at the start of the buffer. */
static void hold_header(uint32_t total, unsigned version, uint8_t byte_16)
{
    put_header(buffer, 3, total, 0, ID);
    buffer[14] = (uint8_t)version;
    buffer[15] = byte_16;
}

/* A state that is not known: 2, the state and the buffer as given, nothing taken. */
static void refused_state(size_t held, uint32_t error, unsigned version)
{
    static const uint8_t piece[TRPC_HEADER_SIZE];
    size_t held_after = held, taken = 9, size = 9, short_by = 9;
    uint32_t error_after = error;

    memcpy(kept, buffer, sizeof kept);
    expect("deframed with a state that is not known", 3, version,
           deframe(&held_after, &error_after, piece, sizeof piece, &taken, &size) == TRPC_DEFRAME_STATE);
    expect("the state", 3, version, held_after == held && error_after == error);
    expect("nothing is taken", 3, version, taken == 0 && size == 0 && memcmp(buffer, kept, sizeof kept) == 0);
    expect("the end of a state that is not known", 3, version,
           finish(held, error, &short_by) == TRPC_DEFRAME_STATE && short_by == 0);
}

/* The state (20, 0), inside a frame of 24 bytes: it is known, and goes on. */
static void state_inside(unsigned version)
{
    static const uint8_t piece[5] = {1, 2, 3, 4, 0x09};
    size_t held = 20, taken = 9, size = 9, short_by = 9;
    uint32_t error = 0;

    expect("the end of a state inside a frame", 3, version,
           finish(held, error, &short_by) == TRPC_DEFRAME_DONE && short_by == 20);
    expect("deframed from inside a frame", 3, version,
           deframe(&held, &error, piece, sizeof piece, &taken, &size) == TRPC_DEFRAME_DONE);
    expect("the frame", 3, version, taken == 4 && size == 24 && buffer[14] == version && memcmp(buffer + 20, piece, 4) == 0);
    expect("the state after it", 3, version, held == 0 && error == 0);
}

static void states(unsigned version, uint8_t byte_16)
{
    hold_header(16, version, byte_16);
    refused_state(16, 8, version);
    hold_header(24, version, byte_16);
    refused_state(16, 8, version);
    refused_state(15, 8, version);
    refused_state(20, 8, version);
    state_inside(version);
    buffer[0] = 0x90; /* a header that is refused, with 3 */
    refused_state(16, 8, version);
}

/* ---- A stream ---- */

static uint8_t stream[64 * FRAMES];
static size_t stream_len;

static const uint8_t versions[FRAMES] = {0, 1, 0xFF, 0, 2, 1, 0x80, 8, 7, 0xFE, 1, 0};

static void make_stream(void)
{
    for (uint32_t i = 0; i < FRAMES; i++) {
        struct frame frame;

        write_version(&frame, i % KINDS, versions[i]);
        frame.at[15] = reserved[i % sizeof reserved];
        memcpy(stream + stream_len, frame.at, frame.len);
        stream_len += frame.len;
    }
}

/* Offers a piece, and reads its frames: each has its own version. Returns how many frames there are then. */
static uint32_t offer(size_t *held, const uint8_t *piece, size_t len, uint32_t frames)
{
    size_t taken, size;
    uint32_t error = 0;

    for (;; frames++) {
        uint32_t record[NUMBERS], kind = frames % KINDS;

        expect("a piece", kind, 0, deframe(held, &error, piece, len, &taken, &size) == TRPC_DEFRAME_DONE);
        piece += taken;
        len -= taken;
        if (size == 0)
            return frames;
        expect("no frame more", kind, 0, frames < FRAMES);
        expect("a frame of the stream", kind, versions[frames], read_frame(buffer, size, kind, record) == TRPC_READ_DONE);
        expect("its version", kind, versions[frames], record[VERSION_AT] == versions[frames]);
    }
}

static void cut_stream(size_t first, size_t second)
{
    size_t held = 0, short_by = 9;
    uint32_t frames = offer(&held, stream, first, 0);

    frames = offer(&held, stream + first, second - first, frames);
    frames = offer(&held, stream + second, stream_len - second, frames);
    expect("all frames", 0, 0, frames == FRAMES);
    expect("a clean end", 0, 0, finish(held, 0, &short_by) == TRPC_DEFRAME_DONE && short_by == 0);
}

int main(void)
{
    for (uint32_t kind = 0; kind < KINDS; kind++)
        written_and_read(kind);
    members();
    for (unsigned version = 0; version < 256; version++)
        for (size_t i = 0; i < sizeof reserved; i++)
            states(version, reserved[i]);
    make_stream();
    for (size_t second = 0; second <= stream_len; second++)
        for (size_t first = 0; first <= second; first++)
            cut_stream(first, second);
    printf("versions: %lu checks\n", checks);
    return 0;
}
