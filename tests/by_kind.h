/*
 * The readers and the writers by a number of the kind: 0 request, 1 response, 2 Init, 3 Data, 4 Feedback, 5 Close. A
 * record is the 25 numbers of the kind's struct: the last is its header_version, if the unused bytes are 0.
 */
#ifndef BY_KIND_H
#define BY_KIND_H

#include "bekurapi.h"

enum { KINDS = 6, NUMBERS = 25, VERSION_AT = 24, ROW_NUMBERS = TRPC_ROW_NUMBERS };

/* Bytes, or row numbers, that are lent. */
struct bytes_lent {
    const uint8_t *at;
    size_t len;
};

struct rows_lent {
    const uint32_t *at;
    size_t len;
};

/* What a writer is given, but for the record. */
struct written_from {
    struct bytes_lent source;
    struct rows_lent rows;
    struct bytes_lent body;
    uint8_t *out;
    size_t out_len;
    uint32_t ceiling;
};

static inline uint32_t read_as(uint32_t kind, struct bytes_lent frame, uint32_t ceiling, uint32_t *rows, size_t rows_len,
                               void *record)
{
    switch (kind) {
    case 0:
        return trpc_read_request(frame.at, frame.len, ceiling, rows, rows_len, record);
    case 1:
        return trpc_read_response(frame.at, frame.len, ceiling, rows, rows_len, record);
    case 2:
        return trpc_read_init(frame.at, frame.len, ceiling, rows, rows_len, record);
    case 3:
        return trpc_read_data(frame.at, frame.len, ceiling, rows, rows_len, record);
    case 4:
        return trpc_read_feedback(frame.at, frame.len, ceiling, rows, rows_len, record);
    default:
        return trpc_read_close(frame.at, frame.len, ceiling, rows, rows_len, record);
    }
}

#define WRITE(name)                                                                                                    \
    trpc_write_##name(record, w.source.at, w.source.len, w.rows.at, w.rows.len, w.body.at, w.body.len, w.out,          \
                      w.out_len, w.ceiling, size)

static inline uint32_t write_as(uint32_t kind, const void *record, struct written_from w, size_t *size)
{
    switch (kind) {
    case 0:
        return WRITE(request);
    case 1:
        return WRITE(response);
    case 2:
        return WRITE(init);
    case 3:
        return WRITE(data);
    case 4:
        return WRITE(feedback);
    default:
        return WRITE(close);
    }
}

#undef WRITE

/* The fixed header of a kind's frame, with a size of the header message that only a unary frame has. */
static inline void put_header(uint8_t *frame, uint32_t kind, uint32_t total, uint32_t header_size, uint32_t id)
{
    static const uint8_t stream_types[KINDS] = {0, 0, 1, 2, 3, 4};
    uint32_t said = kind < 2 ? header_size : 0;
    const uint8_t bytes[TRPC_HEADER_SIZE] = {
        0x09, 0x30, kind > 1, stream_types[kind],
        (uint8_t)(total >> 24), (uint8_t)(total >> 16), (uint8_t)(total >> 8), (uint8_t)total,
        (uint8_t)(said >> 8), (uint8_t)said,
        (uint8_t)(id >> 24), (uint8_t)(id >> 16), (uint8_t)(id >> 8), (uint8_t)id,
        0, 0,
    };

    for (size_t i = 0; i < sizeof bytes; i++)
        frame[i] = bytes[i];
}

#endif
