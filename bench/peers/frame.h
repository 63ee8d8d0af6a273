/*
 * The fixed header of a unary frame, for the peers: they read and write whole frames, as the library does.
 */
#ifndef BENCH_FRAME_H
#define BENCH_FRAME_H

#include <stddef.h>
#include <stdint.h>

enum { FRAME_HEADER = 16, FRAME_LARGEST = 65536 };

/* What a peer that refuses a frame answers. */
#define FRAME_REFUSED UINT64_MAX

static inline uint32_t big_endian(const uint8_t *bytes)
{
    return (uint32_t)bytes[0] << 24 | (uint32_t)bytes[1] << 16 | (uint32_t)bytes[2] << 8 | bytes[3];
}

/* The size of the header message of a good unary frame, or -1. */
static inline long frame_message(const uint8_t *frame, size_t len)
{
    if (len < FRAME_HEADER || len > FRAME_LARGEST)
        return -1;
    size_t size = (size_t)frame[8] << 8 | frame[9];
    if (frame[0] != 0x09 || frame[1] != 0x30 || frame[2] != 0 || big_endian(frame + 4) != len || size > len - FRAME_HEADER)
        return -1;
    return (long)size;
}

/* The protocol version of a frame. */
static inline uint8_t frame_version(const uint8_t *frame)
{
    return frame[14];
}

/* Writes the fixed header of a unary frame. */
static inline void frame_start(uint8_t *frame, size_t total, size_t message, uint32_t id, uint8_t version)
{
    const uint8_t header[FRAME_HEADER] = {
        0x09, 0x30, 0, 0,
        (uint8_t)(total >> 24), (uint8_t)(total >> 16), (uint8_t)(total >> 8), (uint8_t)total,
        (uint8_t)(message >> 8), (uint8_t)message,
        (uint8_t)(id >> 24), (uint8_t)(id >> 16), (uint8_t)(id >> 8), (uint8_t)id,
        version, 0,
    };
    for (size_t i = 0; i < FRAME_HEADER; i++)
        frame[i] = header[i];
}

#endif
