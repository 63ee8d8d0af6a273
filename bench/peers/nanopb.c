/*
 * nanopb as a peer: tests/protoc/trpc.proto with the sizes of trpc.options, whole unary frames. A message is a struct of
 * fixed size that holds a copy of every string; a map is an array of entries, in which a key may be twice.
 *
 * `kind` is 0 for a request and 1 for a response.
 */
#include <pb_decode.h>
#include <pb_encode.h>
#include <stdlib.h>
#include <string.h>

#include "frame.h"
#include "trpc.pb.h"

/* What was found, the same sum as in src/cases.rs. */
static uint64_t found_request(const trpc_RequestProtocol *m)
{
    return (uint64_t)m->request_id + m->timeout + m->caller.size + m->callee.size + m->func.size + m->trans_info_count;
}

static uint64_t found_response(const trpc_ResponseProtocol *m)
{
    return (uint64_t)m->request_id + (uint32_t)m->ret + (uint32_t)m->func_ret + m->error_msg.size + m->trans_info_count;
}

static uint32_t attachment_size(uint32_t kind, const void *message)
{
    return kind == 0 ? ((const trpc_RequestProtocol *)message)->attachment_size
                     : ((const trpc_ResponseProtocol *)message)->attachment_size;
}

static const pb_msgdesc_t *fields(uint32_t kind)
{
    return kind == 0 ? trpc_RequestProtocol_fields : trpc_ResponseProtocol_fields;
}

void *nanopb_new(uint32_t kind)
{
    return calloc(1, kind == 0 ? sizeof(trpc_RequestProtocol) : sizeof(trpc_ResponseProtocol));
}

uint64_t nanopb_read(uint32_t kind, void *message, const uint8_t *frame, size_t len)
{
    long size = frame_message(frame, len);
    if (size < 0)
        return FRAME_REFUSED;
    pb_istream_t stream = pb_istream_from_buffer(frame + FRAME_HEADER, (size_t)size);
    if (!pb_decode(&stream, fields(kind), message))
        return FRAME_REFUSED;
    size_t body = len - FRAME_HEADER - (size_t)size;
    if (attachment_size(kind, message) > body)
        return FRAME_REFUSED;
    return (kind == 0 ? found_request(message) : found_response(message)) + body + frame_version(frame);
}

/* The size of the frame, 0 where it has no room. */
size_t nanopb_write(uint32_t kind, const void *message, uint32_t id, uint8_t version, const uint8_t *body, size_t body_len,
                    uint8_t *out, size_t out_len)
{
    size_t room = out_len < FRAME_LARGEST ? out_len : FRAME_LARGEST;
    if (room < FRAME_HEADER + body_len || attachment_size(kind, message) > body_len)
        return 0;
    pb_ostream_t stream = pb_ostream_from_buffer(out + FRAME_HEADER, room - FRAME_HEADER - body_len);
    if (!pb_encode(&stream, fields(kind), message))
        return 0;
    size_t size = stream.bytes_written;
    size_t total = FRAME_HEADER + size + body_len;
    frame_start(out, total, size, id, version);
    memcpy(out + FRAME_HEADER + size, body, body_len);
    return total;
}
