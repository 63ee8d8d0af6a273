// Google's protobuf for C++ as a peer: tests/protoc/trpc.proto, whole unary frames. A message object owns a copy of every
// string and has its map in a hash table.
#include <cstring>
#include <string>

#include "frame.h"
#include "trpc.pb.h"

using trpc::RequestProtocol;
using trpc::ResponseProtocol;

namespace {

// What was found, the same sum as in src/cases.rs.
uint64_t found(const RequestProtocol &m)
{
    return uint64_t{m.request_id()} + m.timeout() + m.caller().size() + m.callee().size() + m.func().size() +
           m.trans_info().size();
}

uint64_t found(const ResponseProtocol &m)
{
    return uint64_t{m.request_id()} + uint32_t(m.ret()) + uint32_t(m.func_ret()) + m.error_msg().size() +
           m.trans_info().size();
}

template <class Message>
uint64_t read(Message &message, const uint8_t *frame, size_t len)
{
    long size = frame_message(frame, len);
    if (size < 0 || !message.ParseFromArray(frame + FRAME_HEADER, int(size)))
        return FRAME_REFUSED;
    size_t body = len - FRAME_HEADER - size_t(size);
    if (message.attachment_size() > body)
        return FRAME_REFUSED;
    return found(message) + body + frame_version(frame);
}

// The size of the frame, 0 where it has no room.
template <class Message>
size_t write(const Message &message, uint32_t id, uint8_t version, const uint8_t *body, size_t body_len, uint8_t *out,
             size_t out_len)
{
    size_t size = message.ByteSizeLong();
    size_t total = FRAME_HEADER + size + body_len;
    if (message.attachment_size() > body_len || total > FRAME_LARGEST || total > out_len)
        return 0;
    frame_start(out, total, size, id, version);
    uint8_t *end = message.SerializeWithCachedSizesToArray(out + FRAME_HEADER);
    memcpy(end, body, body_len);
    return total;
}

// The bytes of a place in the source.
std::string bytes(const uint8_t *source, const uint32_t *place)
{
    return std::string(reinterpret_cast<const char *>(source) + place[0], place[1]);
}

template <class Message>
void fill_rows(Message &m, const uint8_t *source, const uint32_t *rows, uint32_t count)
{
    for (uint32_t i = 0; i < count; i++)
        (*m.mutable_trans_info())[bytes(source, rows + 4 * i)] = bytes(source, rows + 4 * i + 2);
}

// Sets the fields to the numbers of a record (include/bekurapi.h).
void fill(RequestProtocol &m, const uint32_t *record, const uint8_t *source, const uint32_t *rows)
{
    m.set_version(record[8]);
    m.set_call_type(record[9]);
    m.set_request_id(record[10]);
    m.set_timeout(record[11]);
    m.set_caller(bytes(source, record + 12));
    m.set_callee(bytes(source, record + 14));
    m.set_func(bytes(source, record + 16));
    m.set_message_type(record[18]);
    fill_rows(m, source, rows, record[1]);
    m.set_content_type(record[19]);
    m.set_content_encoding(record[20]);
    m.set_attachment_size(record[21]);
}

void fill(ResponseProtocol &m, const uint32_t *record, const uint8_t *source, const uint32_t *rows)
{
    m.set_version(record[8]);
    m.set_call_type(record[9]);
    m.set_request_id(record[10]);
    m.set_ret(int32_t(record[11]));
    m.set_func_ret(int32_t(record[12]));
    m.set_error_msg(bytes(source, record + 13));
    m.set_message_type(record[15]);
    fill_rows(m, source, rows, record[1]);
    m.set_content_type(record[16]);
    m.set_content_encoding(record[17]);
    m.set_attachment_size(record[18]);
}

template <class Message>
size_t write_fresh(const uint32_t *record, const uint8_t *source, const uint32_t *rows, const uint8_t *body,
                   size_t body_len, uint8_t *out, size_t out_len)
{
    Message message;
    fill(message, record, source, rows);
    return write(message, record[0], uint8_t(record[24]), body, body_len, out, out_len);
}

} // namespace

// `kind` is 0 for a request and 1 for a response.
extern "C" {

void *protobuf_new(uint32_t kind)
{
    return kind == 0 ? static_cast<void *>(new RequestProtocol) : new ResponseProtocol;
}

uint64_t protobuf_read(uint32_t kind, void *message, const uint8_t *frame, size_t len)
{
    return kind == 0 ? read(*static_cast<RequestProtocol *>(message), frame, len)
                     : read(*static_cast<ResponseProtocol *>(message), frame, len);
}

uint64_t protobuf_read_fresh(uint32_t kind, const uint8_t *frame, size_t len)
{
    if (kind == 0) {
        RequestProtocol message;
        return read(message, frame, len);
    }
    ResponseProtocol message;
    return read(message, frame, len);
}

size_t protobuf_write(uint32_t kind, const void *message, uint32_t id, uint8_t version, const uint8_t *body, size_t body_len,
                      uint8_t *out, size_t out_len)
{
    return kind == 0 ? write(*static_cast<const RequestProtocol *>(message), id, version, body, body_len, out, out_len)
                     : write(*static_cast<const ResponseProtocol *>(message), id, version, body, body_len, out, out_len);
}

size_t protobuf_write_fresh(uint32_t kind, const uint32_t *record, const uint8_t *source, const uint32_t *rows,
                            const uint8_t *body, size_t body_len, uint8_t *out, size_t out_len)
{
    return kind == 0 ? write_fresh<RequestProtocol>(record, source, rows, body, body_len, out, out_len)
                     : write_fresh<ResponseProtocol>(record, source, rows, body, body_len, out, out_len);
}
}
