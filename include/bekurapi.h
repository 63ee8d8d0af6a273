/*
 * Bekurapi's interface for C: checks, cuts, reads and writes tRPC frames, and keeps a queue of waiting jobs.
 *
 * docs/PROTOCOL.md says what a frame is, field by field. Its section "Errors" has all error codes in one table, with
 * what to do about each.
 *
 * Link with libbekurapi.a and, for the queue, libqueue_in_place.a. `tools/built archives` proves the library and
 * writes both to target/staticlib/:
 *
 *     cc -Iinclude program.c target/staticlib/libbekurapi.a target/staticlib/libqueue_in_place.a
 *
 * What a caller ensures:
 *
 * - Pointers. One with a length beside it refers to as many bytes or numbers as the length says. It may be null where
 *   the length is 0. Any other refers to one number or struct, and is not null.
 * - Overlap. What a function writes to overlaps nothing else that it is given. During the call nobody else reads or
 *   writes it, and nobody writes to what the function only reads.
 *
 * What every function promises then. Arguments, error codes and what is left are proved (docs/THEOREMS.md):
 *
 * - Arguments. Every argument is taken. A bad one is refused with an error code.
 * - Error codes. One is returned exactly when its ground holds and no ground before it in the order does. The order is
 *   at the enum of the codes. 0 is returned where no ground holds. Retired codes are never returned and never used
 *   again: 8 (it was for bytes 15-16 of a header that are not both 0) and 20 (it was for a header message over 65,535
 *   bytes).
 * - What is left. Each function says what everything lent to it is afterwards, also after a refusal. What is lent as
 *   const is never changed.
 *
 * What is said of state, system, stack and time is not proved:
 *
 * - State. No function has state of its own, and none keeps a pointer. Each may be called from any thread.
 * - System. No function allocates, waits or calls the system. memcpy, memmove and memset are those of the program.
 * - Stack. A call needs at most 6 KiB, beside what memcpy, memmove and memset need. tests/stack.c measures it.
 * - Time. It follows from how the code is made. trpc_header_check, trpc_header_parse, trpc_finish and trpc_queue_init
 *   take a fixed time. That of trpc_deframe is in proportion to the bytes that it takes. That of each other call is at
 *   most in proportion to what it is lent, and to the comparisons of two keys, or of two jobs. There are at most 64, so
 *   they are compared up to 2,016 times. After that trpc_queue_add and trpc_queue_cancel look through up to 64 jobs,
 *   and trpc_queue_take compares due times up to 63 times.
 * - Time of a refused write. A writer's keys may each be as long as the source. They are compared before the frame's
 *   size is known, so a write that is refused may take long. Whoever writes keys that a stranger chose bounds their
 *   lengths first.
 */
#ifndef BEKURAPI_H
#define BEKURAPI_H

#include <stddef.h>
#include <stdint.h>

#ifdef __cplusplus
extern "C" {
#endif

/* The length of a fixed header. */
#define TRPC_HEADER_SIZE 16

/* ---- The ceiling of a connection ---- */

/* The largest frame of any connection, its fixed header included, and so the largest ceiling. */
#define TRPC_MAX_FRAME 65536

/* The smallest ceiling: a frame is a fixed header and nothing more. */
#define TRPC_MIN_CEILING 16

/*
 * A ceiling is the most bytes that a frame of one connection has, its fixed header included. It is from
 * TRPC_MIN_CEILING to TRPC_MAX_FRAME, and TRPC_MAX_FRAME where a connection needs no other. Every function that checks,
 * cuts, reads or writes a frame takes one, after the slice that holds the frame. The caller passes the same one in all
 * calls for a connection. No function keeps it.
 *
 * - A header whose total is over the ceiling is refused with TRPC_HEADER_TOTAL, unless 3 to 5 come first.
 * - The deframer's buffer need only be as long as the ceiling. A shorter one is refused with TRPC_DEFRAME_BUFFER.
 * - A record whose frame would be over the ceiling is refused with TRPC_WRITE_FRAME.
 *
 * A ceiling out of range comes before every other ground of a function. State, buffer, rows and output stay as they
 * were, nothing is taken, and all else that the function writes is 0.
 */
enum trpc_ceiling_error {
    TRPC_BAD_CEILING = 41 /* the ceiling is not 16 to 65,536 */
};

/* ---- The fixed header ---- */

/*
 * The error codes of trpc_header_check and trpc_header_parse, beside TRPC_BAD_CEILING. The header's bytes are counted
 * from 1, and its numbers are big-endian (docs/PROTOCOL.md, "The 16 bytes"). Any id (bytes 11-14), any version (byte
 * 15) and any byte 16 is good.
 *
 * Order: TRPC_BAD_CEILING, TRPC_HEADER_LENGTH, then the others by rising number.
 */
enum trpc_header_error {
    TRPC_HEADER_GOOD = 0,        /* a good header */
    TRPC_HEADER_MAGIC = 3,       /* bytes 1-2 are not 09 30 */
    TRPC_HEADER_DATA_TYPE = 4,   /* byte 3 is neither 0 (unary) nor 1 (stream) */
    TRPC_HEADER_STREAM_TYPE = 5, /* stream frame: byte 4 is not 1 (Init), 2 (Data), 3 (Feedback) or 4 (Close) */
    TRPC_HEADER_TOTAL = 6,       /* bytes 5-8, the frame's size with these 16, are not 16 to the ceiling */
    TRPC_HEADER_HEADER_SIZE = 7, /* bytes 9-10 are more than the total less 16 (unary), or not 0 (stream) */
    TRPC_HEADER_LENGTH = 9       /* the number of bytes given is not 16 */
};

/*
 * Checks a fixed header.
 *
 * bytes    the header.
 * len      how many bytes there are. Any number is taken, and only 16 can be good.
 * ceiling  the connection's ceiling (above).
 *
 * Returns a code of enum trpc_header_error, or TRPC_BAD_CEILING.
 *
 *     static const uint8_t header[16] = {0x09, 0x30, 0, 0, 0, 0, 0, 16, 0, 0, 0, 0, 0, 7, 0, 0};
 *
 *     if (trpc_header_check(header, sizeof header, TRPC_MAX_FRAME) == TRPC_HEADER_GOOD) {
 *         // a unary frame of 16 bytes with the request id 7
 *     }
 */
uint32_t trpc_header_check(const uint8_t *bytes, size_t len, uint32_t ceiling);

/*
 * What a fixed header says a frame is. The numbers are those of the stream type, and 0 for unary. A unary frame does
 * not say whether it is a request or a response. Its receiver knows.
 */
enum trpc_frame_type {
    TRPC_FRAME_UNARY = 0,
    TRPC_FRAME_INIT = 1,
    TRPC_FRAME_DATA = 2,
    TRPC_FRAME_FEEDBACK = 3,
    TRPC_FRAME_CLOSE = 4
};

/*
 * Reads a fixed header. It is for a caller that has a frame and is to choose its reader.
 *
 * bytes, len, ceiling
 *              as for trpc_header_check. The header is the first 16 bytes of a frame.
 * frame_type   receives one of enum trpc_frame_type.
 * total        receives the frame's size, its fixed header included.
 * header_size  receives the size of a unary frame's header message. It is 0 for a stream frame.
 * id           receives the request id or stream id, bytes 11-14. It is the one to answer with.
 * header_version
 *              receives the protocol version, byte 15. A record has it under the same name.
 *
 * Returns the code that trpc_header_check returns. After a refusal all five are 0.
 *
 *     code = trpc_header_parse(frame, TRPC_HEADER_SIZE, ceiling, &frame_type, &total, &header_size, &id,
 *                              &header_version);
 *     if (code == 0 && frame_type == TRPC_FRAME_FEEDBACK) {
 *         // a Feedback frame of the stream id: trpc_read_feedback(frame, total, ceiling, ..)
 *     }
 */
uint32_t trpc_header_parse(const uint8_t *bytes, size_t len, uint32_t ceiling, uint32_t *frame_type, size_t *total,
                           size_t *header_size, uint32_t *id, uint8_t *header_version);

/* ---- Cutting a stream into frames ---- */

/*
 * The error codes of trpc_deframe and trpc_finish, beside TRPC_BAD_CEILING. A header that is refused has its code of
 * enum trpc_header_error.
 *
 * Order of trpc_deframe:
 *
 * 1. TRPC_BAD_CEILING.
 * 2. TRPC_DEFRAME_BUFFER.
 * 3. TRPC_DEFRAME_STATE.
 * 4. The code of a header that was refused before.
 * 5. The codes 3 to 7 of the header whose 16th byte arrives, rising.
 *
 * The order of trpc_finish is the same without the last.
 *
 * A state is `held` and `error`. It is known with a buffer and a ceiling if one of these holds:
 *
 * - Under 16 bytes are held, and the error is 0.
 * - 16 bytes or more are held, the error is 0, the first 16 are a good header, and its total is more than are held.
 * - Exactly 16 bytes are held, the error is 3 to 7, and it is the code of these 16 as a header.
 *
 * A header is good, or has its code, by the ceiling of this call: a state has none. So under another ceiling than the
 * last call's a state may not be known, for example inside a frame that is over it.
 */
enum trpc_deframe_error {
    TRPC_DEFRAME_DONE = 0,
    TRPC_DEFRAME_BUFFER = 1, /* the buffer is shorter than the ceiling */
    TRPC_DEFRAME_STATE = 2   /* the state is not known */
};

/*
 * One call of the deframer (docs/PROTOCOL.md, "Cutting a stream"). It takes bytes of the piece to the buffer, after
 * those held, until a frame is whole, a header is refused or the piece ends. A header is judged when its 16th byte
 * arrives, never sooner.
 *
 * held, error  the state: how many bytes of an unfinished frame are at the start of the buffer, and the code of the
 *              header that ended the stream, 0 for none. Both are 0 when fresh. The caller keeps them, with the buffer,
 *              from call to call.
 * buffer       at least as many bytes as the ceiling. Bytes that received nothing are unchanged. Those past the ceiling
 *              never receive any, and are not looked at.
 * ceiling      the connection's ceiling. It stays the same for the whole stream.
 * piece        the bytes that arrived, any number of them, even none.
 * taken        receives how many bytes of the piece were taken. The rest is to be offered again.
 * size         receives the size of a whole frame, or 0 where there is none. The frame is at the start of the buffer
 *              until the next call.
 *
 * Returns 0, TRPC_BAD_CEILING, or a code of enum trpc_deframe_error or enum trpc_header_error.
 *
 * - 0 and *size not 0: a whole frame. Nothing is held.
 * - 0 and *size 0: the piece is used up and more is needed.
 * - 3 to 7: a header is refused. It stays at the start of the buffer, *held is 16 and *error is the code. *taken is how
 *   many bytes of it this call took, and *size is 0. Later calls under this ceiling return the same code, take nothing
 *   and leave state and buffer as they are. Where the next frame starts is not known, so the stream is lost.
 * - 1, 2 and 41: *held, *error and all of the buffer are as they were, *taken and *size are 0.
 *
 *     enum { LINE = 4096 }; // the ceiling of the connection: its frames have at most 4,096 bytes
 *     static uint8_t buffer[LINE];
 *     size_t held = 0, taken, size, at = 0;
 *     uint32_t error = 0, code;
 *
 *     do {
 *         code = trpc_deframe(&held, &error, buffer, sizeof buffer, LINE, piece + at, piece_len - at, &taken, &size);
 *         at += taken;
 *         if (code == 0 && size != 0)
 *             frame_came(buffer, size);
 *     } while (code == 0 && size != 0);
 */
uint32_t trpc_deframe(size_t *held, uint32_t *error, uint8_t *buffer, size_t buffer_len, uint32_t ceiling,
                      const uint8_t *piece, size_t piece_len, size_t *taken, size_t *size);

/*
 * The end of the stream, if no byte comes after those that the deframer took.
 *
 * held, error, buffer  as trpc_deframe left them.
 * ceiling              the one that trpc_deframe was given.
 * short_by             receives how many bytes of an unfinished frame are held: 0 is a clean end. After a refusal it
 *                      is 0.
 *
 * Returns 0, TRPC_BAD_CEILING, or a code of enum trpc_deframe_error or enum trpc_header_error.
 *
 *     code = trpc_finish(held, error, buffer, sizeof buffer, LINE, &short_by);
 *     if (code == 0 && short_by == 0) {
 *         // the stream ended after a whole frame, or before the first
 *     }
 */
uint32_t trpc_finish(size_t held, uint32_t error, const uint8_t *buffer, size_t buffer_len, uint32_t ceiling,
                     size_t *short_by);

/* ---- Records ---- */

/* How many row numbers a reader wants. A row has four, and there are at most 64 rows. */
#define TRPC_ROW_NUMBERS 256

/*
 * A part of the frame that was read, or of a writer's source. It has its start, counted from the first byte, and its
 * length. One that was read lies within the frame, and an empty one is 0, 0.
 */
struct trpc_span {
    uint32_t start;
    uint32_t len;
};

/*
 * The record of each kind, 100 bytes: 24 numbers of 32 bits, then header_version and three bytes that are unused.
 * docs/PROTOCOL.md, "The six messages", has the number and the type of each field.
 *
 * id          the request id or stream id of the fixed header, bytes 11-14. It is the one to answer with.
 * request_id  the message's own request id, which is only handed over. A writer writes id and request_id each as it is:
 *             a request with only .request_id = 7 is written as a frame with the id 0.
 * rows        how many rows of the map there are.
 * header, body, attachment
 *             where a reader found these parts. A writer does not look at them. The attachment is the last
 *             attachment_size bytes of the body. In Init, Feedback and Close the message is the header, and the others
 *             are empty. Data has only a body.
 * .._present  0 or 1 when read. When written, any number but 0 marks a part as present.
 * zero        0 when read. A writer does not look at it.
 * header_version
 *             the protocol version of the fixed header, byte 15. Any value is taken. To the library it is the low byte
 *             of a 25th number, with `unused` above it, so its place is that of a little-endian machine, for which the
 *             library is built. The `version` of a request or a response is a field of its message, another thing.
 * unused      0 when read. A writer does not look at it.
 *
 * Enumerated numbers pass through as they are.
 */
struct trpc_request {
    uint32_t id;
    uint32_t rows;
    struct trpc_span header;
    struct trpc_span body;
    struct trpc_span attachment;
    uint32_t version;
    uint32_t call_type;
    uint32_t request_id;
    uint32_t timeout;
    struct trpc_span caller;
    struct trpc_span callee;
    struct trpc_span func;
    uint32_t message_type;
    uint32_t content_type;
    uint32_t content_encoding;
    uint32_t attachment_size;
    uint32_t zero[2];
    uint8_t header_version;
    uint8_t unused[3];
};

struct trpc_response {
    uint32_t id;
    uint32_t rows;
    struct trpc_span header;
    struct trpc_span body;
    struct trpc_span attachment;
    uint32_t version;
    uint32_t call_type;
    uint32_t request_id;
    int32_t ret;
    int32_t func_ret;
    struct trpc_span error_msg;
    uint32_t message_type;
    uint32_t content_type;
    uint32_t content_encoding;
    uint32_t attachment_size;
    uint32_t zero[5];
    uint8_t header_version;
    uint8_t unused[3];
};

/*
 * Init's message has two parts, each with a mark, and three numbers of its own.
 *
 * request_meta   caller, callee, func, message_type and the rows of the map.
 * response_meta  ret and error_msg.
 * its own        init_window_size, content_type and content_encoding.
 *
 * A reader leaves a part that is not marked as present with numbers that are 0 and byte fields that are empty. Without
 * request_meta there are no rows. Anything else is to a writer a ground of TRPC_WRITE_ROWS.
 */
struct trpc_init {
    uint32_t id;
    uint32_t rows;
    struct trpc_span header;
    struct trpc_span body;
    struct trpc_span attachment;
    uint32_t request_meta_present;
    struct trpc_span caller;
    struct trpc_span callee;
    struct trpc_span func;
    uint32_t message_type;
    uint32_t response_meta_present;
    int32_t ret;
    struct trpc_span error_msg;
    uint32_t init_window_size;
    uint32_t content_type;
    uint32_t content_encoding;
    uint32_t zero[1];
    uint8_t header_version;
    uint8_t unused[3];
};

struct trpc_data {
    uint32_t id;
    uint32_t rows;
    struct trpc_span header;
    struct trpc_span body;
    struct trpc_span attachment;
    uint32_t zero[16];
    uint8_t header_version;
    uint8_t unused[3];
};

struct trpc_feedback {
    uint32_t id;
    uint32_t rows;
    struct trpc_span header;
    struct trpc_span body;
    struct trpc_span attachment;
    uint32_t window_size_increment;
    uint32_t zero[15];
    uint8_t header_version;
    uint8_t unused[3];
};

struct trpc_close {
    uint32_t id;
    uint32_t rows;
    struct trpc_span header;
    struct trpc_span body;
    struct trpc_span attachment;
    int32_t close_type;
    int32_t ret;
    struct trpc_span msg;
    uint32_t message_type;
    int32_t func_ret;
    uint32_t zero[10];
    uint8_t header_version;
    uint8_t unused[3];
};

/* A row of the map trans_info. It is four of the row numbers. */
struct trpc_row {
    struct trpc_span key;
    struct trpc_span value;
};

/* ---- Reading a frame ---- */

/*
 * The error codes of the readers, beside TRPC_BAD_CEILING. A fixed header that is refused has its code of enum
 * trpc_header_error.
 *
 * Order (docs/PROTOCOL.md, "Reading a frame"):
 *
 * 1. TRPC_BAD_CEILING.
 * 2. TRPC_READ_ROWS.
 * 3. TRPC_READ_KIND for fewer than 16 bytes.
 * 4. The codes 3 to 7 of the fixed header, rising. A frame whose total is over the ceiling has TRPC_HEADER_TOTAL,
 *    unless 3 to 5 come first.
 * 5. TRPC_READ_KIND for its other grounds.
 * 6. The fields from left to right. At each place: TRPC_READ_VARINT, TRPC_READ_TAG and TRPC_READ_DEPTH of the tag, then
 *    TRPC_READ_VARINT and TRPC_READ_LENGTH of the value, then TRPC_READ_ENTRIES before an entry's inside.
 * 7. TRPC_READ_ATTACHMENT.
 */
enum trpc_read_error {
    TRPC_READ_DONE = 0,
    TRPC_READ_KIND = 9,        /* the length is not the total, or it is the wrong kind of frame */
    TRPC_READ_VARINT = 10,     /* a varint is bad or cut off */
    TRPC_READ_TAG = 11,        /* a tag is bad, or a group's end is stray or of another number */
    TRPC_READ_LENGTH = 12,     /* a length, fixed value or open group passes the end of its part */
    TRPC_READ_DEPTH = 13,      /* the 33rd nested group */
    TRPC_READ_ENTRIES = 14,    /* the 65th map entry, repeats counted */
    TRPC_READ_ATTACHMENT = 15, /* the attachment is larger than the body */
    TRPC_READ_ROWS = 16        /* under 256 row numbers */
};

/*
 * Each reads a frame as its kind.
 *
 * frame    one whole frame, as trpc_deframe leaves it.
 * ceiling  the connection's ceiling (above).
 * rows     at least TRPC_ROW_NUMBERS numbers. The first 256 receive the rows of the map, four numbers each (struct
 *          trpc_row), in order of first appearance. After them come zeros up to 256, for every kind. Numbers past 256
 *          are untouched.
 * record   receives the record. Its values before the call don't matter.
 *
 * Returns 0, TRPC_BAD_CEILING, or a code of enum trpc_read_error or enum trpc_header_error. After a refusal all of the
 * record is 0. The codes 10 to 15 leave the first 256 row numbers 0. All other codes leave the rows untouched.
 *
 *     struct trpc_request request;
 *     uint32_t rows[TRPC_ROW_NUMBERS];
 *
 *     if (trpc_read_request(frame, frame_len, ceiling, rows, TRPC_ROW_NUMBERS, &request) == TRPC_READ_DONE) {
 *         // the function's name is request.func.len bytes at frame + request.func.start
 *         // the first row's key is rows[1] bytes at frame + rows[0], if request.rows is not 0
 *     }
 */
uint32_t trpc_read_request(const uint8_t *frame, size_t frame_len, uint32_t ceiling, uint32_t *rows, size_t rows_len,
                           struct trpc_request *record);
uint32_t trpc_read_response(const uint8_t *frame, size_t frame_len, uint32_t ceiling, uint32_t *rows, size_t rows_len,
                            struct trpc_response *record);
uint32_t trpc_read_init(const uint8_t *frame, size_t frame_len, uint32_t ceiling, uint32_t *rows, size_t rows_len,
                        struct trpc_init *record);
uint32_t trpc_read_data(const uint8_t *frame, size_t frame_len, uint32_t ceiling, uint32_t *rows, size_t rows_len,
                        struct trpc_data *record);
uint32_t trpc_read_feedback(const uint8_t *frame, size_t frame_len, uint32_t ceiling, uint32_t *rows, size_t rows_len,
                            struct trpc_feedback *record);
uint32_t trpc_read_close(const uint8_t *frame, size_t frame_len, uint32_t ceiling, uint32_t *rows, size_t rows_len,
                         struct trpc_close *record);

/* ---- Writing a frame ---- */

/*
 * The error codes of the writers, beside TRPC_BAD_CEILING.
 *
 * Order (docs/PROTOCOL.md, "Writing a frame"):
 *
 * 1. TRPC_BAD_CEILING.
 * 2. TRPC_WRITE_ROWS for over 64 rows, rows with Feedback or Data, and too few row numbers.
 * 3. TRPC_WRITE_SOURCE.
 * 4. TRPC_WRITE_ROWS for its other grounds.
 * 5. TRPC_WRITE_BODY.
 * 6. TRPC_WRITE_FRAME.
 * 7. TRPC_WRITE_OUTPUT.
 */
enum trpc_write_error {
    TRPC_WRITE_DONE = 0,
    TRPC_WRITE_BODY = 15,   /* the attachment is larger than the body, or a body with Init, Feedback or Close */
    TRPC_WRITE_SOURCE = 17, /* a start plus length passes the end of the source bytes, empty fields too */
    TRPC_WRITE_ROWS = 18,   /* over 64 rows, rows with Feedback or Data, too few row numbers for them, equal keys, or a
                               meta part of Init marked absent and not all zero, empty and rowless */
    TRPC_WRITE_FRAME = 19,  /* the frame is over the ceiling */
    TRPC_WRITE_OUTPUT = 27  /* the output is shorter than the frame */
};

/*
 * Each writes the frame of a record of its kind to the start of the output. Fields are written by rising number, rows
 * in the given order. Numbers that are 0 and byte fields that are empty are left out. Byte 15 of the frame is the
 * record's header_version, byte 16 is 0.
 *
 * record   the record. Header, body and attachment in it are not looked at, nor are `zero` and `unused`.
 * source   the bytes that the starts of the record and of its rows count from.
 * rows     four numbers for each of the record's rows (struct trpc_row). Numbers after those are not looked at.
 * body     the frame's body. Of a request or response its last attachment_size bytes are the attachment.
 * out      receives the frame. It need only hold the frame, so as many bytes as the ceiling are always enough. Bytes
 *          past the frame stay as they were. After a refusal all bytes do.
 * ceiling  the connection's ceiling (above).
 * size     receives the frame's size. It is 0 after a refusal.
 *
 * Returns a code of enum trpc_write_error, or TRPC_BAD_CEILING.
 *
 * What was read can be handed to the writer of its kind: the record and the rows, the frame as the source, and the
 * frame's body. It may be refused with TRPC_WRITE_FRAME, since the frame written may be longer than the one read. That
 * no other code is returned is not promised. Byte 16 is written as 0, whatever it was: the record does not have it.
 *
 *     struct trpc_feedback feedback = {.id = 5, .window_size_increment = 300};
 *     uint8_t out[64];
 *     size_t size;
 *
 *     code = trpc_write_feedback(&feedback, NULL, 0, NULL, 0, NULL, 0, out, sizeof out, ceiling, &size);
 *     if (code == TRPC_WRITE_DONE) {
 *         // out has the 19 bytes of the frame, its message is 08 AC 02
 *     }
 */
uint32_t trpc_write_request(const struct trpc_request *record, const uint8_t *source, size_t source_len,
                            const uint32_t *rows, size_t rows_len, const uint8_t *body, size_t body_len, uint8_t *out,
                            size_t out_len, uint32_t ceiling, size_t *size);
uint32_t trpc_write_response(const struct trpc_response *record, const uint8_t *source, size_t source_len,
                             const uint32_t *rows, size_t rows_len, const uint8_t *body, size_t body_len, uint8_t *out,
                             size_t out_len, uint32_t ceiling, size_t *size);
uint32_t trpc_write_init(const struct trpc_init *record, const uint8_t *source, size_t source_len,
                         const uint32_t *rows, size_t rows_len, const uint8_t *body, size_t body_len, uint8_t *out,
                         size_t out_len, uint32_t ceiling, size_t *size);
uint32_t trpc_write_data(const struct trpc_data *record, const uint8_t *source, size_t source_len,
                         const uint32_t *rows, size_t rows_len, const uint8_t *body, size_t body_len, uint8_t *out,
                         size_t out_len, uint32_t ceiling, size_t *size);
uint32_t trpc_write_feedback(const struct trpc_feedback *record, const uint8_t *source, size_t source_len,
                             const uint32_t *rows, size_t rows_len, const uint8_t *body, size_t body_len, uint8_t *out,
                             size_t out_len, uint32_t ceiling, size_t *size);
uint32_t trpc_write_close(const struct trpc_close *record, const uint8_t *source, size_t source_len,
                          const uint32_t *rows, size_t rows_len, const uint8_t *body, size_t body_len, uint8_t *out,
                          size_t out_len, uint32_t ceiling, size_t *size);

/* ---- Waiting jobs ---- */

/* The most jobs that wait in a queue. */
#define TRPC_QUEUE_CAPACITY 64

/* The latest arrival that a job may have, 2^62. */
#define TRPC_QUEUE_LATEST_ARRIVAL UINT64_C(4611686018427387904)

/*
 * The error codes of a queue.
 *
 * Order of trpc_queue_add: TRPC_QUEUE_INVALID, TRPC_QUEUE_ARRIVAL, TRPC_QUEUE_DUPLICATE, TRPC_QUEUE_FULL.
 * Order of trpc_queue_take: TRPC_QUEUE_INVALID, TRPC_QUEUE_EMPTY.
 * Order of trpc_queue_cancel: TRPC_QUEUE_INVALID, TRPC_QUEUE_ABSENT.
 */
enum trpc_queue_error {
    TRPC_QUEUE_DONE = 0,       /* the call did its work */
    TRPC_QUEUE_FULL = 21,      /* 64 jobs wait */
    TRPC_QUEUE_ARRIVAL = 22,   /* the arrival is above 2^62 */
    TRPC_QUEUE_EMPTY = 23,     /* nothing waits */
    TRPC_QUEUE_INVALID = 24,   /* the queue: count over 64, a waiting pair twice, or a waiting arrival above 2^62 */
    TRPC_QUEUE_DUPLICATE = 25, /* the job's pair waits already */
    TRPC_QUEUE_ABSENT = 26     /* the named pair doesn't wait */
};

/*
 * A job. Its pair of connection number and request id names it. `zero` fills the place before the arrival. It is 0 in a
 * job that was added and in a place that was freed. It moves with its job and is never looked at.
 */
struct trpc_job {
    uint32_t connection; /* the connection that the request came on */
    uint32_t request;    /* the request id of its fixed header, bytes 11-14 */
    uint32_t timeout;    /* in ms; 0 is no deadline */
    uint32_t zero;       /* 0 */
    uint64_t arrival;    /* in ms; at most 2^62 */
};

/*
 * A queue (docs/PROTOCOL.md, "Waiting jobs"). The first `count` jobs wait, in order of acceptance. What is past the
 * count is no job and is not looked at. The queue is in the caller's memory and is all of its state, so it may be
 * copied by assignment.
 */
struct trpc_queue {
    struct trpc_job jobs[TRPC_QUEUE_CAPACITY];
    size_t count;
};

/*
 * In each function below
 *
 * queue    a queue that can be read and written. Any values may be in it. trpc_queue_init takes them all. Every other
 *          function refuses a queue that is not valid with TRPC_QUEUE_INVALID.
 * removed  room for a job, outside the queue. Its values before the call don't matter.
 *
 * A call that is refused changes no byte of the queue, and leaves `removed` all zero.
 *
 *     struct trpc_queue queue;
 *     struct trpc_job job;
 *
 *     trpc_queue_init(&queue);
 *     trpc_queue_add(&queue, 1, 7, 4000000000, 0);      // connection 1, request 7
 *     trpc_queue_add(&queue, 1, 8, 600000, 0);
 *     if (trpc_queue_take(&queue, &job) == TRPC_QUEUE_DONE) {
 *         // job.request is 8: it is due first, and request 7 is left
 *     }
 */

/* Makes the queue one in which nothing waits. Every byte of it is 0 then. */
void trpc_queue_init(struct trpc_queue *queue);

/*
 * Puts a job after those that wait. jobs[count], whose values before don't matter, becomes the job, with `zero` 0, and
 * the count grows by one. The other jobs stay as they are. An arrival may be before those of jobs that were accepted
 * earlier: a clock that goes back is no fault.
 *
 * Returns a code of enum trpc_queue_error.
 */
uint32_t trpc_queue_add(struct trpc_queue *queue, uint32_t connection, uint32_t request, uint32_t timeout,
                        uint64_t arrival);

/*
 * Removes the job that is due first. It is the one whose arrival plus timeout is the least, as whole numbers that don't
 * wrap. Of several such it is the one accepted first. A job with no deadline comes after all that have one.
 *
 * Returns a code of enum trpc_queue_error. After 0 `removed` is the job removed, the jobs after it have moved up one,
 * the last place freed is all zero, and the count is one less. What is past the old count stays as it is.
 */
uint32_t trpc_queue_take(struct trpc_queue *queue, struct trpc_job *removed);

/*
 * Removes the job of a pair, connection number and request id.
 *
 * Returns a code of enum trpc_queue_error. After 0 queue and `removed` are as after trpc_queue_take.
 */
uint32_t trpc_queue_cancel(struct trpc_queue *queue, uint32_t connection, uint32_t request, struct trpc_job *removed);

#ifdef __cplusplus
}
#endif

#endif
