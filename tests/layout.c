/*
 * The layout that the library expects of the structs in include/bekurapi.h. Compiled only, with -Wpadded: no struct has
 * a byte that is no member's.
 */
#include "bekurapi.h"

#define AT(type, member, number) _Static_assert(offsetof(struct type, member) == 4 * (number), #type ": " #member)
#define BYTE(type, member, byte) _Static_assert(offsetof(struct type, member) == (byte), #type ": " #member)
#define NUMBERS_25(type) _Static_assert(sizeof(struct type) == 4 * 25 && _Alignof(struct type) == 4, #type)

/* What each record begins and ends with. The version is the low byte of number 24, which is its first. */
#define RECORD(type)                                                                                                   \
    NUMBERS_25(type);                                                                                                  \
    AT(type, id, 0);                                                                                                   \
    AT(type, rows, 1);                                                                                                 \
    AT(type, header, 2);                                                                                               \
    AT(type, body, 4);                                                                                                 \
    AT(type, attachment, 6);                                                                                           \
    AT(type, header_version, 24);                                                                                      \
    BYTE(type, unused, 4 * 24 + 1)

_Static_assert(__BYTE_ORDER__ == __ORDER_LITTLE_ENDIAN__, "the low byte of a number is its first");

_Static_assert(sizeof(struct trpc_span) == 8, "a start and a length");
_Static_assert(sizeof(struct trpc_row) == 16, "four numbers");
AT(trpc_span, len, 1);
AT(trpc_row, value, 2);

RECORD(trpc_request);
AT(trpc_request, version, 8);
AT(trpc_request, call_type, 9);
AT(trpc_request, request_id, 10);
AT(trpc_request, timeout, 11);
AT(trpc_request, caller, 12);
AT(trpc_request, callee, 14);
AT(trpc_request, func, 16);
AT(trpc_request, message_type, 18);
AT(trpc_request, content_type, 19);
AT(trpc_request, content_encoding, 20);
AT(trpc_request, attachment_size, 21);
AT(trpc_request, zero, 22);

RECORD(trpc_response);
AT(trpc_response, version, 8);
AT(trpc_response, call_type, 9);
AT(trpc_response, request_id, 10);
AT(trpc_response, ret, 11);
AT(trpc_response, func_ret, 12);
AT(trpc_response, error_msg, 13);
AT(trpc_response, message_type, 15);
AT(trpc_response, content_type, 16);
AT(trpc_response, content_encoding, 17);
AT(trpc_response, attachment_size, 18);
AT(trpc_response, zero, 19);

RECORD(trpc_init);
AT(trpc_init, request_meta_present, 8);
AT(trpc_init, caller, 9);
AT(trpc_init, callee, 11);
AT(trpc_init, func, 13);
AT(trpc_init, message_type, 15);
AT(trpc_init, response_meta_present, 16);
AT(trpc_init, ret, 17);
AT(trpc_init, error_msg, 18);
AT(trpc_init, init_window_size, 20);
AT(trpc_init, content_type, 21);
AT(trpc_init, content_encoding, 22);
AT(trpc_init, zero, 23);

RECORD(trpc_data);
AT(trpc_data, zero, 8);

RECORD(trpc_feedback);
AT(trpc_feedback, window_size_increment, 8);
AT(trpc_feedback, zero, 9);

RECORD(trpc_close);
AT(trpc_close, close_type, 8);
AT(trpc_close, ret, 9);
AT(trpc_close, msg, 10);
AT(trpc_close, message_type, 12);
AT(trpc_close, func_ret, 13);
AT(trpc_close, zero, 14);

_Static_assert(sizeof(struct trpc_job) == 24, "a job");
AT(trpc_job, connection, 0);
AT(trpc_job, request, 1);
AT(trpc_job, timeout, 2);
AT(trpc_job, zero, 3);
AT(trpc_job, arrival, 4);

_Static_assert(sizeof(struct trpc_queue) == 64 * 24 + 8, "a queue");
AT(trpc_queue, jobs, 0);
AT(trpc_queue, count, 64 * 6);
