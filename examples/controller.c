/*
 * A small controller. A gateway's stream arrives in pieces of odd sizes; the frames are cut from it, the requests are
 * read, and a job is queued for each. A sensor's line has a ceiling of 4,096 bytes and a buffer of as many: a larger
 * frame is refused. Then the jobs are taken, the one that is due first before the others, and each is answered with a
 * response frame, under the ceiling of its line. bindings/rust/examples/controller.rs does the same and prints the
 * same.
 *
 *     cc -Iinclude examples/controller.c target/staticlib/lib{bekurapi,queue_in_place}.a -o target/controller
 *     target/controller
 */
#include <inttypes.h>
#include <stdio.h>
#include <stdlib.h>
#include <string.h>

#include "bekurapi.h"

/* The numbers of the connections. */
#define GATEWAY 1
#define SENSOR 2

/* The ceiling of the sensor's line. The gateway's is TRPC_MAX_FRAME. */
#define SENSOR_CEILING 4096

/* What is in the bytes after the sensor's buffer. */
#define GUARD 0xEE

/* The protocol version that gateway and sensor name in their fixed headers. Every version is read. */
#define VERSION 1

/* A request of the gateway. The jobs are due in the order 2, 1, 3; the second 2 is refused, since 2 waits already. */
struct order {
    uint32_t id;
    uint32_t timeout; /* in ms; 0 is no deadline */
    const char *func;
    const char *cell; /* the value of a key in the map */
    const char *body;
};

static const struct order orders[] = {
    {1, 4000000000, "/cell.Robot/Park", "4", ""},
    {2, 600000, "/cell.Robot/Pick", "4", "crate 12"},
    {3, 0, "/cell.Robot/Report", "7", "since noon"},
    {2, 5000, "/cell.Robot/Pick", "4", "crate 12, again"},
};

/* The bytes that the starts of a record and its rows refer to. */
struct source {
    uint8_t bytes[128];
    uint32_t length;
};

/* Puts a text after the others, and returns where it is. */
static struct trpc_span append(struct source *source, const char *text)
{
    struct trpc_span span = {source->length, (uint32_t)strlen(text)};

    memcpy(source->bytes + span.start, text, span.len);
    source->length += span.len;
    return span;
}

/* The size of the frame that a writer has written. That one is refused would be this program's fault. */
static size_t written(uint32_t error, size_t size)
{
    if (error != TRPC_WRITE_DONE) {
        fprintf(stderr, "controller: a frame was refused with %" PRIu32 "\n", error);
        exit(1);
    }
    return size;
}

static size_t write_order(const struct order *order, uint8_t *out, size_t room)
{
    struct source source = {.length = 0};
    struct trpc_row row = {.key = append(&source, "cell"), .value = append(&source, order->cell)};
    struct trpc_request request = {
        .id = order->id,
        .rows = 1,
        .request_id = order->id,
        .timeout = order->timeout,
        .func = append(&source, order->func),
        .header_version = VERSION,
    };
    size_t size;
    uint32_t error = trpc_write_request(&request, source.bytes, source.length, (const uint32_t *)&row, 4,
                                        (const uint8_t *)order->body, strlen(order->body), out, room, TRPC_MAX_FRAME,
                                        &size);

    return written(error, size);
}

/* The gateway: a Feedback frame, which is no request, the orders, the beginning of a frame that never gets whole. */
static size_t write_gateway(uint8_t *out, size_t room)
{
    static const uint8_t beginning[] = {0x09, 0x30, 0, 0, 0, 0, 0};
    struct trpc_feedback feedback = {.id = 5, .window_size_increment = 300, .header_version = VERSION};
    size_t length;
    uint32_t error = trpc_write_feedback(&feedback, NULL, 0, NULL, 0, NULL, 0, out, room, TRPC_MAX_FRAME, &length);

    length = written(error, length);
    for (size_t i = 0; i < sizeof orders / sizeof *orders; i++)
        length += write_order(&orders[i], out + length, room - length);
    memcpy(out + length, beginning, sizeof beginning);
    return length + sizeof beginning;
}

/* The sensor: a Data frame as large as its line takes, and the fixed header of one that is a byte larger. */
static size_t write_sensor(uint8_t *out, size_t room)
{
    static const uint8_t larger[TRPC_HEADER_SIZE] = {0x09, 0x30, 1, 2, 0, 0, 0x10, 0x01, 0, 0, 0, 0, 0, 9, VERSION, 0};
    static const uint8_t reading[SENSOR_CEILING - TRPC_HEADER_SIZE];
    struct trpc_data data = {.id = 9, .header_version = VERSION};
    size_t length;
    uint32_t error =
        trpc_write_data(&data, NULL, 0, NULL, 0, reading, sizeof reading, out, room, SENSOR_CEILING, &length);

    length = written(error, length);
    memcpy(out + length, larger, sizeof larger);
    return length + sizeof larger;
}

/* A part of the frame, as text. */
static void print_part(const char *before, const uint8_t *frame, struct trpc_span part)
{
    printf("%s%.*s", before, (int)part.len, (const char *)frame + part.start);
}

static void print_request(const struct trpc_request *request, const uint8_t *frame, const struct trpc_row *rows)
{
    printf("request %" PRIu32 ", version %u, timeout %" PRIu32, request->id, request->header_version, request->timeout);
    print_part(", func ", frame, request->func);
    for (uint32_t i = 0; i < request->rows; i++) {
        print_part(", ", frame, rows[i].key);
        print_part(" = ", frame, rows[i].value);
    }
    print_part(", body \"", frame, request->body);
    printf("\"\n");
}

/* The words for enum trpc_frame_type. */
static const char *const type_names[] = {"unary", "init", "data", "feedback", "close"};

/* A connection: its number, its ceiling, the deframer's state, and a buffer as long as the ceiling. */
struct line {
    uint32_t connection;
    uint32_t ceiling;
    size_t held;
    uint32_t error;
    uint8_t *buffer;
};

static uint8_t gateway_buffer[TRPC_MAX_FRAME];

/* The sensor's buffer, and bytes after it that are not to change. */
static struct {
    uint8_t buffer[SENSOR_CEILING], guard[64];
} sensor_room;

static struct line lines[] = {
    {.connection = GATEWAY, .ceiling = TRPC_MAX_FRAME, .buffer = gateway_buffer},
    {.connection = SENSOR, .ceiling = SENSOR_CEILING, .buffer = sensor_room.buffer},
};

/* The line with a connection's number. That there is none would be this program's fault. */
static struct line *line_of(uint32_t connection)
{
    for (size_t i = 0; i < sizeof lines / sizeof *lines; i++)
        if (lines[i].connection == connection)
            return &lines[i];
    fprintf(stderr, "controller: there is no connection %" PRIu32 "\n", connection);
    exit(1);
}

/* Whether the frame in the buffer may be a request; reports one that is not. The deframer has found its header good. */
static int is_unary(const struct line *line)
{
    uint32_t type, id;
    uint8_t version;
    size_t total, header_size;

    trpc_header_parse(line->buffer, TRPC_HEADER_SIZE, line->ceiling, &type, &total, &header_size, &id, &version);
    printf("frame of %zu bytes: ", total);
    if (type != TRPC_FRAME_UNARY)
        printf("%s of stream %" PRIu32 ", no request\n", type_names[type], id);
    return type == TRPC_FRAME_UNARY;
}

/* Reads the frame in the buffer as a request and queues a job for it. */
static void accept_frame(struct trpc_queue *queue, const struct line *line, size_t size, uint64_t now)
{
    const uint8_t *frame = line->buffer;
    struct trpc_request request;
    struct trpc_row rows[TRPC_ROW_NUMBERS / 4];
    uint32_t error;

    if (!is_unary(line))
        return;
    error = trpc_read_request(frame, size, line->ceiling, (uint32_t *)rows, TRPC_ROW_NUMBERS, &request);
    if (error != 0) {
        printf("bad, error %" PRIu32 "\n", error);
        return;
    }
    print_request(&request, frame, rows);
    error = trpc_queue_add(queue, line->connection, request.id, request.timeout, now);
    if (error == 0)
        printf("  queued at %" PRIu64 " ms, %zu waiting\n", now, queue->count);
    else
        printf("  not queued, error %" PRIu32 "\n", error);
}

/* Cuts the frames from a piece of the stream. Returns the error code, 0 for none. */
static uint32_t receive_piece(struct line *line, struct trpc_queue *queue, const uint8_t *piece, size_t length,
                              uint64_t now)
{
    size_t at = 0, taken, size;
    uint32_t code;

    do {
        code = trpc_deframe(&line->held, &line->error, line->buffer, line->ceiling, line->ceiling, piece + at,
                            length - at, &taken, &size);
        at += taken;
        if (size != 0)
            accept_frame(queue, line, size, now);
    } while (code == 0 && size != 0);
    return code;
}

static void print_end(const struct line *line)
{
    size_t short_by;
    uint32_t code = trpc_finish(line->held, line->error, line->buffer, line->ceiling, line->ceiling, &short_by);

    if (code != 0)
        printf("the stream is refused with %" PRIu32 "\n", code);
    else if (short_by != 0)
        printf("the stream ends short, with %zu bytes held\n", short_by);
    else
        printf("the stream ends clean\n");
}

/* Receives a stream in pieces of these sizes, over and over, one each millisecond, and reports its end. */
static void receive(struct line *line, struct trpc_queue *queue, const uint8_t *stream, size_t length,
                    const size_t *sizes, size_t count)
{
    uint32_t code = 0;

    for (uint64_t now = 0; length != 0 && code == 0; now++) {
        size_t size = sizes[now % count] < length ? sizes[now % count] : length;

        code = receive_piece(line, queue, stream, size, now);
        stream += size;
        length -= size;
    }
    print_end(line);
}

static void receive_gateway(struct trpc_queue *queue, const uint8_t *stream, size_t length)
{
    static const size_t sizes[] = {1, 7, 31, 3, 19, 113};

    receive(line_of(GATEWAY), queue, stream, length, sizes, sizeof sizes / sizeof *sizes);
}

/*
 * The Data frame comes in four pieces, and the header after it in two, 4 bytes and 12. Reports a byte after the buffer
 * that was changed: there is none.
 */
static void receive_sensor(struct trpc_queue *queue, const uint8_t *stream, size_t length)
{
    static const size_t size = 1025;
    struct line *line = line_of(SENSOR);

    memset(&sensor_room, GUARD, sizeof sensor_room);
    printf("the sensor's line has a ceiling of %" PRIu32 " bytes\n", line->ceiling);
    receive(line, queue, stream, length, &size, 1);
    for (size_t i = 0; i < sizeof sensor_room.guard; i++)
        if (sensor_room.guard[i] != GUARD)
            printf("byte %zu after the buffer was changed\n", i);
}

/* Answers a job, under the ceiling of the line that it came by. */
static void answer(const struct trpc_job *job)
{
    static const uint8_t done[] = {'d', 'o', 'n', 'e'};
    const struct line *line = line_of(job->connection);
    struct trpc_response response = {.id = job->request, .request_id = job->request};
    uint8_t frame[64];
    size_t size;
    uint32_t error = trpc_write_response(&response, NULL, 0, NULL, 0, done, sizeof done, frame, sizeof frame,
                                         line->ceiling, &size);

    size = written(error, size);
    printf("request %" PRIu32 " is due first; its response:", job->request);
    for (size_t i = 0; i < size; i++)
        printf(" %02x", frame[i]);
    printf("\n");
}

int main(void)
{
    static struct trpc_queue queue;
    static uint8_t stream[8192];
    struct trpc_job job;
    uint32_t error;

    trpc_queue_init(&queue);
    receive_gateway(&queue, stream, write_gateway(stream, sizeof stream));
    receive_sensor(&queue, stream, write_sensor(stream, sizeof stream));
    while ((error = trpc_queue_take(&queue, &job)) == TRPC_QUEUE_DONE)
        answer(&job);
    if (error != TRPC_QUEUE_EMPTY) {
        /* 24: something other than these functions has written to the queue. Jobs may wait in it. */
        printf("the queue is refused with %" PRIu32 "\n", error);
        return 1;
    }
    printf("nothing waits\n");
    return 0;
}
