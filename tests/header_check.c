/*
 * trpc_header_check and trpc_header_parse, as a C program calls them, against a check that is written here on its own:
 * the headers of document 01's examples with the codes that it gives, every value of every byte of several headers under
 * several ceilings, every pair of values of the last two bytes, and every length from 0 to 40.
 */
#include <stdio.h>
#include <stdlib.h>
#include <string.h>

#include "bekurapi.h"

static unsigned long checks;

/* In range and out of it. */
static const uint32_t ceilings[] = {0, 15, 16, 17, 19, 20, 4095, 4096, 65535, 65536, 65537, UINT32_MAX};

static uint32_t be32(const uint8_t *bytes)
{
    return (uint32_t)bytes[0] << 24 | (uint32_t)bytes[1] << 16 | (uint32_t)bytes[2] << 8 | bytes[3];
}

/*
 * Document 01, "The 16 bytes" and "Refusal numbers", as one condition after another. By document 02 no condition is about
 * bytes 15 and 16, and the ceiling is the first.
 */
static uint32_t expected(const uint8_t *h, size_t len, uint32_t ceiling)
{
    if (ceiling < 16 || ceiling > 65536)
        return 41;
    if (len != 16)
        return 9;

    uint32_t magic = (uint32_t)h[0] << 8 | h[1];
    uint32_t total = be32(h + 4);
    uint32_t header_size = (uint32_t)h[8] << 8 | h[9];
    int unary = h[2] == 0;

    return magic != 0x0930                                         ? 3
           : h[2] > 1                                              ? 4
           : !unary && (h[3] < 1 || h[3] > 4)                      ? 5
           : total < 16 || total > ceiling                         ? 6
           : (unary ? header_size + 16 > total : header_size != 0) ? 7
                                                                   : 0;
}

static void fail(const char *what, const uint8_t *bytes, size_t len, uint32_t ceiling, uint32_t want, uint32_t got)
{
    fprintf(stderr, "header_check: %s: ceiling %u, %zu bytes", what, (unsigned)ceiling, len);
    for (size_t i = 0; i < len; i++)
        fprintf(stderr, " %02X", bytes[i]);
    fprintf(stderr, ": expected %u, got %u\n", (unsigned)want, (unsigned)got);
    exit(1);
}

/* What a good header says; all zero where it is refused. Nothing beside the version is written. */
static void check_parse(const uint8_t *bytes, size_t len, uint32_t ceiling, uint32_t want)
{
    static const uint8_t beside[8] = {99, 99, 99, 99, 99, 99, 99, 99};
    struct {
        uint8_t before[8], version, after[8];
    } lent;
    uint32_t type = 99, id = 99;
    size_t total = 99, header_size = 99;
    memset(&lent, 99, sizeof lent);
    uint32_t got = trpc_header_parse(bytes, len, ceiling, &type, &total, &header_size, &id, &lent.version);
    uint8_t version = lent.version;
    if (got != want)
        fail("the code of the parser", bytes, len, ceiling, want, got);
    if (memcmp(lent.before, beside, sizeof beside) != 0 || memcmp(lent.after, beside, sizeof beside) != 0)
        fail("a byte beside the version was written", bytes, len, ceiling, want, got);
    int right = want != 0 ? type == 0 && total == 0 && header_size == 0 && id == 0 && version == 0
                          : type == (bytes[2] == 0 ? 0u : bytes[3]) && total == be32(bytes + 4) &&
                                header_size == bytes[8] * 256u + bytes[9] && id == be32(bytes + 10) &&
                                version == bytes[14];
    if (!right)
        fail("what the header says", bytes, len, ceiling, want, got);
}

static void check(const char *what, const uint8_t *bytes, size_t len, uint32_t ceiling, uint32_t want)
{
    uint8_t before[64];
    memcpy(before, bytes, len);
    uint32_t got = trpc_header_check(bytes, len, ceiling);
    if (got != want)
        fail(what, bytes, len, ceiling, want, got);
    check_parse(bytes, len, ceiling, want);
    if (memcmp(before, bytes, len) != 0)
        fail("the bytes were changed", bytes, len, ceiling, want, got);
    checks++;
}

/* Under each ceiling, the code that is expected here. */
static void check_ceilings(const char *what, const uint8_t *bytes, size_t len)
{
    for (size_t i = 0; i < sizeof ceilings / sizeof *ceilings; i++)
        check(what, bytes, len, ceilings[i], expected(bytes, len, ceilings[i]));
}

struct row {
    const char *what;
    uint8_t header[16];
    uint32_t code;
};

/*
 * The rows of document 01's "Checked examples" that are about a header, one or more for each other code, and bytes 15 and
 * 16 at values that were refused before document 02. The codes are those under the largest ceiling.
 */
static const struct row rows[] = {
    {"unary, id 7", {0x09, 0x30, 0, 0, 0, 0, 0, 16, 0, 0, 0, 0, 0, 7, 0, 0}, 0},
    {"total 15", {0x09, 0x30, 0, 0, 0, 0, 0, 15, 0, 0, 0, 0, 0, 7, 0, 0}, 6},
    {"total 65,536", {0x09, 0x30, 0, 0, 0, 1, 0, 0, 0, 0, 0, 0, 0, 7, 0, 0}, 0},
    {"total 65,537", {0x09, 0x30, 0, 0, 0, 1, 0, 1, 0, 0, 0, 0, 0, 7, 0, 0}, 6},
    {"magic 30 09", {0x30, 0x09, 0, 0, 0, 0, 0, 16, 0, 0, 0, 0, 0, 7, 0, 0}, 3},
    {"stream type 0", {0x09, 0x30, 1, 0, 0, 0, 0, 16, 0, 0, 0, 0, 0, 7, 0, 0}, 5},
    {"stream type 4", {0x09, 0x30, 1, 4, 0, 0, 0, 16, 0, 0, 0, 0, 0, 7, 0, 0}, 0},
    {"stream type 5", {0x09, 0x30, 1, 5, 0, 0, 0, 16, 0, 0, 0, 0, 0, 7, 0, 0}, 5},
    {"unary total 20, header size 4", {0x09, 0x30, 0, 0, 0, 0, 0, 20, 0, 4, 0, 0, 0, 7, 0, 0}, 0},
    {"unary total 20, header size 5", {0x09, 0x30, 0, 0, 0, 0, 0, 20, 0, 5, 0, 0, 0, 7, 0, 0}, 7},
    {"stream, header size 1", {0x09, 0x30, 1, 2, 0, 0, 0, 20, 0, 1, 0, 0, 0, 7, 0, 0}, 7},
    {"the listing's Feedback", {0x09, 0x30, 1, 3, 0, 0, 0, 19, 0, 0, 0, 0, 0, 5, 0, 0}, 0},
    {"data type 2", {0x09, 0x30, 2, 1, 0, 0, 0, 16, 0, 0, 0, 0, 0, 7, 0, 0}, 4},
    {"byte 15 at 1", {0x09, 0x30, 0, 0, 0, 0, 0, 16, 0, 0, 0, 0, 0, 7, 1, 0}, 0},
    {"byte 16 at FF", {0x09, 0x30, 0, 0, 0, 0, 0, 16, 0, 0, 0, 0, 0, 7, 0, 0xFF}, 0},
    {"stream, bytes 15 and 16 at FF", {0x09, 0x30, 1, 2, 0, 0, 0, 16, 0, 0, 0, 0, 0, 7, 0xFF, 0xFF}, 0},
    {"a unary frame's stream type", {0x09, 0x30, 0, 9, 0, 0, 0, 16, 0, 0, 0, 0, 0, 7, 0, 0}, 0},
    {"every rule broken", {0x30, 0x09, 2, 9, 0, 0, 0, 0, 1, 1, 0, 0, 0, 7, 1, 1}, 3},
    {"all but the magic", {0x09, 0x30, 2, 9, 0, 0, 0, 0, 1, 1, 0, 0, 0, 7, 1, 1}, 4},
    {"from the stream type", {0x09, 0x30, 1, 9, 0, 0, 0, 0, 1, 1, 0, 0, 0, 7, 1, 1}, 5},
    {"from the total", {0x09, 0x30, 1, 1, 0, 0, 0, 0, 1, 1, 0, 0, 0, 7, 1, 1}, 6},
    {"from the header size", {0x09, 0x30, 1, 1, 0, 0, 0, 16, 1, 1, 0, 0, 0, 7, 1, 1}, 7},
};

int main(void)
{
    const size_t count = sizeof rows / sizeof rows[0];
    uint8_t bytes[40];

    for (size_t r = 0; r < count; r++) {
        check(rows[r].what, rows[r].header, 16, TRPC_MAX_FRAME, rows[r].code);
        check_ceilings("the two checks", rows[r].header, 16);
    }

    /* every value of every byte of every row */
    for (size_t r = 0; r < count; r++)
        for (size_t at = 0; at < 16; at++)
            for (unsigned value = 0; value < 256; value++) {
                memcpy(bytes, rows[r].header, 16);
                bytes[at] = (uint8_t)value;
                check_ceilings("a byte changed", bytes, 16);
            }

    /* every pair of values of bytes 15 and 16 of every row: the code stays that of the row */
    for (size_t r = 0; r < count; r++)
        for (unsigned values = 0; values < 65536; values++) {
            memcpy(bytes, rows[r].header, 14);
            bytes[14] = (uint8_t)(values >> 8);
            bytes[15] = (uint8_t)values;
            check("bytes 15 and 16", bytes, 16, TRPC_MAX_FRAME, rows[r].code);
        }

    /* every length, of headers with other bytes after them */
    for (size_t r = 0; r < count; r++)
        for (size_t len = 0; len <= 40; len++) {
            memset(bytes, 0xA5, sizeof bytes);
            memcpy(bytes, rows[r].header, 16);
            check_ceilings("a length", bytes, len);
        }

    printf("header_check: %lu checks passed\n", checks);
    return 0;
}
