/* Calls the proved library as a build tool in C does: every sample of document 01, wide tables, every refusal, and what becomes of the bytes of both
   slices. Prints one line, and exits 1 at the first difference. */
#include "wiphosega.h"
#include <stdio.h>
#include <stdlib.h>
#include <string.h>

#define REFUSED(number, place) ((UINT64_C(1) << 32) + (uint64_t)(number) * 65536 + (place))
#define OVER (UINT64_C(1) << 24)
#define BLOCK " 02000000 03000003 04000000 "
#define HANDLER "01000001" BLOCK
#define WIDE_HANDLER "05000001" BLOCK
#define RELAY(required) "01000002 02000000 03000008 04000000 " required " 13000001 14000000 02000001 03000002 04000008 24000002"

enum { MOST_ESTIMATE = 4 * 5888, MOST_WORK = 4 * 1024, SPARE = 7, FILL = 0xa5 };

static int calls;

static void fail(const char *name, const char *what) {
    printf("%s: %s\n", name, what);
    exit(1);
}

/* The bytes of the words, which are written in hexadecimal. */
static size_t bytes_of(const char *words, uint8_t *bytes) {
    size_t n = 0;
    while (*words) {
        char *end;
        unsigned long word = strtoul(words, &end, 16);
        for (int i = 0; i < 4; i++) bytes[n++] = (uint8_t)(word >> 8 * i);
        words = end + strspn(end, " ");
    }
    return n;
}

static int filled(const uint8_t *from, const uint8_t *to, uint8_t byte) {
    while (from < to && *from == byte) from++;
    return from == to;
}

/* One call with slices of these bytes. All bytes past the words that the call may change stay, and all of them after a refusal. */
static void check(const char *name, const uint8_t *system, size_t bytes, uint32_t rho, uint32_t bound, size_t estimate_bytes,
                  size_t work_bytes, uint64_t expected) {
    static uint8_t estimate[MOST_ESTIMATE + SPARE], work[MOST_WORK + SPARE];
    size_t w = bytes / 4, plain = w && system[3] == 5 ? 96 : 64, changed = 4 * (2 * w * ((plain + w + 31) / 32) + w), cleared = 16 * w;
    memset(estimate, FILL, sizeof estimate);
    memset(work, FILL, sizeof work);
    uint64_t answer = wiphosega_verdict(system, bytes, rho, bound, estimate, estimate_bytes, work, work_bytes);
    if (answer != expected) {
        printf("answer %llx, expected %llx\n", (unsigned long long)answer, (unsigned long long)expected);
        fail(name, "another answer");
    }
    if (answer >> 32) changed = cleared = 0;
    if (!filled(work, work + cleared, 0)) fail(name, "the work words are not zero");
    if (!filled(work + cleared, work + sizeof work, FILL)) fail(name, "a work byte changed");
    if (!filled(estimate + changed, estimate + sizeof estimate, FILL)) fail(name, "an estimate byte changed");
    calls++;
}

static void sample(const char *words, uint32_t rho, uint32_t bound, uint64_t expected) {
    static uint8_t system[1024];
    size_t bytes = bytes_of(words, system);
    check(words, system, bytes, rho, bound, MOST_ESTIMATE + SPARE, MOST_WORK + SPARE, expected);
}

static void samples(void) {
    sample("01000000", 0, 0, 0);
    sample(HANDLER "24000002", 0, 0, 2 + OVER);
    sample(HANDLER "24000002", 0, 2, 2);
    sample("01000001 02000000 03000003 04000004 24000002", 0, 0, 0);
    sample("01000001 02000000 03000003 04000004 24000002", 4, 0, 2 + OVER);
    sample("01000001 02000000 03000003 04000004 24000002", 6, 2, 2);
    sample("01000001 02000000 03000003 04000004 24000002", 6, WIPHOSEGA_STANDING_BOUND, 2 + OVER);
    sample(HANDLER "24000002", 0, WIPHOSEGA_STANDING_BOUND, 2 + OVER);
    sample(HANDLER "24000002", 2, WIPHOSEGA_STANDING_BOUND, 2 + OVER);
    sample(HANDLER "24000004", 2, WIPHOSEGA_STANDING_BOUND, 0);
    sample(HANDLER "24000004", 0, 0, 0);
    sample(HANDLER "19000000 10000002 24000001 24000002", 0, 0, 1 + OVER);
    sample(HANDLER "19000000 14000000 24000001 24000002", 0, 0, 3 + OVER);
    sample(HANDLER "16000000 15000000 24000001 10000000", 0, 0, 1 + OVER);
    sample(HANDLER "15000000 24000001", 0, 0, 0);
    sample(RELAY("23000000"), 0, 0, 2 + OVER);
    sample(RELAY("23000001"), 0, 0, 0);
    sample("01000003 02000000 03000008 04000000 23000004 13000001 14000000 02000001 03000002 04000008 24000002 "
           "02000001 03000004 04000008 24000004", 0, 0, 4 + OVER);
}

/* 41 handlers of which each hands its message to the next; the first alone is open to the opponent, the last alone exercises. */
static void forty_one(const char *kind, uint64_t expected) {
    static char words[9 * 256];
    size_t n = (size_t)sprintf(words, "%s000029", kind);
    for (unsigned i = 0; i < 41; i++) {
        n += (size_t)sprintf(words + n, " 020000%02x 0300000a 0400000%u", i, i ? 8u : 0u);
        n += (size_t)(i < 40 ? sprintf(words + n, " 23000000 130000%02x 14000000", i + 1) : sprintf(words + n, " 24000002"));
    }
    sample(words, 0, 0, expected);
}

/* Sixty-four handlers and names 0 to 63; a narrow table keeps its limits. */
static void wide_samples(void) {
    sample("05000000", 0, 0, 0);
    sample(WIDE_HANDLER "24000002", 0, 0, 2 + OVER);
    sample(WIDE_HANDLER "24000002", 0, 2, 2);
    sample(WIDE_HANDLER "24000004", 2, WIPHOSEGA_STANDING_BOUND, 0);
    sample("05000002 02000000 03000008 04000000 23000000 13000001 14000000 02000001 03000002 04000008 24000002", 0, 0, 2 + OVER);
    /* a message to name 63; the message itself may be that name; names over 31 that are equal, and that are not */
    sample("05000002 02000000 03000008 04000000 23000000 1300003f 14000000 0200003f 03000002 04000008 24000002", 0, 0, 2 + OVER);
    sample("05000002 02000000 03000008 04000000 23000000 14000000 10000001 0200003f 03000002 04000008 24000002", 0, 0, 2 + OVER);
    sample(WIDE_HANDLER "19000000 1b000002 13000028 13000028 24000001 24000002", 0, 0, 1 + OVER);
    sample(WIDE_HANDLER "19000000 1b000002 13000028 13000029 24000001 24000002", 0, 0, 2 + OVER);
    forty_one("05", 2 + OVER);
    forty_one("01", REFUSED(3, 0));
    sample("05000041", 0, 0, REFUSED(3, 0));
    sample("05000040", 0, 0, REFUSED(4, 1));
    sample("05000001 0200003f 03000003 04000000 24000002", 0, 0, 2 + OVER);
    sample("05000001 02000040 03000003 04000000 24000002", 0, 0, REFUSED(5, 1));
    sample(WIDE_HANDLER "1300003f", 0, 0, 0);
    sample(WIDE_HANDLER "13000040", 0, 0, REFUSED(9, 4));
    sample(HANDLER "1300001f", 0, 0, 0);
    sample(HANDLER "13000020", 0, 0, REFUSED(9, 4));
    sample("05000000 05000000", 0, 0, REFUSED(12, 1));
    sample(WIDE_HANDLER "24000002", 0x1000000, 0, REFUSED(20, 0));
}

/* A chain of functions, the innermost at this depth. */
static void nested(size_t depth, uint64_t expected) {
    char words[9 * 70 + 1] = HANDLER;
    for (size_t i = 1; i < depth; i++) strcat(words, "15000000 ");
    sample(strcat(words, "10000000"), 0, 0, expected);
}

static void refusals(void) {
    static uint8_t large[1028];
    sample("", 0, 0, REFUSED(1, 0));
    sample("02000000", 0, 0, REFUSED(1, 0));
    sample("01000021", 0, 0, REFUSED(3, 0));
    sample("01000020", 0, 0, REFUSED(4, 1));
    sample("01000001 03000000", 0, 0, REFUSED(4, 1));
    sample("01000001 02000020", 0, 0, REFUSED(5, 1));
    sample("01000002 02000000 03000003 04000000 10000000 02000000 03000003", 0, 0, REFUSED(6, 6));
    sample(HANDLER "04000000", 0, 0, REFUSED(7, 4));
    sample(HANDLER "25000000", 0, 0, REFUSED(7, 4));
    sample(HANDLER "18000000 10000000", 0, 0, REFUSED(8, 6));
    sample(HANDLER "10000004", 0, 0, REFUSED(9, 4));
    sample(HANDLER "14000001", 0, 0, REFUSED(10, 4));
    nested(64, 0);
    nested(65, REFUSED(11, 68));
    sample("01000000 01000000", 0, 0, REFUSED(12, 1));
    sample(HANDLER "24000002", 0x1000000, 0, REFUSED(20, 0));
    sample(HANDLER "24000002", WIPHOSEGA_STANDING_BOUND, 0, REFUSED(20, 0));
    sample(HANDLER "24000002", 0, WIPHOSEGA_STANDING_BOUND + 1, REFUSED(20, 0));
    sample(HANDLER "24000002", 0, 0x1000000, REFUSED(20, 0));
    sample("01000021", 0x1000000, 0x1000000, REFUSED(3, 0));
    check("1,028 bytes", large, 1028, 0, 0, MOST_ESTIMATE, MOST_WORK, REFUSED(31, 0));
    check("1,025 bytes", large, 1025, 0, 0, 0, 0, REFUSED(31, 0));
    check("1,024 bytes", large, 1024, 0, 0, 0, 0, REFUSED(1, 0));
    check("3 bytes", large, 3, 0, 0, MOST_ESTIMATE, MOST_WORK, REFUSED(30, 0));
}

/* The two samples that are longer than the interface takes: 31 handlers of 33 words, new cells around the message, and one word more. */
static void long_samples(void) {
    static uint8_t system[4 * 1025];
    char block[9 * 33 + 1];
    size_t bytes = bytes_of("0100001f", system);
    for (int i = 0; i < 31; i++) {
        sprintf(block, "02000000 030000%02x 04000000 ", i);
        for (int k = 0; k < 29; k++) strcat(block, "20000000 ");
        bytes += bytes_of(strcat(block, "14000000"), system + bytes);
    }
    check("1,024 words", system, bytes, 0, 0, MOST_ESTIMATE, MOST_WORK, REFUSED(31, 0));
    check("1,025 words", system, bytes + bytes_of("20000000", system + bytes), 0, 0, MOST_ESTIMATE, MOST_WORK, REFUSED(31, 0));
}

/* Five words need 2 * 5 * 3 + 5 words of estimate, or 2 * 5 * 4 + 5 of a wide table, and 20 of work. */
static void fitting(const char *words, size_t estimate_words) {
    uint8_t system[20];
    size_t bytes = bytes_of(words, system);
    check("slices that just fit", system, bytes, 0, 0, 4 * estimate_words, 4 * 20, 2 + OVER);
    check("odd bytes after them", system, bytes, 0, 0, 4 * estimate_words + 3, 4 * 20 + 3, 2 + OVER);
    check("an estimate one byte short", system, bytes, 0, 0, 4 * estimate_words - 1, 4 * 20, REFUSED(21, 0));
    check("work one byte short", system, bytes, 0, 0, 4 * estimate_words, 4 * 20 - 1, REFUSED(22, 0));
    check("both short", system, bytes, 0, 0, 0, 0, REFUSED(21, 0));
}

static void slices(void) {
    uint8_t system[20], none = 0;
    size_t bytes = bytes_of(HANDLER "24000002", system);
    fitting(HANDLER "24000002", 35);
    fitting(WIDE_HANDLER "24000002", 45);
    check("no system", &none, 0, 0, 0, 0, 0, REFUSED(1, 0));
    if (wiphosega_verdict(&none, 0, 0, 0, &none, 0, &none, 0) != REFUSED(1, 0)) fail("slices of no length", "another answer");
    if (wiphosega_verdict(system, bytes, 0, 0, &none, 0, &none, 0) != REFUSED(21, 0)) fail("slices of no length", "another answer");
    calls += 2;
    uint8_t estimate[4 * 35], work[4 * 20];
    if (wiphosega_verdict_nullable(NULL, 0, 0, 0, NULL, 0, NULL, 0) != REFUSED(1, 0)) fail("null for each slice", "another answer");
    if (wiphosega_verdict_nullable(system, bytes, 0, 0, NULL, 0, NULL, 0) != REFUSED(21, 0)) fail("null for the estimate", "another answer");
    if (wiphosega_verdict_nullable(system, bytes, 0, 0, estimate, sizeof estimate, NULL, 0) != REFUSED(22, 0)) fail("null for work", "another answer");
    if (wiphosega_verdict_nullable(system, bytes, 0, 0, estimate, sizeof estimate, work, sizeof work) != 2 + OVER) fail("no null", "another answer");
    calls += 4;
}

/* The estimate of `direct`: the opponent may have sent to the block, which holds all 64, or all 96, its body has unit, and both have permission 1 and the
   flag. `lead` words of a row hold those elements, and one more the made ones. */
static void estimate_of_direct(const char *words, size_t lead) {
    uint8_t system[20], estimate[4 * 45], work[4 * 20], expected[4 * 45] = {0};
    size_t bytes = bytes_of(words, system), row = lead + 1, flags = 2 * 5 * row, size = 4 * (flags + 5);
    memset(estimate, FILL, sizeof estimate);
    if (wiphosega_verdict(system, bytes, 0, 0, estimate, size, work, sizeof work) != 2 + OVER) fail(words, "another answer");
    expected[4 * (2 * 1 * row)] = 1 << 7;
    memset(expected + 4 * (2 * 1 * row + row), 0xff, 4 * lead);
    expected[4 * (2 * 4 * row)] = 1 << 1;
    expected[4 * (flags + 1)] = expected[4 * (flags + 4)] = 2;
    expected[4 * (flags + 1) + 3] = expected[4 * (flags + 4) + 3] = 1;
    if (memcmp(estimate, expected, size)) fail(words, "another estimate");
    calls++;
}

int main(void) {
    samples();
    wide_samples();
    refusals();
    long_samples();
    slices();
    estimate_of_direct(HANDLER "24000002", 2);
    estimate_of_direct(WIDE_HANDLER "24000002", 3);
    printf("C: %d calls answered as expected\n", calls);
    return 0;
}
