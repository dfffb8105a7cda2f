/* The proved calls of a table laid over another, from C: a join and two look-ups are taken apart, and each kind of refusal. */
#include "wiphosega.h"

#include <stdio.h>
#include <string.h>

/* relay; handler 1 with the set 4, which is new, and handler 1 with the set 2, which replaces relay's; and the two joined */
static const uint32_t relay[] = {0x01000002, 0x02000000, 0x03000008, 0x04000000, 0x23000000, 0x13000001,
                                 0x14000000, 0x02000001, 0x03000002, 0x04000008, 0x24000002};
static const uint32_t over[] = {0x01000002, 0x02000001, 0x03000004, 0x04000008, 0x24000004, 0x02000001, 0x03000002, 0x04000000, 0x1c000000};
static const uint32_t both[] = {0x01000003, 0x02000000, 0x03000008, 0x04000000, 0x23000000, 0x13000001, 0x14000000, 0x02000001,
                                0x03000002, 0x04000000, 0x1c000000, 0x02000001, 0x03000004, 0x04000008, 0x24000004};

static int failures;

static void expect(int holds, const char *what) {
    if (!holds) {
        printf("overlay.c: %s\n", what);
        failures++;
    }
}

static void refuses(uint64_t answer, uint32_t number, uint32_t place, const char *what) {
    expect(WIPHOSEGA_REFUSED(answer) && WIPHOSEGA_NUMBER(answer) == number && WIPHOSEGA_PLACE(answer) == place, what);
}

/* The bytes of words, low byte first. */
static size_t bytes(const uint32_t *words, size_t count, uint8_t *out) {
    for (size_t i = 0; i < 4 * count; i++)
        out[i] = (uint8_t)(words[i / 4] >> 8 * (i % 4));
    return 4 * count;
}

/* A table of so many handlers with the set 1, from a name on, each of four words. */
static size_t handlers(uint32_t first, uint32_t count, uint8_t *out) {
    uint32_t words[129] = {0x01000000 + count};
    for (uint32_t i = 0; i < count; i++) {
        uint32_t block[] = {0x02000000 + first + i, 0x03000001, 0x04000000, 0x1c000000};
        memcpy(words + 1 + 4 * i, block, sizeof block);
    }
    return bytes(words, 1 + 4 * count, out);
}

int main(void) {
    uint8_t base[4096], overlay[4096], expected[4096], out[4096], untouched[4096];
    size_t b = bytes(relay, sizeof relay / 4, base), o = bytes(over, sizeof over / 4, overlay), e = bytes(both, sizeof both / 4, expected);
    memset(out, 0xa5, sizeof out);
    memset(untouched, 0xa5, sizeof untouched);

    refuses(wiphosega_join(base, b, overlay, o, out, e - 1), 50, 0, "a short output is written");
    refuses(wiphosega_join(base, b - 1, overlay, o - 1, out, sizeof out), 30, 0, "odd bytes of the base are joined");
    refuses(wiphosega_join(base, b, overlay, o - 1, out, sizeof out), 130, 0, "odd bytes of the overlay are joined");
    refuses(wiphosega_join(base, b - 4, overlay, o - 4, out, sizeof out), 8, 10, "a base that is cut short is joined");
    refuses(wiphosega_join(base, b, overlay, o - 4, out, sizeof out), 108, 8, "an overlay that is cut short is joined");
    expect(memcmp(out, untouched, sizeof out) == 0, "a refusal writes");
    expect(wiphosega_join(base, b, overlay, o, out, sizeof out) == e, "the join has another length");
    expect(memcmp(out, expected, e) == 0, "the join has other words");
    expect(memcmp(out + e, untouched, sizeof out - e) == 0, "the join writes behind its words");

    uint64_t answer = wiphosega_lookup(base, b, overlay, o, 1, 2);
    expect(!WIPHOSEGA_REFUSED(answer) && WIPHOSEGA_BLOCK_IN_OVERLAY(answer) && WIPHOSEGA_BLOCK_OFFSET(answer) == 20 && WIPHOSEGA_BLOCK_BYTES(answer) == 16,
           "handler 1 with the set 2 is elsewhere");
    answer = wiphosega_lookup(base, b, overlay, o, 0, 8);
    expect(!WIPHOSEGA_REFUSED(answer) && !WIPHOSEGA_BLOCK_IN_OVERLAY(answer) && WIPHOSEGA_BLOCK_OFFSET(answer) == 4 && WIPHOSEGA_BLOCK_BYTES(answer) == 24,
           "handler 0 with the set 8 is elsewhere");
    refuses(wiphosega_lookup(base, b, overlay, o, 0, 0x01000002), 47, 0, "a set over 24 bits is found");
    refuses(wiphosega_lookup(base, b, overlay, o - 2, 0, 8), 130, 0, "odd bytes of the overlay are searched");

    b = handlers(0, 31, base);
    expect(wiphosega_join(base, b, overlay, handlers(31, 1, overlay), out, sizeof out) == 4 * 129, "32 handlers are refused");
    refuses(wiphosega_join(base, b, overlay, bytes(over, sizeof over / 4, overlay), out, sizeof out), 48, 0, "33 handlers are joined");
    return failures != 0;
}
