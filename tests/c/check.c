/* The proved check of an estimate from elsewhere, from C: the library's own estimates of relay, narrow and wide, and of 41 handlers pass, and each kind of
   refusal is taken apart. */
#include "wiphosega.h"

#include <stdio.h>
#include <string.h>

enum { MOST_SYSTEM = 256, MOST_ESTIMATE = 5888 };

static uint8_t system_bytes[4 * MOST_SYSTEM], own[4 * MOST_ESTIMATE], bytes[4 * MOST_ESTIMATE + 4], work[16 * MOST_SYSTEM], large[1028];
/* Of the system at hand: its words, the words of a row, of those the words of the plain elements, and the bytes of both slices. */
static size_t count, row, lead, size, own_size;
static int failures;

static void expect(int holds, const char *what) {
    if (!holds) {
        printf("check.c: %s\n", what);
        failures++;
    }
}

static void refuses(uint64_t answer, uint32_t number, uint32_t place, const char *what) {
    expect(WIPHOSEGA_REFUSED(answer) && WIPHOSEGA_NUMBER(answer) == number && WIPHOSEGA_PLACE(answer) == place, what);
}

/* The system of these words, and the library's own estimate of it, which leaks permission 1. */
static void begin(const uint32_t *words, size_t n) {
    static uint8_t before[sizeof own];
    count = n, size = 4 * n;
    lead = words[0] >> 24 == 5 ? 3 : 2, row = (32 * lead + n + 31) / 32, own_size = 4 * (2 * n * row + n);
    for (size_t i = 0; i < size; i++) system_bytes[i] = (uint8_t)(words[i / 4] >> 8 * (i % 4));
    expect(wiphosega_verdict(system_bytes, size, 0, 0, own, own_size, work, sizeof work) == (2 | 1 << 24), "another set leaks");
    memcpy(before, own, own_size);
    expect(wiphosega_check(system_bytes, size, 0, own, own_size) == 2, "the own estimate does not pass");
    expect(memcmp(before, own, own_size) == 0, "the estimate is written to");
}

/* The own estimate with one bit of a word turned over. */
static uint64_t turned(size_t word, unsigned bit) {
    memcpy(bytes, own, own_size);
    bytes[4 * word + bit / 8] ^= (uint8_t)(1u << bit % 8);
    return wiphosega_check(system_bytes, size, 0, bytes, own_size);
}

/* Where C(i) starts, and the word of P(i) and its flag. */
static size_t values(size_t i) { return 2 * i * row; }
static size_t flag(size_t i) { return 2 * count * row + i; }

static void relay(uint32_t first) {
    const uint32_t words[] = {first,      0x02000000, 0x03000008, 0x04000000, 0x23000000, 0x13000001,
                              0x14000000, 0x02000001, 0x03000002, 0x04000008, 0x24000002};
    begin(words, sizeof words / sizeof *words);
    refuses(wiphosega_check(system_bytes, size, 1 << 24, own, own_size), 20, 0, "a permission above 23 is taken");
    refuses(wiphosega_check(system_bytes, size, 0, own, own_size - 4), 52, 0, "a word less is taken");
    refuses(wiphosega_check(system_bytes, size, 0, bytes, own_size + 4), 52, 0, "a word more is taken");
    refuses(wiphosega_check(system_bytes, size, 0, own, own_size - 1), 52, 0, "odd bytes are taken");
    refuses(wiphosega_check(system_bytes, size - 4, 0, own, own_size), 8, 10, "a table without its last word is taken");
    refuses(wiphosega_check(system_bytes, size - 1, 0, own, own_size), 30, 0, "odd bytes of a system are taken");
    refuses(wiphosega_check(large, sizeof large, 0, own, own_size), 31, 0, "a system of 257 words is taken");
    refuses(turned(flag(10), 25), 53, (uint32_t)flag(10), "bit 25 of the last word is taken");
    refuses(turned(values(0) + lead, 4), 53, (uint32_t)lead, "the element of a send is taken in C(0)");
    refuses(turned(values(7) + lead, 4), 53, (uint32_t)(values(7) + lead), "the element of a send is taken in C(7)");
    refuses(turned(values(7) + lead, 1), 54, 7, "the sender of the block at 7 may be missing");
    refuses(turned(flag(7), 24), 54, 4, "the live flag of the receiver may be missing");
    expect(turned(flag(1), 0) == 3, "a permission more in P(1) is not read");
}

/* Each of 41 handlers hands its message to the next, the last exercises: block i starts at word 1 + 6i, and its send is the fourth word of it. */
static void forty_one(void) {
    uint32_t words[245] = {0x05000029};
    size_t n = 1;
    for (uint32_t i = 0; i < 41; i++) {
        words[n++] = 0x02000000 + i;
        words[n++] = 0x0300000a;
        words[n++] = i ? 0x04000008 : 0x04000000;
        words[n++] = i < 40 ? 0x23000000 : 0x24000002;
        if (i < 40) words[n++] = 0x13000001 + i, words[n++] = 0x14000000;
    }
    begin(words, n);
    refuses(turned(flag(241), 24), 54, 238, "the live flag of the last handler may be missing");
    refuses(turned(values(241) + lead + 235 / 32, 235 % 32), 54, 241, "the sender of the last handler may be missing");
    refuses(turned(values(239) + 2, 40 - 32), 54, 239, "a name over 31 may be missing");
    refuses(turned(values(1) + row, 31), 54, 1, "an element of all 96 may be missing");
    refuses(turned(values(1) + row + 2, 31), 54, 1, "the last element of all 96 may be missing");
}

int main(void) {
    relay(0x01000002);
    /* element 95 is past the words of a narrow relay, and a name of a wide one */
    refuses(turned(values(5) + 2, 31), 53, (uint32_t)(values(5) + 2), "element 95 is taken");
    relay(0x05000002);
    expect(turned(values(5) + 2, 31) == 2, "name 63 is not taken");
    system_bytes[3] = 1;
    refuses(wiphosega_check(system_bytes, size, 0, own, own_size), 52, 0, "an estimate of a wide table is taken for a narrow one");
    forty_one();
    return failures != 0;
}
