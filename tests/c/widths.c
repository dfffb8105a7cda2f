/* The proved converters, from C: direct made wide and narrow again, and each kind of refusal. */
#include "wiphosega.h"

#include <stdio.h>
#include <string.h>

static const uint32_t direct[] = {0x01000001, 0x02000000, 0x03000000, 0x04000000, 0x24000002};

static int failures;

static void expect(int holds, const char *what) {
    if (!holds) {
        printf("widths.c: %s\n", what);
        failures++;
    }
}

static void refuses(uint64_t answer, uint32_t number, uint32_t place, const char *what) {
    expect(WIPHOSEGA_REFUSED(answer) && WIPHOSEGA_NUMBER(answer) == number && WIPHOSEGA_PLACE(answer) == place, what);
}

/* The bytes of words, low byte first. */
static size_t bytes(const uint32_t *words, size_t count, uint8_t *out) {
    for (size_t i = 0; i < 4 * count; i++)
        out[i] = (uint8_t)(words[i / 4] >> 8 * (i % 4));
    return 4 * count;
}

/* A wide table of so many handlers with the set 1 and the names from 0 on, each of four words; the last one's body is a name. */
static size_t handlers(uint32_t count, uint32_t name, uint8_t *out) {
    uint32_t words[257] = {0x05000000 + count};
    for (uint32_t i = 0; i < count; i++) {
        uint32_t block[] = {0x02000000 + i, 0x03000001, 0x04000000, 0x1c000000};
        memcpy(words + 1 + 4 * i, block, sizeof block);
    }
    words[4 * count] = 0x13000000 + name;
    return bytes(words, 1 + 4 * count, out);
}

int main(void) {
    uint8_t narrow[8192], wide[8192], expected[8192], out[8192], untouched[8192];
    size_t n = bytes(direct, sizeof direct / 4, narrow);
    memcpy(expected, narrow, n);
    expected[3] = 5;
    memset(out, 0xa5, sizeof out);
    memset(untouched, 0xa5, sizeof untouched);

    refuses(wiphosega_widen(narrow, n, out, n - 1), 57, 0, "a short output is written");
    refuses(wiphosega_widen(narrow, n - 1, out, sizeof out), 30, 0, "odd bytes are converted");
    refuses(wiphosega_widen(narrow, 0, out, sizeof out), 1, 0, "no word is converted");
    refuses(wiphosega_widen(narrow, n - 4, out, sizeof out), 8, 4, "a table that is cut short is converted");
    refuses(wiphosega_widen(expected, n, out, sizeof out), 1, 0, "a wide table is made wide");
    refuses(wiphosega_narrow(narrow, n, out, sizeof out), 1, 0, "a narrow table is made narrow");
    expect(memcmp(out, untouched, sizeof out) == 0, "a refusal writes");

    expect(wiphosega_widen(narrow, n, wide, sizeof wide) == n, "the wide table has another length");
    expect(memcmp(wide, expected, n) == 0, "the wide table has other words");
    expect(wiphosega_narrow(wide, n, out, sizeof out) == n, "the narrow table has another length");
    expect(memcmp(out, narrow, n) == 0, "the narrow table has other words");
    expect(memcmp(out + n, untouched, sizeof out - n) == 0, "the converter writes behind its words");

    refuses(wiphosega_narrow(wide, handlers(33, 32, wide), out, sizeof out), 55, 0, "33 handlers are made narrow");
    refuses(wiphosega_narrow(wide, handlers(32, 32, wide), out, sizeof out), 56, 128, "name 32 is made narrow");
    n = handlers(32, 31, wide);
    refuses(wiphosega_narrow(wide, n, out, n - 4), 57, 0, "a short output is written");
    expect(wiphosega_narrow(wide, n, out, n) == n && out[3] == 1 && memcmp(out + 4, wide + 4, n - 4) == 0, "32 handlers and name 31 are refused");

    memset(wide, 0, sizeof wide);
    wide[3] = 5;
    refuses(wiphosega_narrow(wide, sizeof wide, out, sizeof out), 2, 0, "2,048 words are converted");
    refuses(wiphosega_widen(wide, sizeof wide, out, sizeof out), 1, 0, "2,048 words of the other kind are converted");
    return failures != 0;
}
