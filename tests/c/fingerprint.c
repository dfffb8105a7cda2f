/* The proved call for fingerprints, from C: published values of the hash, and that of a sample's system. */
#include "wiphosega.h"

#include <stdio.h>
#include <string.h>

static int failures;

static void is(const uint8_t *bytes, size_t size, uint32_t hash, const char *what) {
    uint32_t found = wiphosega_fingerprint(bytes, size);
    if (found != hash) {
        printf("fingerprint.c: %s: %08x\n", what, (unsigned)found);
        failures++;
    }
}

static void of_text(const char *text, uint32_t hash) { is((const uint8_t *)text, strlen(text), hash, text); }

int main(void) {
    static const uint32_t direct[] = {0x01000001, 0x02000000, 0x03000003, 0x04000000, 0x24000002};
    of_text("", UINT32_C(0x811c9dc5));
    of_text("a", UINT32_C(0xe40c292c));
    of_text("b", UINT32_C(0xe70c2de5));
    of_text("foobar", UINT32_C(0xbf9cf968));
    of_text("chongo was here!\n", UINT32_C(0xd49930d5));
    is((const uint8_t *)direct, sizeof direct, UINT32_C(0x6b7101d9), "direct");
    return failures != 0;
}
