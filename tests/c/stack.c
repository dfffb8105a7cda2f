/* Measures the stack of a verdict and of a check of its estimate. Prints the most that any of the systems took, and exits 1 if that is over
   WIPHOSEGA_STACK. */
#define _GNU_SOURCE
#include "stack.h"

static uint32_t estimate[5888], work[1024];
static size_t most_verdict, most_check;
static uint64_t answer;

static void *verdict(void *p) {
    answer = wiphosega_verdict((const uint8_t *)system_words, 4 * count, 0, 0, (uint8_t *)estimate, sizeof estimate, (uint8_t *)work, sizeof work);
    return p;
}

/* The estimate that the verdict left. */
static void *check(void *p) {
    size_t row = ((system_words[0] >> 24 == 5 ? 96 : 64) + count + 31) / 32;
    answer = wiphosega_check((const uint8_t *)system_words, 4 * count, 0, (const uint8_t *)estimate, 4 * (2 * count * row + count));
    return p;
}

static void both(void) {
    measure(verdict, &most_verdict);
    measure(check, &most_check);
    if (WIPHOSEGA_REFUSED(answer)) {
        printf("stack: a system is refused\n");
        exit(1);
    }
}

int main(void) {
    begin(NARROW, 0);
    both();
    /* the deepest body */
    begin(NARROW, 1), block(0, 0, 0), deepest(0x15000000), both();
    begin(NARROW, 1), block(0, 0, 0);
    for (int i = 0; i < 63; i++) put(0x16000000);
    for (int i = 0; i < 64; i++) put(0x14000000);
    both();
    /* 31 handlers, each of which sends its message to a name that the message gives */
    begin(NARROW, 31);
    for (uint32_t i = 0; i < 31; i++) block(i, i + 1, 0), put(0x18000000), put(0x23000000), put(0x14000000), put(0x14000000), put(0x24000001 + i);
    both();
    /* the same of a wide table, and as many handlers as 256 words can have */
    begin(WIDE, 31);
    for (uint32_t i = 0; i < 31; i++) block(i + 32, i + 1, 0), put(0x18000000), put(0x23000000), put(0x14000000), put(0x14000000), put(0x24000001 + i);
    both();
    begin(WIDE, 63);
    for (uint32_t i = 0; i < 63; i++) block(i, i + 1, 0), put(0x24000001 + i);
    both();
    /* handlers with random bodies of up to 250 words in all */
    for (int round = 0; round < 6000; round++) {
        uint32_t handlers = 1 + below(4);
        begin(round < 3000 ? NARROW : WIDE, handlers);
        for (uint32_t i = 0; i < handlers; i++) block(i, i + 1, 0), term((int)(240 / handlers) - 3, 1, 1);
        both();
    }
    printf("stack: a verdict takes %zu bytes and a check %zu, of %d\n", most_verdict, most_check, WIPHOSEGA_STACK);
    return most_verdict <= WIPHOSEGA_STACK && most_check <= WIPHOSEGA_STACK ? 0 : 1;
}
