/* The stack that a call takes: it runs in a thread on a stack that was filled first, and what is no longer so was used. Also the systems that the
   calls are measured on. */
#include "wiphosega.h"
#include <pthread.h>
#include <stdio.h>
#include <stdlib.h>
#include <string.h>

enum { SIZE = 1 << 20, FILL = 0xa5 };

static uint8_t stack[SIZE] __attribute__((aligned(4096)));

static void *nothing(void *p) { return p; }

static size_t used(void *(*run)(void *)) {
    pthread_attr_t attributes;
    pthread_t thread;
    size_t free_bytes = 0;
    memset(stack, FILL, SIZE);
    if (pthread_attr_init(&attributes) || pthread_attr_setstack(&attributes, stack, SIZE) || pthread_create(&thread, &attributes, run, NULL) ||
        pthread_join(thread, NULL)) {
        printf("no thread\n");
        exit(1);
    }
    while (free_bytes < SIZE && stack[free_bytes] == FILL) free_bytes++;
    return SIZE - free_bytes;
}

/* The most that a call took so far, without what a thread takes that calls nothing. */
static void measure(void *(*run)(void *), size_t *most) {
    static size_t base;
    if (base == 0) base = used(nothing);
    size_t n = used(run) - base;
    if (n > *most) *most = n;
}

/* ---- systems */

enum { MOST_WORDS = 1024, NARROW = 0x01000000, WIDE = 0x05000000 };

static uint32_t system_words[MOST_WORDS];
static size_t count;

static void put(uint32_t word) {
    if (count < MOST_WORDS) system_words[count++] = word;
}

static void begin(uint32_t width, uint32_t handlers) {
    count = 0;
    put(width + handlers);
}

static void block(uint32_t name, uint32_t permissions, uint32_t guard) {
    put(0x02000000 + name);
    put(0x03000000 + permissions);
    put(0x04000000 + guard);
}

static uint32_t seed = 1;

static uint32_t below(uint32_t n) {
    seed = seed * 1664525 + 1013904223;
    return (seed >> 8) % n;
}

/* A term of at most so many words, at a depth, under so many binders. */
static void term(int words, int depth, uint32_t binders) {
    static const uint32_t inner[] = {21, 22, 23, 24, 25, 26, 27, 29, 30, 31, 32, 33, 34, 35};
    static const int parts[] = {1, 2, 2, 2, 3, 2, 2, 2, 3, 2, 1, 1, 2, 2};
    uint32_t k = below(14);
    if (words <= parts[k] || depth >= 64) {
        uint32_t leaf = below(6);
        put(leaf == 0   ? 0x10000000 + below(4)
            : leaf == 1 ? 0x12000000 + below(23)
            : leaf == 2 ? 0x13000000 + below(8)
            : leaf == 3 ? 0x1c000000
            : leaf == 4 ? 0x24000000 + below(8)
                        : 0x14000000 + below(binders));
        return;
    }
    uint32_t argument = inner[k] == 27 ? below(3) : 0;
    put(inner[k] * 0x1000000 + argument);
    int left = words - 1;
    for (int i = 0; i < parts[k]; i++) {
        int share = i + 1 == parts[k] ? left : 1 + (int)below((uint32_t)(left - (parts[k] - 1 - i)));
        term(share, depth + 1, binders + (inner[k] == 21 || (inner[k] == 23 && i == 1)));
        left -= share;
    }
}

/* The deepest bodies: 63 terms of a kind with one part (functions, cells), and a leaf. */
static void deepest(uint32_t inner) {
    for (int i = 0; i < 63; i++) put(inner);
    put(0x10000000);
}
