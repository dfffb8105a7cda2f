/* call ESTIMATE WORK WORD..: the verdict on a system of hexadecimal words, with ρ 0 and bound 0, over slices of so many words. */
#include "wiphosega.h"
#include <stdio.h>
#include <stdlib.h>

static uint32_t estimate[5376], work[1024], system_words[256];

int main(int argc, char **argv) {
    if (argc < 3 || argc > 3 + 256) return 2;
    size_t estimate_words = strtoul(argv[1], NULL, 10), work_words = strtoul(argv[2], NULL, 10);
    if (estimate_words > 5376 || work_words > 1024) return 2;
    for (int i = 3; i < argc; i++) system_words[i - 3] = (uint32_t)strtoul(argv[i], NULL, 16);
    uint64_t answer = wiphosega_verdict((const uint8_t *)system_words, 4 * (size_t)(argc - 3), 0, 0, (uint8_t *)estimate, 4 * estimate_words,
                                        (uint8_t *)work, 4 * work_words);
    if (WIPHOSEGA_REFUSED(answer))
        printf("refused %u at %u\n", WIPHOSEGA_NUMBER(answer), WIPHOSEGA_PLACE(answer));
    else
        printf("leak %06llx\n", (unsigned long long)(answer & 0xffffff));
    return 0;
}
