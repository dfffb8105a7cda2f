/* The proved calls for listings, from C: relay is written and read back, and each refusal is taken apart. */
#include "wiphosega.h"

#include <stdio.h>
#include <string.h>

static const uint32_t relay[] = {0x01000002, 0x02000000, 0x03000008, 0x04000000, 0x23000000, 0x13000001,
                                 0x14000000, 0x02000001, 0x03000002, 0x04000008, 0x24000002};
static const char text[] = "system 2\nhandler 0\npermissions 000008\nguard 000000\n  send 000000\n    name 1\n    variable 0\n"
                           "handler 1\npermissions 000002\nguard 000008\n  exercise 000002\n";

static int failures;

static void expect(int holds, const char *what) {
    if (!holds) {
        printf("listing.c: %s\n", what);
        failures++;
    }
}

static void refuses(uint64_t answer, uint32_t number, uint32_t place, const char *what) {
    expect(WIPHOSEGA_REFUSED(answer) && WIPHOSEGA_NUMBER(answer) == number && WIPHOSEGA_PLACE(answer) == place, what);
}

static uint64_t reading(const char *lines) {
    uint8_t words[4096];
    return wiphosega_listing_read((const uint8_t *)lines, strlen(lines), words, sizeof words);
}

int main(void) {
    uint8_t system[sizeof relay], out[65536], back[sizeof relay];
    for (size_t i = 0; i < sizeof relay; i++)
        system[i] = (uint8_t)(relay[i / 4] >> 8 * (i % 4));

    expect(wiphosega_listing_write(system, sizeof system, out, sizeof out) == strlen(text), "the listing of relay has another length");
    expect(memcmp(out, text, strlen(text)) == 0, "the listing of relay is another text");
    expect(wiphosega_listing_read(out, strlen(text), back, sizeof back) == sizeof back, "relay is not read back");
    expect(memcmp(back, system, sizeof system) == 0, "other words are read back");
    refuses(wiphosega_listing_write(system, 3, out, sizeof out), 30, 0, "odd bytes are written");
    refuses(wiphosega_listing_write(system, sizeof system, out, strlen(text) - 1), 42, 0, "a short text is written");
    refuses(wiphosega_listing_read(out, strlen(text), back, sizeof back - 1), 42, 0, "a short system is read");
    refuses(reading("system 1\nhandler 0\npermissions 000003\nguard 000000\n  variable 1\n"), 10, 4, "an unbound variable is read");
    refuses(reading("system 1\nhandler 0\npermissions 000003\nguard 000000\n  Variable 0\n"), 40, 5, "an upper case letter is read");
    refuses(reading("system 1\nhandler 0\npermissions 000003\nguard 000000\nvariable 0\n"), 40, 5, "a body without spaces is read");
    return failures != 0;
}
