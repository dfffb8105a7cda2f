/* Measures the stack of the calls of libcapi_text.a. Prints the most that each took, and exits 1 if one of them is over WIPHOSEGA_TEXT_STACK. */
#define _GNU_SOURCE
#include "stack.h"

enum { MOST_TEXT = 65536, MOST_JSON = 16384 };

/* A second system, for the overlay; a listing; a manifest; the output of a call, and that of widen. */
static uint32_t other_words[MOST_WORDS];
static size_t other_count;
static uint8_t text[MOST_TEXT], json[MOST_JSON], out[4 * MOST_WORDS], wide[4 * MOST_WORDS];
static size_t text_bytes, json_bytes;
static uint64_t answer;

static const uint8_t *bytes(const uint32_t *words) { return (const uint8_t *)words; }

static void *write_listing(void *p) {
    answer = wiphosega_listing_write(bytes(system_words), 4 * count, text, sizeof text);
    return p;
}

static void *read_listing(void *p) {
    answer = wiphosega_listing_read(text, text_bytes, out, sizeof out);
    return p;
}

static void *manifest(void *p) {
    answer = wiphosega_manifest(json, json_bytes);
    return p;
}

static void *lookup(void *p) {
    answer = wiphosega_lookup(bytes(system_words), 4 * count, bytes(other_words), 4 * other_count, 0, 1);
    return p;
}

static void *join(void *p) {
    answer = wiphosega_join(bytes(system_words), 4 * count, bytes(other_words), 4 * other_count, out, sizeof out);
    return p;
}

static void *widen(void *p) {
    answer = wiphosega_widen(bytes(system_words), 4 * count, wide, sizeof wide);
    return p;
}

static void *narrow(void *p) {
    answer = wiphosega_narrow(wide, 4 * count, out, sizeof out);
    return p;
}

static void *fingerprint(void *p) {
    answer = wiphosega_fingerprint(bytes(system_words), 4 * count);
    return p;
}

enum { WRITE, READ, MANIFEST, LOOKUP, JOIN, WIDEN, NARROWED, FINGERPRINT, CALLS };

static const struct {
    const char *name;
    void *(*run)(void *);
} calls[CALLS] = {{"listing_write", write_listing}, {"listing_read", read_listing}, {"manifest", manifest}, {"lookup", lookup},
                  {"join", join},                   {"widen", widen},               {"narrow", narrow},     {"fingerprint", fingerprint}};

static size_t most[CALLS];

/* The answer to a call, which is not refused. */
static uint64_t take(int call) {
    measure(calls[call].run, &most[call]);
    if (WIPHOSEGA_REFUSED(answer)) {
        printf("text stack: %s refuses with %u\n", calls[call].name, WIPHOSEGA_NUMBER(answer));
        exit(1);
    }
    return answer;
}

/* ---- tables */

/* The system as the overlay, for a base that comes next. */
static void lay_over(void) { memcpy(other_words, system_words, 4 * count), other_count = count; }

/* Every call on tables. */
static void take_system(void) {
    text_bytes = take(WRITE);
    take(READ);
    take(FINGERPRINT);
    take(LOOKUP);
    take(JOIN);
    take(WIDEN);
    take(NARROWED);
}

/* A term of exactly so many words, about as many on each side. */
static void balanced(size_t words) {
    if (words == 1)
        put(0x10000000);
    else if (words % 2 == 0)
        put(0x20000000), balanced(words - 1);
    else
        put(0x18000000), balanced(words / 2), balanced(words / 2);
}

/* Handlers of name 0 with the permissions from a number on: some with the deepest bodies, the others small, and the last with all words that are left. */
static void table(uint32_t handlers, uint32_t first, uint32_t deep, uint32_t inner, size_t words) {
    begin(NARROW, handlers);
    for (uint32_t i = 0; i < handlers; i++) {
        block(0, first + i, 0);
        if (i < deep)
            deepest(inner);
        else if (i + 1 < handlers)
            put(0x10000000);
        else
            balanced(words - count);
    }
}

static void take_tables(void) {
    /* no handler */
    begin(NARROW, 0), text_bytes = take(WRITE), take(READ), take(FINGERPRINT), take(WIDEN);
    /* 1,024 words and 32 handlers, of which 12 have the deepest bodies, functions or cells, over themselves */
    table(32, 1, 12, 0x15000000, MOST_WORDS), lay_over(), take_system();
    table(32, 1, 12, 0x20000000, MOST_WORDS), lay_over(), take_system();
    /* 1,024 words and 32 handlers are joined of two tables that have no key in common */
    table(16, 17, 7, 0x20000000, MOST_WORDS / 2), lay_over();
    table(16, 1, 7, 0x15000000, MOST_WORDS / 2 + 1), take_system();
    /* random bodies of up to 500 words in all, over the table before */
    for (int round = 0; round < 1000; round++) {
        uint32_t handlers = 1 + below(4);
        begin(NARROW, handlers);
        for (uint32_t i = 0; i < handlers; i++) block(0, i + 1, 0), term((int)(480 / handlers), 1, 1);
        if (round == 0) lay_over();
        if (WIPHOSEGA_REFUSED(wiphosega_listing_write(bytes(system_words), 4 * count, text, sizeof text))) continue;
        take_system();
        lay_over();
    }
}

/* ---- manifests */

static void add(const char *s) {
    size_t n = strlen(s);
    if (json_bytes + n <= MOST_JSON) memcpy(json + json_bytes, s, n), json_bytes += n;
}

/* A manifest of MOST_JSON bytes with these permissions, a member that nests as deep as it may, and as many more as there is room for, by a format of
   their number. */
static void take_manifest(const char *permissions, const char *format) {
    char member[64];
    json_bytes = 0;
    add("{\"manifest_version\":3,\"permissions\":["), add(permissions), add("],\"deep\":");
    for (int i = 0; i < 15; i++) add(i % 2 ? "[" : "{\"x\":");
    add("0");
    for (int i = 14; i >= 0; i--) add(i % 2 ? "]" : "}");
    for (unsigned n = 0; format && json_bytes + sizeof member < MOST_JSON; n++) snprintf(member, sizeof member, format, n), add(member);
    while (json_bytes < MOST_JSON - 1) add(" ");
    add("}");
    take(MANIFEST);
}

static void take_manifests(void) {
    static char strings[15000];
    take_manifest("\"tabs\"", ",\"%x\":1");
    take_manifest("\"tabs\"", ",\"k%u\":[1,{\"a\":\"\\u0041\"}]");
    for (size_t n = 0; n + 5 < sizeof strings; n = strlen(strings)) strcat(strings, n ? ",\"a\"" : "\"a\"");
    take_manifest(strings, NULL);
}

int main(void) {
    int over = 0;
    take_tables();
    take_manifests();
    for (int i = 0; i < CALLS; i++) {
        printf("text stack: %s takes %zu bytes, of %d\n", calls[i].name, most[i], WIPHOSEGA_TEXT_STACK);
        over |= most[i] > WIPHOSEGA_TEXT_STACK;
    }
    return over;
}
