/* The proved call for manifests, from C: an answer of each version and each refusal are taken apart. */
#include "wiphosega.h"

#include <stdio.h>
#include <string.h>

static int failures;

static void expect(int holds, const char *what) {
    if (!holds) {
        printf("manifest.c: %s\n", what);
        failures++;
    }
}

static uint64_t reading(const char *json) { return wiphosega_manifest((const uint8_t *)json, strlen(json)); }

static void says(const char *json, uint32_t version, uint32_t set, uint32_t count) {
    uint64_t answer = reading(json);
    expect(!WIPHOSEGA_REFUSED(answer) && WIPHOSEGA_MANIFEST_VERSION(answer) == version && WIPHOSEGA_MANIFEST_SET(answer) == set &&
               WIPHOSEGA_MANIFEST_COUNT(answer) == count,
           json);
}

static void refuses(const char *json, uint32_t number) {
    uint64_t answer = reading(json);
    expect(WIPHOSEGA_REFUSED(answer) && WIPHOSEGA_NUMBER(answer) == number && WIPHOSEGA_PLACE(answer) == 0, json);
}

int main(void) {
    says("{\"manifest_version\":2}", 2, 0, 0);
    says("{\"manifest_version\":2,\"permissions\":[\"tabs\",\"x\",\"<all_urls>\",\"y\",\"z\"]}", 2, 0x800002, 3);
    says("{\"manifest_version\":3,\"permissions\":[\"tabs\",\"<all_urls>\"],\"host_permissions\":[\"https://*/*\"]}", 3, 0x800002, 1);
    refuses("{\"manifest_version\":2,}", 43);
    refuses("{\"manifest_version\":2,\"a\":1,\"a\":1}", 44);
    refuses("{\"manifest_version\":4}", 45);
    refuses("{\"manifest_version\":2,\"permissions\":[1]}", 46);
    return failures != 0;
}
