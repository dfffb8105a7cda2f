/* The verdict on a browser extension system, for programs in C. `tests/build capi` makes the library to link,
   target/staticlib/libcapi.a, for x86-64 Linux. */
#ifndef WIPHOSEGA_H
#define WIPHOSEGA_H

#include <stddef.h>
#include <stdint.h>

#ifdef __cplusplus
extern "C" {
#endif

/* As the bound: the empty set. */
#define WIPHOSEGA_STANDING_BOUND UINT32_C(0x80000000)

/* The answer: the leak in bits 0 to 23, and 2^24 added if the leak is over the bound. Refused: 2^32 + number * 65536 + place.

   system    the words of the table, narrow or wide, low byte first; at most 1,024 bytes, a multiple of four (else refused 31 or 30)
   rho       the permissions that the opponent holds: bits 0 to 23
   bound     the permissions that the leak is compared with: bits 0 to 23, or WIPHOSEGA_STANDING_BOUND
   estimate  with W words of the system and R = (N + W + 31) / 32, N 64 or 96 (a wide table), at least 2WR + W words; 21,504 bytes are
             enough for every narrow system, 23,552 for every system
   work      at least 4W words; 4,096 bytes are enough for every system

   After an answer below 2^32 the first 2WR + W words of `estimate` are the estimate, low byte first, the first 4W words of `work` are zero,
   and every other byte is as it was. After a refusal all bytes of both are as they were.

   Each pointer must be to as many bytes as its length says. `estimate` must share no byte with `work`, nor either with `system`, and nobody
   else may touch the three during the call. A pointer may be anything but null where its length is 0; wiphosega_verdict_nullable takes null
   there. The call keeps no pointer, takes no memory but its stack, and always returns. WIPHOSEGA_STACK bytes of stack are enough:
   tests/c/stack.c measures 56,992, and 36,928 for wiphosega_check. */
uint64_t wiphosega_verdict(const uint8_t *system, size_t system_bytes, uint32_t rho, uint32_t bound, uint8_t *estimate,
                           size_t estimate_bytes, uint8_t *work, size_t work_bytes);

#define WIPHOSEGA_STACK 131072

/* The same where a pointer may be null if its length is 0: the call gets another one there, through which nothing is read or written. */
static inline uint64_t wiphosega_verdict_nullable(const uint8_t *system, size_t system_bytes, uint32_t rho, uint32_t bound, uint8_t *estimate,
                                                  size_t estimate_bytes, uint8_t *work, size_t work_bytes) {
    uint8_t none[3];
    return wiphosega_verdict(system_bytes ? system : &none[0], system_bytes, rho, bound, estimate_bytes ? estimate : &none[1], estimate_bytes,
                             work_bytes ? work : &none[2], work_bytes);
}

/* Whether an estimate from elsewhere, of `system` where the opponent holds `rho`, has no stray bit and obeys every rule. The answer is the leak
   read from it: every permission that can be exercised is in it, and it contains the leak that wiphosega_verdict finds. Refused: 2^32 + number *
   65536 + place, by 31 and 30 as above, the numbers 1 to 12 of the table, 20, 52 (the bytes are not exactly those of 2WR + W words), 53 (a stray
   bit; the place is the first word of the estimate with one), 54 (a rule is broken; the place is the lowest word of the system whose rule it is).
   Nothing is written, and for pointers the same holds as above. */
uint64_t wiphosega_check(const uint8_t *system, size_t system_bytes, uint32_t rho, const uint8_t *estimate, size_t estimate_bytes);

/* The calls from here on are in another library, target/staticlib/libcapi_text.a, which `tests/build capi_text` makes. They too keep no pointer, take no
   memory but their stack, and always return. WIPHOSEGA_TEXT_STACK bytes of stack are enough for each: tests/c/text_stack.c measures 263,880 for
   wiphosega_manifest, and at most 26,592 for the others. */
#define WIPHOSEGA_TEXT_STACK 524288

/* Listings. docs/LISTING.md says what a listing is.

   An answer below 2^32 is how many bytes were written to the output, from its start. Refused: 2^32 + number * 65536 + place, by the numbers
   1 to 12 of the table, 30 (the system's bytes are no whole words; the writer alone), 40 (a line that is no line of a listing, or has wrong
   leading spaces; the place is its number, from 1), 41 (a listing over 65,536 bytes), 42 (the output is too short). A refusal leaves all
   bytes of the output as they were, and any other answer those behind what was written. The reader's output counts whole words: 4,096 bytes
   are enough for every system, and 65,536 for every listing that is written. For pointers the same holds as above. */
#define WIPHOSEGA_REFUSED(answer) (((answer) >> 32 & 1) != 0)
#define WIPHOSEGA_NUMBER(answer) ((uint32_t)((answer) >> 16 & 0xffff))
#define WIPHOSEGA_PLACE(answer) ((uint32_t)((answer) & 0xffff))

/* The listing of a system's words, low byte first. */
uint64_t wiphosega_listing_write(const uint8_t *system, size_t system_bytes, uint8_t *text, size_t text_bytes);

/* The words of the system that a listing is of, low byte first. */
uint64_t wiphosega_listing_read(const uint8_t *text, size_t text_bytes, uint8_t *system, size_t system_bytes);

/* Manifests. The answer is set + version * 2^24 + count * 2^40: the permission set of a browser extension's
   manifest, its version (2 or 3), and how many strings of the lists read set nothing. Refused: 2^32 + number * 65536, by the numbers 43 (no
   JSON text of at most 16,384 bytes that nests at most 16 deep and is an object), 44 (a key twice), 45 (no version 2 or 3), 46 (a list that
   is none of strings). A set is below 2^24 and a version below 4, so an answer has bit 32 exactly if the manifest is refused:
   WIPHOSEGA_REFUSED, WIPHOSEGA_NUMBER and WIPHOSEGA_PLACE take it apart as any other. */
#define WIPHOSEGA_MANIFEST_SET(answer) ((uint32_t)((answer) & 0xffffff))
#define WIPHOSEGA_MANIFEST_VERSION(answer) ((uint32_t)((answer) >> 24 & 0xff))
#define WIPHOSEGA_MANIFEST_COUNT(answer) ((uint32_t)((answer) >> 40))

uint64_t wiphosega_manifest(const uint8_t *json, size_t json_bytes);

/* A table laid over another. Both are words, low byte first; a handler's name and its permission set together
   are the key. Refused: 2^32 + number * 65536 + place, by 30 (the base's bytes are no whole words), 130 (the overlay's), the base's numbers 1
   to 12, the overlay's plus 100, and then with place 0 47 (no such block) for the look-up, 48 (over 32 handlers), 49 (over 1,024 words) and 50
   (the output is too short) for the join. For pointers the same holds as above.

   wiphosega_lookup says where the block with this name and this set is, in the overlay if it is there, otherwise in the base: offset +
   length * 2^16, both in bytes, and 2^33 added where it is in the overlay. A table has at most 4,096 bytes, so offset and length have 16 bits
   each with room to spare, and an answer has bit 32 exactly if it is a refusal.

   wiphosega_join writes the base's blocks in its order, each replaced where the overlay has the same key, then the overlay's new ones in
   theirs, and answers how many bytes these are. The output counts whole words: 4,096 bytes are enough. A refusal leaves all bytes of the
   output as they were, and any other answer those behind what was written. */
#define WIPHOSEGA_BLOCK_OFFSET(answer) ((size_t)((answer) & 0xffff))
#define WIPHOSEGA_BLOCK_BYTES(answer) ((size_t)((answer) >> 16 & 0xffff))
#define WIPHOSEGA_BLOCK_IN_OVERLAY(answer) (((answer) >> 33 & 1) != 0)

uint64_t wiphosega_lookup(const uint8_t *base, size_t base_bytes, const uint8_t *overlay, size_t overlay_bytes, uint32_t name, uint32_t set);

uint64_t wiphosega_join(const uint8_t *base, size_t base_bytes, const uint8_t *overlay, size_t overlay_bytes, uint8_t *out, size_t out_bytes);

/* The converters: a narrow table made wide (word 0 of kind 1 becomes one of kind 5), and a wide one made narrow; the
   other words stay. The answer is how many bytes were written, as many as the system has. Refused: 2^32 + number * 65536 + place, by 30 (the bytes
   are no whole words), 1 at 0 (word 0 has the other kind, or there is no word), the table's numbers 1 to 12, for wiphosega_narrow 55 (over 32
   handlers, place 0) and 56 (at the first word with a name over 31), and last 57 (the output is too short, place 0). The output counts whole words:
   4,096 bytes are enough. A refusal leaves all bytes of the output as they were, and any other answer those behind what was written. For pointers the
   same holds as above. */
uint64_t wiphosega_widen(const uint8_t *system, size_t system_bytes, uint8_t *out, size_t out_bytes);

uint64_t wiphosega_narrow(const uint8_t *system, size_t system_bytes, uint8_t *out, size_t out_bytes);

/* The fingerprint of a system, as the report on a class has it: the published hash FNV-1a of 32 bits, of the bytes of
   its words. For the pointer the same holds as above. */
uint32_t wiphosega_fingerprint(const uint8_t *system, size_t system_bytes);

#ifdef __cplusplus
}
#endif

#endif
