/* Calls the ciphers with each key, text, tag, initialization vector and piece of associated data marked as undefined, under
   valgrind, which then counts each jump and each address that depends on them. Each line of the output is a call, a length in
   bytes, how many there were and how many there may be. What an opening answers depends on the tag: that is the one jump that it
   may have. The last two calls look up a table and jump at a byte of the key on purpose, and have to be found. */
#include <stdbool.h>
#include <stdint.h>
#include <stdio.h>
#include <stdlib.h>
#include <string.h>
#include <valgrind/memcheck.h>

#define SLICE const uint8_t *, size_t
#define ROOM uint8_t *, size_t
bool calls_seal(SLICE, SLICE, SLICE, SLICE, ROOM, ROOM);
bool calls_open(SLICE, SLICE, SLICE, SLICE, ROOM, SLICE);
bool calls_seal_by_key(SLICE, SLICE, SLICE, SLICE, ROOM, ROOM);
bool calls_open_by_key(SLICE, SLICE, SLICE, SLICE, ROOM, SLICE);
bool calls_open_over_data(SLICE, SLICE, SLICE, ROOM, SLICE);
bool calls_hkdf256(SLICE, SLICE, SLICE, ROOM);
bool calls_hkdf512(SLICE, SLICE, SLICE, ROOM);
uint8_t calls_table(SLICE, SLICE);
uint64_t calls_branch(SLICE, SLICE);

enum { LONGEST = 65536 };
static uint8_t key[32], iv[12], first[32], second[40], text[LONGEST], tag[16];
static const size_t lengths[] = {0, 1, 15, 16, 17, 31, 32, 33, 47, 48, 49, 63, 64, 65, 96, 111, 112,
    113, 127, 128, 129, 175, 176, 177, 255, 256, 257, 300, 511, 512, 4095, 4096, 4097, 8400, 65536};
static int wrong;

/* What is marked. */
static void mark(void) {
    (void)VALGRIND_MAKE_MEM_UNDEFINED(key, sizeof key);
    (void)VALGRIND_MAKE_MEM_UNDEFINED(iv, sizeof iv);
    (void)VALGRIND_MAKE_MEM_UNDEFINED(first, sizeof first);
    (void)VALGRIND_MAKE_MEM_UNDEFINED(second, sizeof second);
    (void)VALGRIND_MAKE_MEM_UNDEFINED(text, sizeof text);
    (void)VALGRIND_MAKE_MEM_UNDEFINED(tag, sizeof tag);
}

static void unmark(void) {
    (void)VALGRIND_MAKE_MEM_DEFINED(key, sizeof key);
    (void)VALGRIND_MAKE_MEM_DEFINED(iv, sizeof iv);
    (void)VALGRIND_MAKE_MEM_DEFINED(first, sizeof first);
    (void)VALGRIND_MAKE_MEM_DEFINED(second, sizeof second);
    (void)VALGRIND_MAKE_MEM_DEFINED(text, sizeof text);
    (void)VALGRIND_MAKE_MEM_DEFINED(tag, sizeof tag);
}

/* Says what was found since so many were, and whether the call answered what it should: may have at least and at most so many. */
static void say(const char *name, size_t n, unsigned before, bool answered, unsigned least, unsigned most) {
    unsigned found = VALGRIND_COUNT_ERRORS - before;
    bool right = answered && found >= least && found <= most;
    (void)VALGRIND_MAKE_MEM_DEFINED(&right, sizeof right);
    printf("%s, %zu bytes: %u%s\n", name, n, found, right ? "" : " WRONG");
    wrong += !right;
}

static bool known(bool answer) {
    (void)VALGRIND_MAKE_MEM_DEFINED(&answer, sizeof answer);
    return answer;
}

/* The texts of one length, sealed and opened in each way, with the right tag and with another. */
static void seal_and_open(size_t n) {
    unsigned before;
    bool answer;
    mark();
    before = VALGRIND_COUNT_ERRORS;
    answer = known(calls_seal(key, 32, iv, 12, first, 32, second, 40, text, n, tag, 16));
    say("seal_in_place", n, before, answer, 0, 0);
    before = VALGRIND_COUNT_ERRORS;
    answer = known(calls_open(key, 32, iv, 12, first, 32, second, 40, text, n, tag, 16));
    say("open_in_place", n, before, answer, 1, 1);
    before = VALGRIND_COUNT_ERRORS;
    answer = known(calls_seal_by_key(key, 32, iv, 12, first, 32, second, 40, text, n, tag, 16));
    say("GcmKey::seal_in_place", n, before, answer, 0, 0);
    before = VALGRIND_COUNT_ERRORS;
    answer = known(calls_open_by_key(key, 32, iv, 12, first, 32, second, 40, text, n, tag, 16));
    say("GcmKey::open_in_place", n, before, answer, 1, 1);
    before = VALGRIND_COUNT_ERRORS;
    answer = known(calls_seal(key, 32, iv, 12, first, 29, second, 0, text, n, tag, 16));
    say("seal_in_place over 29 bytes", n, before, answer, 0, 0);
    before = VALGRIND_COUNT_ERRORS;
    answer = known(calls_open_over_data(key, 32, iv, 12, first, 29, text, n, tag, 16));
    say("GcmOpener::open_in_place", n, before, answer, 1, 1);
    unmark();
    tag[n % 16] ^= 1;
    mark();
    before = VALGRIND_COUNT_ERRORS;
    answer = known(calls_open(key, 32, iv, 12, first, 32, second, 40, text, n, tag, 16));
    say("open_in_place with another tag", n, before, !answer, 1, 1);
    unmark();
}

static void derive(size_t n) {
    unsigned before;
    bool answer;
    mark();
    before = VALGRIND_COUNT_ERRORS;
    answer = known(calls_hkdf256(key, 32, iv, 12, first, 32, text, n));
    say("hkdf256", n, before, answer, 0, 0);
    before = VALGRIND_COUNT_ERRORS;
    answer = known(calls_hkdf512(key, 32, iv, 12, first, 32, text, n));
    say("hkdf512", n, before, answer, 0, 0);
    unmark();
}

/* What has to be found. */
static void find(void) {
    unsigned before;
    uint8_t table[256];
    memset(table, 1, sizeof table);
    key[0] = 9;
    mark();
    before = VALGRIND_COUNT_ERRORS;
    uint8_t entry = calls_table(key, 32, table, sizeof table);
    (void)VALGRIND_MAKE_MEM_DEFINED(&entry, sizeof entry);
    say("a table at a byte of the key", 1, before, entry == 1, 1, 1);
    before = VALGRIND_COUNT_ERRORS;
    uint64_t sum = calls_branch(key, 32, table, sizeof table);
    (void)VALGRIND_MAKE_MEM_DEFINED(&sum, sizeof sum);
    say("a jump at a byte of the key", 1, before, sum == 256, 1, 1);
    unmark();
}

int main(void) {
    if (!RUNNING_ON_VALGRIND) {
        fprintf(stderr, "calls: not under valgrind\n");
        return 2;
    }
    for (size_t i = 0; i < LONGEST; i++) text[i] = (uint8_t)(31 * i);
    for (size_t i = 0; i < 32; i++) key[i] = (uint8_t)(7 * i + 3);
    for (size_t i = 0; i < sizeof lengths / sizeof lengths[0]; i++) seal_and_open(lengths[i]);
    derive(32);
    derive(64);
    derive(255);
    find();
    return wrong ? 1 : 0;
}
