/* How esdk_seal and esdk_reseal draw: by a generator that gives few bytes at a time, is interrupted, or gives none. It stands in front of
 * C's by the linker's --wrap. What is sealed has exactly the bytes that it gave, in order; where it gives none, nothing is changed.
 * Writes a line for each thing that is otherwise, and the number of what was tried. */
#include "common.h"

enum { ALL, FEW, INTERRUPTED, FAILS, EMPTY };

static int how;
static unsigned calls, fails_at;
static uint8_t given;
static int tried, wrong;

static ssize_t none_by(int error, ssize_t answer) {
    errno = error;
    return answer;
}

/* The bytes 0, 1, 2, .. of all that it is asked for. */
ssize_t __wrap_getrandom(void *room, size_t size, unsigned int flags) {
    if (++calls > 1000) stop("it asks for ever");
    if (flags != 0) stop("flags that nobody wants");
    if (how == INTERRUPTED && calls % 2 == 1) return none_by(EINTR, -1);
    if (how == FAILS && calls >= fails_at) return none_by(ENOSYS, -1);
    if (how == EMPTY && calls >= fails_at) return none_by(EINTR, 0);
    if (how != ALL && size > 7) size = 7;
    for (size_t at = 0; at < size; at++) ((uint8_t *)room)[at] = given++;
    return (ssize_t)size;
}

static void is(const char *what, bool right) {
    tried++;
    if (!right) {
        printf("wrong: %s, generator %d, call %u\n", what, how, fails_at);
        wrong++;
    }
}

#define FILE_OF(name) (const uint8_t *)name, sizeof name - 1
#define KEY "backups 2026 000102030405060708090a0b0c0d0e0f101112131415161718191a1b1c1d1e1f"
#define NEW "new key 202122232425262728292a2b2c2d2e2f303132333435363738393a3b3c3d3e3f"

static uint8_t counted[76], old[1000], by_hand[1000], drawn[1000];
static size_t old_len, waits;

/* A message of the session, which began. */
static size_t message_of(esdk_handle *handle, const uint8_t *rest, size_t len, uint8_t *room) {
    size_t written;
    if (esdk_whole(handle, rest, len, room, sizeof old, &written, &waits) != ESDK_OK || waits) stop("no message");
    return written;
}

/* What a call draws, beside the same by the call that is given the bytes. */
static void same(const char *what, esdk_handle *handle, bool reseals) {
    const uint8_t *rest = reseals ? old : (const uint8_t *)"hello";
    size_t rest_len = reseals ? old_len : 5, len;
    esdk_again(handle);
    if (reseals) esdk_reseal_with(handle, FILE_OF(NEW), 4096, 0, 0, false, counted, sizeof counted);
    else esdk_seal_with(handle, 4096, ESDK_ANY_LENGTH, 0, counted, sizeof counted);
    len = message_of(handle, rest, rest_len, by_hand);
    esdk_again(handle);
    given = 0;
    calls = 0;
    is(what, (reseals ? esdk_reseal(handle, FILE_OF(NEW), 4096, 0, 0, false) : esdk_seal(handle, 4096, ESDK_ANY_LENGTH, 0)) == ESDK_OK);
    is(what, message_of(handle, rest, rest_len, drawn) == len && memcmp(drawn, by_hand, len) == 0);
}

/* Nothing is changed: there is no error, the session is set up, and its pair is there. */
static void none(const char *what, esdk_handle *handle, bool reseals) {
    size_t written;
    esdk_again(handle);
    is(what, esdk_pair(handle, (const uint8_t *)"set", 3, (const uint8_t *)"a", 1) == ESDK_OK);
    calls = 0;
    is(what, (reseals ? esdk_reseal(handle, FILE_OF(NEW), 4096, 0, 0, false) : esdk_seal(handle, 4096, ESDK_ANY_LENGTH, 0)) == ESDK_NO_RANDOM);
    is(what, esdk_error(handle, drawn, sizeof drawn) == 0);
    is(what, esdk_finish(handle, drawn, sizeof drawn, &written, &waits) == ESDK_NOT_NOW);
    is(what, esdk_pair(handle, (const uint8_t *)"set", 3, (const uint8_t *)"a", 1) == 6003);
}

int main(void) {
    esdk_handle handle = ESDK_INIT;
    for (unsigned at = 0; at < sizeof counted; at++) counted[at] = (uint8_t)at;
    if (esdk_check() || esdk_new(&handle, FILE_OF(KEY)) || esdk_seal(&handle, 4096, ESDK_ANY_LENGTH, 0)) stop("no session");
    old_len = message_of(&handle, (const uint8_t *)"hello", 5, old);
    for (how = ALL; how <= INTERRUPTED; how++) {
        same("seal", &handle, false);
        same("reseal", &handle, true);
    }
    for (; how <= EMPTY; how++) {
        for (fails_at = 1; fails_at <= 11; fails_at += 5) {
            none("seal", &handle, false);
            none("reseal", &handle, true);
        }
    }
    esdk_close(&handle);
    printf("%d tried, %d wrong\n", tried, wrong);
    return wrong != 0;
}
