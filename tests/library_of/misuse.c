/* What a caller may get wrong and the library tests: each call answers its code, and changes nothing. Writes a line for each
 * that doesn't, and the number of what was tried. */
#include "esdk.h"
#include <stdio.h>
#include <string.h>

static int tried, wrong;

static void is(const char *what, long got, long wanted) {
    tried++;
    if (got != wanted) {
        printf("%s: %ld in place of %ld\n", what, got, wanted);
        wrong++;
    }
}

#define TEXT(text) (const uint8_t *)(text), strlen(text)
#define KEY "backups 2026 000102030405060708090a0b0c0d0e0f101112131415161718191a1b1c1d1e1f"

static size_t written, waits;
static uint8_t room[4096], line[64];

static void closed_handles(esdk_handle *handle) {
    is("pair", esdk_pair(handle, TEXT("a"), TEXT("b")), ESDK_NO_SESSION);
    is("require", esdk_require(handle, TEXT("a")), ESDK_NO_SESSION);
    is("again", esdk_again(handle), ESDK_NO_SESSION);
    is("draws", esdk_draws(handle), 0);
    is("seal", esdk_seal(handle, 4096, ESDK_ANY_LENGTH, 0), ESDK_NO_SESSION);
    is("open", esdk_open(handle, 0, 0, false), ESDK_NO_SESSION);
    is("reseal", esdk_reseal(handle, TEXT(KEY), 4096, 0, 0, false), ESDK_NO_SESSION);
    is("feed", esdk_feed(handle, TEXT("a"), room, sizeof room, &written, &waits), ESDK_NO_SESSION);
    is("finish", esdk_finish(handle, room, sizeof room, &written, &waits), ESDK_NO_SESSION);
    is("take", esdk_take(handle, room, sizeof room, &written, &waits), ESDK_NO_SESSION);
    is("error", (long)esdk_error(handle, line, sizeof line), 0);
    is("pairs", esdk_pairs(handle), -1);
    is("key", esdk_pair_key(handle, 0, line, sizeof line), -1);
    esdk_close(handle);
}

static void set_up(esdk_handle *handle) {
    uint8_t random[ESDK_MOST_DRAWN] = {0};
    is("new", esdk_new(handle, TEXT(KEY)), ESDK_OK);
    is("draws of one key", esdk_draws(handle), 76);
    is("not UTF-8", esdk_pair(handle, TEXT("\xff"), TEXT("b")), ESDK_NOT_TEXT);
    is("not UTF-8 behind", esdk_pair(handle, TEXT("a"), TEXT("\xc3")), ESDK_NOT_TEXT);
    is("not UTF-8 required", esdk_require(handle, TEXT("\x80")), ESDK_NOT_TEXT);
    is("feed early", esdk_feed(handle, TEXT("a"), room, sizeof room, &written, &waits), ESDK_NOT_NOW);
    is("finish early", esdk_finish(handle, room, sizeof room, &written, &waits), ESDK_NOT_NOW);
    is("frame 0", esdk_seal(handle, 0, ESDK_ANY_LENGTH, 0), ESDK_BAD_FRAME);
    is("few random bytes", esdk_seal_with(handle, 4096, ESDK_ANY_LENGTH, 0, random, 75), ESDK_BAD_RANDOM);
    is("many random bytes", esdk_seal_with(handle, 4096, ESDK_ANY_LENGTH, 0, random, 77), ESDK_BAD_RANDOM);
    is("frame 0 under new keys", esdk_reseal(handle, TEXT(KEY), 0, 0, 0, false), ESDK_BAD_FRAME);
    is("few random bytes for new keys", esdk_reseal_with(handle, TEXT(KEY), 4096, 0, 0, false, random, 75), ESDK_BAD_RANDOM);
    is("many random bytes for new keys", esdk_reseal_with(handle, TEXT(KEY), 4096, 0, 0, false, random, 77), ESDK_BAD_RANDOM);
    is("pair", esdk_pair(handle, TEXT("set"), TEXT("photos")), ESDK_OK);
    is("seal", esdk_seal(handle, 4096, ESDK_ANY_LENGTH, 0), ESDK_OK);
    is("seal twice", esdk_seal(handle, 4096, ESDK_ANY_LENGTH, 0), ESDK_NOT_NOW);
    is("pair late", esdk_pair(handle, TEXT("a"), TEXT("b")), ESDK_NOT_NOW);
    is("open late", esdk_open(handle, 0, 0, false), ESDK_NOT_NOW);
    is("reseal late", esdk_reseal(handle, TEXT(KEY), 4096, 0, 0, false), ESDK_NOT_NOW);
    is("finish", esdk_finish(handle, room, sizeof room, &written, &waits), ESDK_OK);
    is("all there", (long)waits, 0);
    is("finish twice", esdk_finish(handle, room, sizeof room, &written, &waits), ESDK_ENDED);
    is("feed behind", esdk_feed(handle, TEXT("a"), room, sizeof room, &written, &waits), ESDK_ENDED);
    is("no error", (long)esdk_error(handle, line, sizeof line), 0);
}

static void refusals(esdk_handle *handle) {
    is("again", esdk_again(handle), ESDK_OK);
    is("a pair", esdk_pair(handle, TEXT("a"), TEXT("b")), ESDK_OK);
    is("its key again", esdk_pair(handle, TEXT("a"), TEXT("c")), 6003);
    is("then", esdk_pair(handle, TEXT("d"), TEXT("c")), ESDK_ENDED);
    is("line", (long)esdk_error(handle, line, sizeof line), (long)strlen("Q3 DuplicateKey \"a\""));
    is("its text", memcmp(line, "Q3 DuplicateKey \"a\"", strlen("Q3 DuplicateKey \"a\"")), 0);
    is("name", (long)esdk_error_name(handle, line, sizeof line), (long)strlen("Q3 DuplicateKey"));
    is("short room", (long)esdk_error(handle, line, 2), (long)strlen("Q3 DuplicateKey \"a\""));
    is("again", esdk_again(handle), ESDK_OK);
    is("absent", esdk_require(handle, TEXT("tenant")), ESDK_OK);
    is("seal without", esdk_seal(handle, 4096, ESDK_ANY_LENGTH, 0), 6004);
    is("again", esdk_again(handle), ESDK_OK);
    is("open", esdk_open(handle, 0, 0, false), ESDK_OK);
    is("no message", esdk_feed(handle, TEXT("hello"), room, sizeof room, &written, &waits), 1001);
    is("none given", (long)(written + waits), 0);
    is("and then", esdk_feed(handle, TEXT("a"), room, sizeof room, &written, &waits), ESDK_ENDED);
    is("again", esdk_again(handle), ESDK_OK);
    is("open", esdk_open(handle, 0, 0, false), ESDK_OK);
    is("empty", esdk_finish(handle, room, sizeof room, &written, &waits), ESDK_TRUNCATED);
    is("file", esdk_new(handle, TEXT("aws-kms 2026 00")), 3004);
    is("ended", esdk_again(handle), ESDK_ENDED);
    is("its line", (long)esdk_error(handle, line, sizeof line), (long)strlen("K4 ReservedNamespace"));
    is("new", esdk_new(handle, TEXT(KEY)), ESDK_OK);
    is("new keys", esdk_reseal(handle, TEXT("aws-kms 2026 00"), 4096, 0, 0, false), 3004);
    is("their line", (long)esdk_error(handle, line, sizeof line), (long)strlen("K4 ReservedNamespace"));
    is("again", esdk_again(handle), ESDK_OK);
    is("new keys", esdk_reseal(handle, TEXT(KEY), 4096, 0, 0, false), ESDK_OK);
    is("no message", esdk_feed(handle, TEXT("hello"), room, sizeof room, &written, &waits), 1001);
    is("none resealed", (long)(written + waits), 0);
}

int main(void) {
    esdk_handle handle = ESDK_INIT;
    is("check", esdk_check(), ESDK_OK);
    closed_handles(&handle);
    set_up(&handle);
    refusals(&handle);
    esdk_close(&handle);
    closed_handles(&handle);
    printf("%d tried, %d wrong\n", tried, wrong);
    return wrong != 0;
}
