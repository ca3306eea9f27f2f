/* Asks about messages without opening them.
 *
 *     asking list                      messages on the input, and a line for each comes out
 *     asking openers KEYRING PAIR..    the same
 *     asking states                    asks in each state of a handle, for a range, too, and the code that esdk.h says
 *
 * Before each message stands a line: UNCOMMITTED LENGTH. Its line has the code, a tab, and the listing in hexadecimal digits or
 * the numbers of the leaves, with a comma behind each. */
#include "common.h"

/* A keyring file has no more leaves. */
#define LEAVES 64
#define NO_LEAF 0x5a5a5a5a

/* The listing, into a room of this size. What it doesn't write stays, and at an error it writes nothing. */
static int32_t list_into(struct bytes message, bool uncommitted, uint8_t *room, size_t size, size_t *whole) {
    size_t written;
    int32_t code;
    memset(room, 0x5a, size + GUARD);
    *whole = 12345;
    code = esdk_list(message.at, message.len, uncommitted, room, size, whole);
    if (code != ESDK_OK && *whole != 0) stop("esdk_list: an error, and a length");
    written = *whole < size ? *whole : size;
    for (size_t at = written; at < size + GUARD; at++) {
        if (room[at] != 0x5a) stop("esdk_list: what stands behind the listing was written");
    }
    return code;
}

static void list_one(struct bytes message, bool uncommitted) {
    uint8_t *all = exactly(GUARD);
    size_t whole, told, size;
    int32_t code = list_into(message, uncommitted, all, 0, &whole);
    free(all);
    all = exactly(whole + GUARD);
    if (list_into(message, uncommitted, all, whole, &told) != code || told != whole) stop("esdk_list: another answer");
    for (size = whole / 2; size <= whole + 9; size += whole / 2 + 9) {
        uint8_t *room = exactly(size + GUARD);
        if (list_into(message, uncommitted, room, size, &told) != code || told != whole) stop("esdk_list: another answer in less room");
        if (memcmp(room, all, size < whole ? size : whole)) stop("esdk_list: another front");
        free(room);
    }
    printf("%d\t", code);
    hex(all, whole);
    putchar('\n');
    free(all);
}

/* The numbers, into a room for so many, as list_into. */
static int32_t openers_into(esdk_handle *handle, struct bytes message, uint32_t *numbers, size_t size, size_t *whole) {
    size_t written;
    int32_t code;
    memset(numbers, 0x5a, (size + GUARD) * sizeof *numbers);
    *whole = 12345;
    code = esdk_openers(handle, message.at, message.len, numbers, size, whole);
    if (code != ESDK_OK && *whole != 0) stop("esdk_openers: an error, and a count");
    written = *whole < size ? *whole : size;
    for (size_t at = written; at < size + GUARD; at++) {
        if (numbers[at] != NO_LEAF) stop("esdk_openers: what stands behind the numbers was written");
    }
    return code;
}

static void ask_one(esdk_handle *handle, struct bytes message) {
    size_t whole, told;
    uint32_t *all = (uint32_t *)exactly((LEAVES + GUARD) * sizeof *all);
    int32_t code = openers_into(handle, message, all, LEAVES, &whole);
    if (whole > LEAVES) stop("esdk_openers: more leaves than a tree has");
    for (size_t size = 0; size < 3; size++) {
        uint32_t *few = (uint32_t *)exactly((size + GUARD) * sizeof *few);
        if (openers_into(handle, message, few, size, &told) != code || told != whole) stop("esdk_openers: another answer in less room");
        if (memcmp(few, all, (size < whole ? size : whole) * sizeof *few)) stop("esdk_openers: another front");
        free(few);
    }
    printf("%d\t", code);
    for (size_t at = 0; at < whole; at++) printf("%u,", all[at]);
    putchar('\n');
    free(all);
    if (esdk_error(handle, (uint8_t *)"", 0) != 0) stop("esdk_openers: the session has a line");
}

/* The next message of the input, in memory of its own; whether there is one. */
static bool next(struct bytes *message, bool *uncommitted) {
    int flag;
    size_t len;
    if (scanf("%d %zu", &flag, &len) != 2) return false;
    message->at = exactly(len);
    message->len = len;
    *uncommitted = flag != 0;
    if (getchar() != '\n' || fread(message->at, 1, len, stdin) != len) stop("a message is cut");
    return true;
}

static int list_all(void) {
    struct bytes message;
    bool uncommitted;
    while (next(&message, &uncommitted)) {
        list_one(message, uncommitted);
        free(message.at);
    }
    return 0;
}

/* One session is asked about all of them, and a message can be begun behind that. */
static int ask_all(char **words, int count) {
    esdk_handle handle = ESDK_INIT;
    struct bytes ring = file_of(words[0]), message;
    bool uncommitted = false;
    if (begin(&handle, ring, words + 1, count - 1) != ESDK_OK) stop("no session");
    while (next(&message, &uncommitted)) {
        ask_one(&handle, message);
        free(message.at);
    }
    if (esdk_open(&handle, 0, 0, uncommitted) != ESDK_OK) stop("the session isn't set up any more");
    free(ring.at);
    esdk_close(&handle);
    return 0;
}

/* ---- each state */

static const char line[] = "backups 2026 000102030405060708090a0b0c0d0e0f101112131415161718191a1b1c1d1e1f";
static int tried, wrong;

/* Three bytes of the text, of a message that is handed over whole. What isn't written stays. */
static void want_range(const char *state, esdk_handle *handle, struct bytes message, int32_t code) {
    uint8_t room[3 + GUARD + 1];
    size_t written = 12345;
    memset(room, 0x5a, sizeof room);
    int32_t is = esdk_range(handle, message.at, message.len, message.len, ESDK_NOTHING, 0, true, false, 1, room, 3, &written);
    const char *wanted = code == ESDK_OK ? "ellZ" : "ZZZZ";
    tried++;
    if (is == code && written == (code == ESDK_OK ? 3 : 0) && !memcmp(room, wanted, 4)) return;
    wrong++;
    printf("WRONG: esdk_range of a handle that is %s: %d, %zu, and %d is wanted\n", state, is, written, code);
}

/* What is answered in this state: a code, and whether the one leaf is named and the range comes. */
static void want(const char *state, esdk_handle *handle, struct bytes message, int32_t code) {
    uint32_t numbers[2 + GUARD];
    size_t whole;
    int32_t is = openers_into(handle, message, numbers, 2, &whole);
    want_range(state, handle, message, code);
    tried++;
    if (is == code && whole == (code == ESDK_OK) && (code != ESDK_OK || numbers[0] == 1)) return;
    wrong++;
    printf("WRONG: esdk_openers of a handle that is %s: %d, %zu, and %d is wanted\n", state, is, whole, code);
}

static void ring_of_line(esdk_handle *handle) { esdk_new(handle, (const uint8_t *)line, strlen(line)); }

static int states(void) {
    static uint8_t held[1024], room[1024];
    esdk_handle handle = ESDK_INIT;
    struct bytes message = {held, 0, sizeof held};
    size_t written, waits;
    ring_of_line(&handle);
    if (esdk_pair(&handle, (const uint8_t *)"set", 3, (const uint8_t *)"photos", 6)) stop("a pair");
    if (esdk_seal(&handle, 4096, ESDK_ANY_LENGTH, 0)) stop("a message");
    want("sealing", &handle, message, ESDK_NOT_NOW);
    if (esdk_whole(&handle, (const uint8_t *)"hello", 5, held, sizeof held, &message.len, &waits)) stop("a whole message");
    want("behind sealing", &handle, message, ESDK_ENDED);
    esdk_again(&handle);
    want("set up", &handle, message, ESDK_OK);
    if (esdk_pair(&handle, (const uint8_t *)"set", 3, (const uint8_t *)"photos", 6)) stop("a pair behind a question");
    want("set up with a pair", &handle, message, ESDK_OK);
    esdk_open(&handle, 0, 0, false);
    want("opening", &handle, message, ESDK_NOT_NOW);
    if (esdk_whole(&handle, message.at, message.len, room, sizeof room, &written, &waits)) stop("it isn't opened");
    want("behind opening", &handle, message, ESDK_ENDED);
    esdk_close(&handle);
    want("closed", &handle, message, ESDK_NO_SESSION);
    esdk_new(&handle, (const uint8_t *)"a b", 3);
    want("refused", &handle, message, ESDK_ENDED);
    esdk_close(&handle);
    printf("%d tried, %d wrong\n", tried, wrong);
    return wrong ? 1 : 0;
}

int main(int count, char **words) {
    if (esdk_check() != ESDK_OK) stop("the library doesn't fit");
    if (count == 2 && strcmp(words[1], "list") == 0) return list_all();
    if (count == 2 && strcmp(words[1], "states") == 0) return states();
    if (count >= 3 && strcmp(words[1], "openers") == 0) return ask_all(words + 2, count - 2);
    stop("list, openers or states");
}
