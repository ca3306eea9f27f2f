/* Moves messages to new keys by the library.
 *
 *     resealing many KEYRING PAIR..    many messages on the input, and a line for each comes out, as of `messages many`
 *     resealing refused KEYRING        many files of new keys on the input, which are refused: a line of the code and the error's line
 *
 * Before each message stands a line: CUT ROOM LAZY MAX_KEYS MAX_UNIT UNCOMMITTED FRAME FILE RANDOM LENGTH, and then the bytes of
 * the file of new keys, the random bytes, and the message. Without random bytes `esdk_reseal` draws them; a CUT of 0 passes the
 * whole message to `esdk_whole`. Before each file of `refused` stands its length. */
#include "common.h"

static const uint8_t drawn[76];

static struct bytes read_bytes(size_t len) {
    struct bytes all = {exactly(len), len, len};
    if (fread(all.at, 1, len, stdin) != len) stop("the input is cut");
    return all;
}

/* All of a message by esdk_whole, whose room gets nothing at an error: then all waits. */
static int32_t at_once(esdk_handle *handle, size_t size, struct bytes message, struct bytes *out) {
    uint8_t *room = memset(exactly(size + GUARD), 0x5a, size + GUARD);
    size_t written = 12345, waits = 12345;
    int32_t code = esdk_whole(handle, message.at, message.len, room, size, &written, &waits);
    if (written > size || (written < size && waits > 0 && code == ESDK_OK)) stop("esdk_whole: the room isn't filled");
    if (code != ESDK_OK && written != 0) stop("esdk_whole: an error, and something is handed out");
    for (size_t at = written; at < size + GUARD; at++) {
        if (room[at] != 0x5a) stop("esdk_whole: what stands behind was written");
    }
    add(out, room, written);
    free(room);
    take_all(handle, size, out, waits);
    return code;
}

struct asked {
    struct way way;
    unsigned long long max_keys, max_unit, uncommitted, frame;
    struct bytes file, random, message;
};

/* Each second message is of the session that the one before had, whose new keys are gone. */
static void reseal_next(esdk_handle *handle, struct bytes ring, char **pairs, int count, struct asked asked) {
    static bool again;
    struct bytes out = {0, 0, 0}, file = asked.file, random = asked.random;
    uint32_t frame = (uint32_t)asked.frame;
    uint16_t max_keys = (uint16_t)asked.max_keys;
    bool uncommitted = asked.uncommitted != 0;
    int32_t code;
    if (again && count == 0) code = esdk_again(handle);
    else code = begin(handle, ring, pairs, count);
    again = !again;
    if (code != ESDK_OK) stop("no session");
    if (random.len == 0) code = esdk_reseal(handle, file.at, file.len, frame, max_keys, asked.max_unit, uncommitted);
    else code = esdk_reseal_with(handle, file.at, file.len, frame, max_keys, asked.max_unit, uncommitted, random.at, random.len);
    /* The library has a copy of either. */
    memset(file.at, 0xa5, file.len), memset(random.at, 0xa5, random.len);
    free(file.at), free(random.at);
    if (code == ESDK_OK && asked.way.cut == 0) code = at_once(handle, asked.way.room, asked.message, &out);
    else if (code == ESDK_OK) code = pass(handle, asked.way, asked.message.at, asked.message.len, &out);
    show_answer(handle, code, out);
    free(asked.message.at), free(out.at);
}

static int many(char **words, int count) {
    esdk_handle handle = ESDK_INIT;
    struct bytes ring = file_of(words[0]);
    struct asked asked;
    size_t file, random, len;
    int lazy;
    while (scanf("%zu %zu %d %llu %llu %llu %llu %zu %zu %zu", &asked.way.cut, &asked.way.room, &lazy, &asked.max_keys,
                 &asked.max_unit, &asked.uncommitted, &asked.frame, &file, &random, &len) == 10) {
        asked.way.lazy = lazy != 0;
        if (getchar() != '\n') stop("a line is cut");
        asked.file = read_bytes(file);
        asked.random = read_bytes(random);
        asked.message = read_bytes(len);
        reseal_next(&handle, ring, words + 1, count - 1, asked);
    }
    free(ring.at);
    esdk_close(&handle);
    return 0;
}

/* A message under the handle's keys of the text `hello`, which comes back behind each refusal. */
static struct bytes hello_of(struct bytes ring) {
    esdk_handle handle = ESDK_INIT;
    struct bytes message = {exactly(1024), 0, 1024};
    size_t waits;
    int32_t code = esdk_new(&handle, ring.at, ring.len);
    if (code == ESDK_OK) code = esdk_seal(&handle, 4096, ESDK_ANY_LENGTH, 0);
    if (code == ESDK_OK) code = esdk_whole(&handle, (const uint8_t *)"hello", 5, message.at, 1024, &message.len, &waits);
    if (code != ESDK_OK || waits) stop("no message");
    esdk_close(&handle);
    return message;
}

/* The session has ended, and no call goes on. */
static void nothing_goes_on(esdk_handle *handle, struct bytes ring) {
    uint8_t room[8];
    size_t written = 77, waits = 77;
    if (esdk_pair(handle, drawn, 1, drawn, 1) != ESDK_ENDED || esdk_require(handle, drawn, 1) != ESDK_ENDED) stop("a pair");
    if (esdk_open(handle, 0, 0, false) != ESDK_ENDED) stop("it is opened");
    if (esdk_seal(handle, 4096, ESDK_ANY_LENGTH, 0) != ESDK_ENDED) stop("it is sealed");
    if (esdk_reseal(handle, ring.at, ring.len, 4096, 0, 0, false) != ESDK_ENDED) stop("it is resealed");
    if (esdk_feed(handle, drawn, 1, room, sizeof room, &written, &waits) != ESDK_ENDED || written || waits) stop("it is fed");
    if (esdk_finish(handle, room, sizeof room, &written, &waits) != ESDK_ENDED || written || waits) stop("it is finished");
    if (esdk_take(handle, room, sizeof room, &written, &waits) != ESDK_OK || written || waits) stop("it hands out");
    if (esdk_pairs(handle) != -1) stop("it has a context");
    if (esdk_draws(handle) != sizeof drawn) stop("esdk_draws is of its own file");
}

/* The session is set up again, and its own file opens, and is a file of new keys. */
static void serves_on(esdk_handle *handle, struct bytes ring, struct bytes hello) {
    uint8_t room[1024];
    size_t written = 0, waits = 77;
    if (esdk_again(handle) != ESDK_OK || esdk_error(handle, room, 0) != 0) stop("esdk_again");
    if (esdk_open(handle, 0, 0, false) != ESDK_OK) stop("esdk_open behind a refusal");
    if (esdk_whole(handle, hello.at, hello.len, room, sizeof room, &written, &waits) != ESDK_OK) stop("no text behind a refusal");
    if (waits || written != 5 || memcmp(room, "hello", 5)) stop("another text behind a refusal");
    if (esdk_again(handle) != ESDK_OK || esdk_reseal(handle, ring.at, ring.len, 1, 0, 0, false) != ESDK_OK) stop("no resealing");
    if (esdk_whole(handle, hello.at, hello.len, room, sizeof room, &written, &waits) != ESDK_OK || waits) stop("no new message");
    if (written != hello.len + 4 * 32) stop("another new message");
    if (esdk_again(handle) != ESDK_OK) stop("esdk_again at the end");
}

static int refused(char **words) {
    esdk_handle handle = ESDK_INIT;
    struct bytes ring = file_of(words[0]), hello = hello_of(ring);
    size_t len;
    if (esdk_new(&handle, ring.at, ring.len) != ESDK_OK) stop("no session");
    while (scanf("%zu", &len) == 1) {
        struct bytes file;
        int32_t code;
        char *line;
        if (getchar() != '\n') stop("a line is cut");
        file = read_bytes(len);
        code = esdk_reseal_with(&handle, file.at, file.len, 4096, 0, 0, false, drawn, sizeof drawn);
        if (code == ESDK_OK) stop("the file isn't refused");
        line = line_of(&handle);
        printf("%d\t%s\n", code, line);
        nothing_goes_on(&handle, ring);
        serves_on(&handle, ring, hello);
        if (esdk_reseal(&handle, file.at, file.len, 4096, 0, 0, false) != code) stop("esdk_reseal: another code");
        serves_on(&handle, ring, hello);
        free(line), free(file.at);
    }
    free(ring.at), free(hello.at);
    esdk_close(&handle);
    return 0;
}

int main(int count, char **words) {
    if (esdk_check() != ESDK_OK) stop("the library doesn't fit");
    if (count >= 3 && strcmp(words[1], "many") == 0) return many(words + 2, count - 2);
    if (count == 3 && strcmp(words[1], "refused") == 0) return refused(words + 2);
    stop("many or refused");
}
