/* Seals and opens messages by the library.
 *
 *     messages seal KEYRING CUT ROOM LAZY FRAME RANDOM PAIR..    the text on the input; RANDOM is a file of random bytes, or -
 *     messages open KEYRING CUT ROOM LAZY PAIR..                 the message on the input; its text comes out
 *     messages many KEYRING PAIR..                               many messages on the input, and a line for each comes out
 *
 * CUT and ROOM are bytes of a piece and of a room; LAZY is 0 or 1. Before each message of `many` stands a line: CUT ROOM LAZY
 * MAX_KEYS MAX_UNIT UNCOMMITTED LENGTH. Its line has the code, the error's line, the context and the text, with tabs between
 * them: the context is `-` where it isn't known, else hexadecimal digits, a key, `=`, a value and `,` of each pair.
 *
 * Status: 0, or 1 where the library answers a code, which stands on standard error with its line; of `many` always 0. */
#include "common.h"

static struct way way_of(char **words) {
    struct way way = {strtoul(words[0], 0, 10), strtoul(words[1], 0, 10), words[2][0] == '1'};
    if (way.cut == 0 || way.room == 0) stop("a cut and a room have bytes");
    return way;
}

static int ended(esdk_handle *handle, int32_t code) {
    char *line = line_of(handle);
    if (code != ESDK_OK) fprintf(stderr, "%d %s\n", code, line);
    free(line);
    esdk_close(handle);
    return code == ESDK_OK ? 0 : 1;
}

static int seal(char **words, int count) {
    esdk_handle handle = ESDK_INIT;
    struct bytes ring = file_of(words[0]), text = all_of(stdin), out = {0, 0, 0};
    uint32_t frame = (uint32_t)strtoul(words[4], 0, 10);
    int32_t code = begin(&handle, ring, words + 6, count - 6);
    if (code == ESDK_OK && strcmp(words[5], "-") == 0) {
        code = esdk_seal(&handle, frame, ESDK_ANY_LENGTH, 0);
    } else if (code == ESDK_OK) {
        struct bytes random = file_of(words[5]);
        code = esdk_seal_with(&handle, frame, text.len, 0, random.at, random.len);
        free(random.at);
    }
    if (code == ESDK_OK) code = pass(&handle, way_of(words + 1), text.at, text.len, &out);
    fwrite(out.at, 1, out.len, stdout);
    free(ring.at), free(text.at), free(out.at);
    return ended(&handle, code);
}

static int open_one(char **words, int count) {
    esdk_handle handle = ESDK_INIT;
    struct bytes ring = file_of(words[0]), message = all_of(stdin), out = {0, 0, 0};
    int32_t code = begin(&handle, ring, words + 4, count - 4);
    if (code == ESDK_OK) code = esdk_open(&handle, 0, 0, false);
    if (code == ESDK_OK) code = pass(&handle, way_of(words + 1), message.at, message.len, &out);
    fwrite(out.at, 1, out.len, stdout);
    free(ring.at), free(message.at), free(out.at);
    return ended(&handle, code);
}

/* One message of `many`. Each second one is of the session that the one before had. */
static void open_next(esdk_handle *handle, struct bytes ring, char **pairs, int count, struct way way, unsigned long long *limits,
                      struct bytes message) {
    static bool again;
    struct bytes out = {0, 0, 0};
    int32_t code;
    if (again && count == 0) code = esdk_again(handle);
    else code = begin(handle, ring, pairs, count);
    again = !again;
    if (code == ESDK_OK) code = esdk_open(handle, (uint16_t)limits[0], limits[1], limits[2] != 0);
    if (code == ESDK_OK) code = pass(handle, way, message.at, message.len, &out);
    show_answer(handle, code, out);
    free(out.at);
}

static int many(char **words, int count) {
    esdk_handle handle = ESDK_INIT;
    struct bytes ring = file_of(words[0]);
    struct way way;
    unsigned long long limits[3];
    size_t len;
    int lazy;
    while (scanf("%zu %zu %d %llu %llu %llu %zu", &way.cut, &way.room, &lazy, limits, limits + 1, limits + 2, &len) == 7) {
        struct bytes message = {exactly(len), len, len};
        way.lazy = lazy != 0;
        if (getchar() != '\n' || fread(message.at, 1, len, stdin) != len) stop("a message is cut");
        open_next(&handle, ring, words + 1, count - 1, way, limits, message);
        free(message.at);
    }
    free(ring.at);
    esdk_close(&handle);
    return 0;
}

int main(int count, char **words) {
    if (esdk_check() != ESDK_OK) stop("the library doesn't fit");
    if (count >= 8 && strcmp(words[1], "seal") == 0) return seal(words + 2, count - 2);
    if (count >= 6 && strcmp(words[1], "open") == 0) return open_one(words + 2, count - 2);
    if (count >= 3 && strcmp(words[1], "many") == 0) return many(words + 2, count - 2);
    stop("seal, open or many");
}
