/* What the programs of this folder have in common. */
#ifndef COMMON_H
#define COMMON_H

#include "esdk.h"

#include <stdio.h>
#include <stdlib.h>
#include <string.h>

/* Bytes that grow. */
struct bytes {
    uint8_t *at;
    size_t len, cap;
};

static inline void stop(const char *why) {
    fprintf(stderr, "%s\n", why);
    exit(2);
}

/* As malloc, of exactly so many bytes, so that a byte behind them is seen; never NULL. */
static inline uint8_t *exactly(size_t len) {
    uint8_t *at = malloc(len ? len : 1);
    if (!at) stop("no memory for the test");
    return at;
}

static inline void add(struct bytes *to, const uint8_t *from, size_t len) {
    if (to->cap - to->len < len) {
        to->cap = (to->len + len) * 2;
        to->at = realloc(to->at, to->cap);
        if (!to->at) stop("no memory for the test");
    }
    if (len) memcpy(to->at + to->len, from, len);
    to->len += len;
}

static inline struct bytes all_of(FILE *file) {
    struct bytes all = {0, 0, 0};
    uint8_t room[65536];
    size_t got;
    if (!file) stop("no such file");
    while ((got = fread(room, 1, sizeof room, file)) > 0) add(&all, room, got);
    return all;
}

static inline struct bytes file_of(const char *name) {
    FILE *file = fopen(name, "rb");
    struct bytes all = all_of(file);
    fclose(file);
    return all;
}

/* These bytes in hexadecimal digits, on the output. */
static inline void hex(const uint8_t *at, size_t len) {
    static const char digits[] = "0123456789abcdef";
    for (size_t i = 0; i < len; i++) {
        putchar(digits[at[i] >> 4]);
        putchar(digits[at[i] & 15]);
    }
}

/* How a text or a message is passed: pieces of `cut` bytes, rooms of `room` bytes. Where it is `lazy`, what waits is left to
 * wait behind each piece, and taken at the end. */
struct way {
    size_t cut, room;
    bool lazy;
};

/* So many bytes stand behind a room where nothing else would see that the library writes there: 0 where valgrind or a
 * sanitizer looks, to which a room is memory of its own that ends where the room ends. */
#ifndef GUARD
#define GUARD 0
#endif

/* What a call handed out goes into `out`. */
static inline int32_t one_call(esdk_handle *handle, int what, const uint8_t *piece, size_t len, size_t size, struct bytes *out,
                               size_t *waits) {
    uint8_t *room = memset(exactly(size + GUARD), 0x5a, size + GUARD);
    size_t written = 12345;
    int32_t code = what == 'f'   ? esdk_feed(handle, piece, len, room, size, &written, waits)
                   : what == 'e' ? esdk_finish(handle, room, size, &written, waits)
                                 : esdk_take(handle, room, size, &written, waits);
    if (written > size) stop("more was written than has room");
    if (written < size && *waits > 0) stop("bytes wait, and the room has room");
    for (size_t at = size; at < size + GUARD; at++) {
        if (room[at] != 0x5a) stop("what stands behind the room was written");
    }
    add(out, room, written);
    free(room);
    return code;
}

static inline void take_all(esdk_handle *handle, size_t size, struct bytes *out, size_t waits) {
    while (waits > 0) {
        size_t before = waits;
        if (one_call(handle, 't', 0, 0, size, out, &waits) != ESDK_OK) stop("esdk_take: no code but ESDK_OK is right");
        if (waits >= before) stop("esdk_take hands nothing out");
    }
}

/* All of a text or a message, and its end. Each piece is memory of its own, which is overwritten and freed at once. */
static inline int32_t pass(esdk_handle *handle, struct way way, const uint8_t *all, size_t len, struct bytes *out) {
    size_t at = 0, waits = 0;
    int32_t code = ESDK_OK;
    while (at < len && code == ESDK_OK) {
        size_t size = len - at < way.cut ? len - at : way.cut;
        uint8_t *piece = exactly(size);
        memcpy(piece, all + at, size);
        code = one_call(handle, 'f', piece, size, way.room, out, &waits);
        memset(piece, 0xa5, size);
        free(piece);
        at += size;
        if (!way.lazy) take_all(handle, way.room, out, waits);
    }
    if (code == ESDK_OK) code = one_call(handle, 'e', 0, 0, way.room, out, &waits);
    take_all(handle, way.room, out, waits);
    return code;
}

/* The line of an error, with a zero byte behind it. */
static inline char *line_of(esdk_handle *handle) {
    size_t len = esdk_error(handle, (uint8_t *)"", 0);
    char *line = (char *)exactly(len + 1);
    if (esdk_error(handle, (uint8_t *)line, len) != len) stop("esdk_error tells two lengths");
    line[len] = 0;
    return line;
}

/* The context of a message, on the output: `-` where it isn't known, else hexadecimal digits, a key, `=`, a value and `,` of each
 * pair. */
static inline void show_context(esdk_handle *handle) {
    static uint8_t room[65535];
    int32_t count = esdk_pairs(handle);
    if (count < 0) putchar('-');
    for (int32_t at = 0; at < count; at++) {
        int32_t len = esdk_pair_key(handle, (size_t)at, room, sizeof room);
        if (len < 0 || len > (int32_t)sizeof room) stop("a key that isn't there");
        hex(room, (size_t)len);
        putchar('=');
        len = esdk_pair_value(handle, (size_t)at, room, sizeof room);
        if (len < 0 || len > (int32_t)sizeof room) stop("a value that isn't there");
        hex(room, (size_t)len);
        putchar(',');
    }
    if (count >= 0 && esdk_pair_key(handle, (size_t)count, room, sizeof room) != -1) stop("a pair too many");
}

/* A line on the output: the code, the error's line, the context, and what came out, in hexadecimal digits; tabs stand between them. */
static inline void show_answer(esdk_handle *handle, int32_t code, struct bytes out) {
    char *line = line_of(handle);
    printf("%d\t%s\t", code, line);
    show_context(handle);
    putchar('\t');
    hex(out.at, out.len);
    putchar('\n');
    free(line);
}

/* A session over a keyring file, with the pairs KEY=VALUE, KEY:=VALUE of a required key, and the required keys KEY: alone. */
static inline int32_t begin(esdk_handle *handle, struct bytes ring, char **words, int count) {
    int32_t code = esdk_new(handle, ring.at, ring.len);
    for (int at = 0; at < count && code == ESDK_OK; at++) {
        const char *value = strchr(words[at], '=');
        size_t len = value ? (size_t)(value - words[at]) : strlen(words[at]);
        bool required = len > 0 && words[at][len - 1] == ':';
        const uint8_t *key = (const uint8_t *)words[at];
        if (!value && !required) stop("a pair is KEY=VALUE");
        if (required) code = esdk_require(handle, key, --len);
        if (value && code == ESDK_OK) code = esdk_pair(handle, key, len, (const uint8_t *)value + 1, strlen(value + 1));
    }
    return code;
}

#endif
