/* An allocator that refuses. It stands in front of C's by the linker's --wrap, so that the library's requests alone are counted
 * and refused. */
#ifndef REFUSING_H
#define REFUSING_H

#include "common.h"

void *__real_malloc(size_t size);
void *__real_realloc(void *old, size_t size);
void *__real_aligned_alloc(size_t align, size_t size);

static bool counts;
static unsigned long requests, refused;
static bool onwards;

static bool refuses(void) {
    if (!counts) return false;
    requests++;
    return refused && (onwards ? requests >= refused : requests == refused);
}

void *__wrap_malloc(size_t size) { return refuses() ? NULL : __real_malloc(size); }
void *__wrap_realloc(void *old, size_t size) { return refuses() ? NULL : __real_realloc(old, size); }
void *__wrap_aligned_alloc(size_t align, size_t size) { return refuses() ? NULL : __real_aligned_alloc(align, size); }

/* What came out, without a request of the test among those that are counted. */
struct came {
    uint8_t at[4096];
    size_t len;
};

static inline void keep(struct came *came, const uint8_t *room, size_t written) {
    if (written > sizeof came->at - came->len) stop("more came than there is");
    memcpy(came->at + came->len, room, written);
    came->len += written;
}

static inline int32_t all_of_it(esdk_handle *handle, const uint8_t *from, size_t len, struct came *came) {
    uint8_t room[50];
    size_t written = 0, waits = 0;
    int32_t code = ESDK_OK;
    for (size_t at = 0; at < len && code == ESDK_OK; at += 333) {
        code = esdk_feed(handle, from + at, len - at < 333 ? len - at : 333, room, sizeof room, &written, &waits);
        keep(came, room, written);
    }
    if (code == ESDK_OK) {
        code = esdk_finish(handle, room, sizeof room, &written, &waits);
        keep(came, room, written);
    }
    while (waits > 0 && esdk_take(handle, room, sizeof room, &written, &waits) == ESDK_OK) keep(came, room, written);
    return code;
}

static inline bool is_front(const struct came *came, const uint8_t *whole, size_t len) {
    return came->len <= len && memcmp(came->at, whole, came->len) == 0;
}

#endif
