/* Two threads with two handles at once; and a handle that goes from one thread to the other between two calls. */
#include "common.h"

#include <pthread.h>

static const char *const lines[] = {"backups 2026 000102030405060708090a0b0c0d0e0f101112131415161718191a1b1c1d1e1f",
                                    "others 2027 808182838485868788898a8b8c8d8e8f909192939495969798999a9b9c9d9e9f"};

static struct bytes ring_of(size_t which) {
    struct bytes ring = {(uint8_t *)lines[which], strlen(lines[which]), 0};
    return ring;
}

static void there_and_back(size_t which, size_t len) {
    esdk_handle handle = ESDK_INIT;
    struct way way = {65536, 4096, false};
    struct bytes message = {0, 0, 0}, back = {0, 0, 0};
    uint8_t *text = exactly(len);
    for (size_t at = 0; at < len; at++) text[at] = (uint8_t)(at * (which + 3) / 5);
    if (begin(&handle, ring_of(which), 0, 0) != ESDK_OK || esdk_seal(&handle, 1000, len, 0) != ESDK_OK) stop("a thread: no message");
    if (pass(&handle, way, text, len, &message) != ESDK_OK) stop("a thread: it isn't sealed");
    if (esdk_again(&handle) != ESDK_OK || esdk_open(&handle, 1, 1000, false) != ESDK_OK) stop("a thread: esdk_again");
    if (pass(&handle, way, message.at, message.len, &back) != ESDK_OK) stop("a thread: it isn't opened");
    if (back.len != len || memcmp(back.at, text, len)) stop("a thread: another text");
    esdk_close(&handle);
    free(message.at), free(back.at), free(text);
}

static void *work(void *which) {
    for (size_t times = 0; times < 30; times++) there_and_back(*(size_t *)which, 50000 + times * 1111);
    return 0;
}

/* One call of a message, by a thread of its own. */
struct step {
    esdk_handle *handle;
    const uint8_t *piece;
    size_t len;
    struct bytes *out;
    int32_t code;
};

static void *one_step(void *of) {
    struct step *step = of;
    size_t waits = 0;
    step->code = one_call(step->handle, step->len ? 'f' : 'e', step->piece, step->len, 64, step->out, &waits);
    take_all(step->handle, 64, step->out, waits);
    return 0;
}

/* All of a text or a message, and its end, each piece by a thread of its own. */
static struct bytes by_many_threads(esdk_handle *handle, const uint8_t *all, size_t size) {
    struct bytes out = {0, 0, 0};
    size_t at = 0, len;
    do {
        len = size - at < 9 ? size - at : 9;
        struct step step = {handle, len ? all + at : ESDK_NOTHING, len, &out, -1};
        pthread_t thread;
        if (pthread_create(&thread, 0, one_step, &step) || pthread_join(thread, 0)) stop("no thread");
        if (step.code != ESDK_OK) stop("a step of a thread");
        at += len;
    } while (len > 0);
    return out;
}

/* A message is sealed, moved to new keys, and opened. */
static void from_thread_to_thread(void) {
    static const char text[] = "a text that is sealed by as many threads as it has pieces";
    esdk_handle handle = ESDK_INIT;
    struct bytes message, moved, back, other = ring_of(1);
    if (begin(&handle, ring_of(0), 0, 0) != ESDK_OK || esdk_seal(&handle, 10, ESDK_ANY_LENGTH, 0) != ESDK_OK) stop("no message");
    message = by_many_threads(&handle, (const uint8_t *)text, sizeof text);
    if (esdk_again(&handle) != ESDK_OK || esdk_reseal(&handle, other.at, other.len, 7, 0, 0, false) != ESDK_OK) stop("no new message");
    moved = by_many_threads(&handle, message.at, message.len);
    if (begin(&handle, other, 0, 0) != ESDK_OK || esdk_open(&handle, 0, 0, false) != ESDK_OK) stop("no opening");
    back = by_many_threads(&handle, moved.at, moved.len);
    if (back.len != sizeof text || memcmp(back.at, text, sizeof text)) stop("another text of many threads");
    esdk_close(&handle);
    free(message.at), free(moved.at), free(back.at);
}

int main(void) {
    pthread_t threads[2];
    size_t which[2] = {0, 1};
    for (int at = 0; at < 2; at++) {
        if (pthread_create(&threads[at], 0, work, &which[at])) stop("no thread");
    }
    for (int at = 0; at < 2; at++) pthread_join(threads[at], 0);
    from_thread_to_thread();
    puts("two threads, two handles");
    return 0;
}
