/* Times of the library, from C. bench/library builds and runs it.
 *
 *     library_times seal|open KEYRING FILE RUNS           a long text or message, in pieces of 65,536 bytes
 *     library_times reseal KEYRING FILE RUNS NEW          a long message, which goes to the keys of the keyring file NEW
 *     library_times many KEYRING FILE RUNS COUNT          so many messages of a short text, sealed and then opened
 *
 * It writes the least seconds of the clock, and the least of the processor, of so many runs; of `many` first those of sealing. */
#include "esdk.h"

#include <stdio.h>
#include <stdlib.h>
#include <string.h>
#include <time.h>

#define PIECE 65536

/* A piece of frames of a byte more than a few would need more than this: the rest waits, and is taken. */
static uint8_t room[2 * PIECE];

static void stop(const char *why) {
    fprintf(stderr, "library_times: %s\n", why);
    exit(2);
}

static double seconds(clockid_t which) {
    struct timespec now;
    clock_gettime(which, &now);
    return (double)now.tv_sec + (double)now.tv_nsec / 1e9;
}

struct times {
    double clock, processor;
};

static struct times begun(void) {
    struct times now = {seconds(CLOCK_MONOTONIC), seconds(CLOCK_PROCESS_CPUTIME_ID)};
    return now;
}

static void least(struct times *all, struct times from) {
    struct times now = begun();
    if (now.clock - from.clock < all->clock) all->clock = now.clock - from.clock;
    if (now.processor - from.processor < all->processor) all->processor = now.processor - from.processor;
}

static uint8_t *file_of(const char *name, size_t *len) {
    FILE *file = fopen(name, "rb");
    uint8_t *all;
    long end;
    if (!file || fseek(file, 0, SEEK_END) || (end = ftell(file)) < 0) stop("no such file");
    rewind(file);
    *len = (size_t)end;
    all = malloc(*len + 1);
    if (!all || fread(all, 1, *len, file) != *len) stop("a file can't be read");
    fclose(file);
    return all;
}

/* The file of the new keys. */
static uint8_t *new_file;
static size_t new_len;

static void begin(esdk_handle *handle, const char *what) {
    int32_t code = esdk_again(handle);
    if (!code && what[0] == 's') code = esdk_seal(handle, 4096, ESDK_ANY_LENGTH, 0);
    if (!code && what[0] == 'o') code = esdk_open(handle, 0, 0, false);
    if (!code && what[0] == 'r') code = esdk_reseal(handle, new_file, new_len, 4096, 0, 0, false);
    if (code) stop("no message is begun");
}

/* All of it once; answers how many bytes came. */
static size_t pass(esdk_handle *handle, const uint8_t *all, size_t len) {
    size_t at, written, waits, came = 0;
    for (at = 0; at < len; at += PIECE) {
        if (esdk_feed(handle, all + at, len - at < PIECE ? len - at : PIECE, room, sizeof room, &written, &waits)) stop("esdk_feed");
        came += written;
    }
    if (esdk_finish(handle, room, sizeof room, &written, &waits) || waits) stop("esdk_finish");
    return came + written;
}

static void time_long(esdk_handle *handle, const char *what, const uint8_t *all, size_t len, int runs) {
    struct times best = {1e9, 1e9};
    for (int run = 0; run < runs; run++) {
        struct times from = begun();
        begin(handle, what);
        if (pass(handle, all, len) == 0) stop("nothing came");
        least(&best, from);
    }
    printf("%.6f %.6f\n", best.clock, best.processor);
}

static void time_many(esdk_handle *handle, const uint8_t *text, size_t len, int runs, int count) {
    struct times sealed = {1e9, 1e9}, opened = {1e9, 1e9};
    static uint8_t message[2 * PIECE], back[2 * PIECE];
    size_t size = 0, waits, came;
    for (int run = 0; run < runs; run++) {
        struct times from = begun();
        for (int at = 0; at < count; at++) {
            begin(handle, "seal");
            if (esdk_whole(handle, text, len, message, sizeof message, &size, &waits) || waits) stop("a message isn't sealed");
        }
        least(&sealed, from);
        from = begun();
        for (int at = 0; at < count; at++) {
            begin(handle, "open");
            if (esdk_whole(handle, message, size, back, sizeof back, &came, &waits) || waits) stop("a message isn't opened");
        }
        least(&opened, from);
        if (came != len || memcmp(back, text, len)) stop("another text");
    }
    printf("%.6f %.6f\n%.6f %.6f\n", sealed.clock, sealed.processor, opened.clock, opened.processor);
}

int main(int count, char **words) {
    esdk_handle handle = ESDK_INIT;
    size_t len;
    uint8_t *file;
    if (count < 5) stop("seal, open, reseal or many");
    if (words[1][0] == 'r' && count > 5) new_file = file_of(words[5], &new_len);
    file = file_of(words[2], &len);
    if (esdk_check() || esdk_new(&handle, file, len)) stop("no session");
    free(file);
    file = file_of(words[3], &len);
    if (!strcmp(words[1], "many")) time_many(&handle, file, len, atoi(words[4]), atoi(words[5]));
    else time_long(&handle, words[1], file, len, atoi(words[4]));
    free(file), free(new_file);
    esdk_close(&handle);
    return 0;
}
