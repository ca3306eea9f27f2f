/* Memory that is refused while the library is asked about a message: the request with each number, and all from each on. */
#include "refusing.h"

static const char line[] = "backups 2026 000102030405060708090a0b0c0d0e0f101112131415161718191a1b1c1d1e1f";
static esdk_handle handle = ESDK_INIT;
static uint8_t message[1024];
static size_t len;

/* What the calls answered. */
struct answers {
    uint8_t listing[2048], text[8];
    size_t listed, count, written;
    uint64_t header, offset, size;
    uint32_t leaves[2], frame;
    int32_t list, openers, span, range;
};

static void ask(struct answers *answers) {
    memset(answers, 0x5a, sizeof *answers);
    answers->list = esdk_list(message, len, false, answers->listing, sizeof answers->listing, &answers->listed);
    answers->openers = esdk_openers(&handle, message, len, answers->leaves, 2, &answers->count);
    answers->span = esdk_span(message, len, false, 1, 3, &answers->header, &answers->frame, &answers->offset, &answers->size);
    answers->range = esdk_range(&handle, message, len, len, ESDK_NOTHING, 0, true, false, 1, answers->text, 3, &answers->written);
}

/* The span and the range are right, or memory ran out, and then nothing is written. */
static bool is_range(const struct answers *is, const struct answers *right, const struct answers *none) {
    bool no_span = is->span == ESDK_MEMORY && !is->header && !is->frame && !is->offset && !is->size;
    bool no_range = is->range == ESDK_MEMORY && is->written == 0 && !memcmp(is->text, none->text, sizeof none->text);
    bool span = is->span == ESDK_OK && is->header == right->header && is->frame == 4096 && is->offset == right->header &&
                is->size == 4096 + 40;
    bool range = is->range == ESDK_OK && is->written == 3 && !memcmp(is->text, "ell", 3) && is->text[3] == none->text[3];
    return (no_span || span) && (no_range || range);
}

/* It is answered right, or that memory ran out, and then nothing is written. */
static bool is_right(const struct answers *is, const struct answers *right) {
    struct answers none;
    memset(&none, 0x5a, sizeof none);
    bool no_list = is->list == ESDK_MEMORY && is->listed == 0 && !memcmp(is->listing, none.listing, sizeof none.listing);
    bool no_leaf = is->openers == ESDK_MEMORY && is->count == 0 && !memcmp(is->leaves, none.leaves, sizeof none.leaves);
    bool list = is->list == ESDK_OK && is->listed == right->listed && !memcmp(is->listing, right->listing, right->listed);
    bool leaf = is->openers == ESDK_OK && is->count == 1 && is->leaves[0] == 1;
    return (no_list || list) && (no_leaf || leaf) && is_range(is, right, &none);
}

/* Asks where memory is refused in this way; whether any was. */
static bool judged(const struct answers *right, unsigned long number, bool from_there_on) {
    static struct answers is;
    requests = 0, refused = number, onwards = from_there_on, counts = true;
    ask(&is);
    counts = false;
    if (!is_right(&is, right)) stop("another answer");
    if ((requests >= number) !=
        (is.list == ESDK_MEMORY || is.openers == ESDK_MEMORY || is.span == ESDK_MEMORY || is.range == ESDK_MEMORY)) {
        stop("memory ran out, and no code says so");
    }
    ask(&is);
    if (!is_right(&is, right) || is.list || is.openers || is.span || is.range) stop("it doesn't serve on");
    return requests >= number;
}

int main(void) {
    static struct answers right;
    unsigned long number = 1, from = 1;
    size_t waits;
    int32_t code = esdk_new(&handle, (const uint8_t *)line, strlen(line));
    if (!code) code = esdk_pair(&handle, (const uint8_t *)"set", 3, (const uint8_t *)"photos", 6);
    if (!code) code = esdk_seal(&handle, 4096, ESDK_ANY_LENGTH, 0);
    if (!code) code = esdk_whole(&handle, (const uint8_t *)"hello", 5, message, sizeof message, &len, &waits);
    if (!code) code = esdk_again(&handle);
    if (code || waits) stop("no message");
    ask(&right);
    if (right.list || right.openers || right.count != 1 || right.leaves[0] != 1 || right.listed > sizeof right.listing) stop("no answer");
    if (right.span || right.range || right.header != len - 5 - 40) stop("no range");
    while (judged(&right, number, false)) number++;
    while (judged(&right, from, true)) from++;
    esdk_close(&handle);
    printf("%lu requests refused, each alone, and %lu times all from one on\n", number - 1, from - 1);
    return number > 4 && from > 4 ? 0 : 1;
}
