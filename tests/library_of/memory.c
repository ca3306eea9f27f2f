/* Memory that is refused: the request with each number, and all from each number on. */
#include "refusing.h"

static const char ring[] =
    "{\"version\":1,\"ring\":{\"multi\":{\"generator\":{\"raw\":{\"namespace\":\"backups\",\"name\":\"2026\","
    "\"key\":\"AAECAwQFBgcICQoLDA0ODxAREhMUFRYXGBkaGxwdHh8=\"}},\"children\":[{\"raw\":{\"namespace\":\"backups\","
    "\"name\":\"2027\",\"key\":\"gIGCg4SFhoeIiYqLjI2Oj5CRkpOUlZaXmJmam5ydnp8=\"}}]}}}";
static uint8_t text[1000], drawn[88];

static int32_t seal(esdk_handle *handle, struct came *message) {
    int32_t code = esdk_pair(handle, (const uint8_t *)"set", 3, (const uint8_t *)"photos", 6);
    if (code == ESDK_OK) code = esdk_pair(handle, (const uint8_t *)"tenant", 6, (const uint8_t *)"acme", 4);
    if (code == ESDK_OK) code = esdk_require(handle, (const uint8_t *)"tenant", 6);
    if (code == ESDK_OK) code = esdk_seal_with(handle, 100, sizeof text, 0, drawn, sizeof drawn);
    return code == ESDK_OK ? all_of_it(handle, text, sizeof text, message) : code;
}

static int32_t open_it(esdk_handle *handle, const struct came *message, struct came *back) {
    int32_t code = esdk_pair(handle, (const uint8_t *)"tenant", 6, (const uint8_t *)"acme", 4);
    if (code == ESDK_OK) code = esdk_open(handle, 0, 0, false);
    return code == ESDK_OK ? all_of_it(handle, message->at, message->len, back) : code;
}

static int32_t both(esdk_handle *handle, const struct came *right, struct came *message, struct came *back) {
    int32_t code = esdk_new(handle, (const uint8_t *)ring, strlen(ring));
    if (code == ESDK_OK) code = seal(handle, message);
    if (code == ESDK_OK) code = esdk_again(handle);
    return code == ESDK_OK ? open_it(handle, right, back) : code;
}

/* What is right where memory is refused in this way; whether any was. */
static bool judged(const struct came *right, unsigned long number, bool from_there_on) {
    static struct came message, back;
    char room[64];
    esdk_handle handle = ESDK_INIT;
    int32_t code;
    size_t len;
    bool refused_some;
    message.len = back.len = 0;
    requests = 0, refused = number, onwards = from_there_on, counts = true;
    code = both(&handle, right, &message, &back);
    refused_some = requests >= number;
    len = esdk_error(&handle, (uint8_t *)room, sizeof room);
    counts = false;
    if (code != (refused_some ? ESDK_MEMORY : ESDK_OK)) stop("another code");
    if (refused_some && len != 0 && (len != 6 || memcmp(room, "Memory", 6))) stop("another line");
    if (!is_front(&message, right->at, right->len) || !is_front(&back, text, sizeof text)) stop("other bytes");
    if (!refused_some && (message.len != right->len || back.len != sizeof text)) stop("it isn't whole");
    /* The handle serves on, or is made anew. */
    message.len = back.len = 0;
    if (esdk_again(&handle) == ESDK_OK && (seal(&handle, &message) != ESDK_OK || !is_front(right, message.at, message.len))) stop("another message");
    message.len = 0;
    if (both(&handle, right, &message, &back) != ESDK_OK || back.len != sizeof text) stop("it doesn't serve on");
    esdk_close(&handle);
    return refused_some;
}

int main(void) {
    static struct came right, none, back;
    esdk_handle handle = ESDK_INIT;
    unsigned long number = 1, from = 1;
    for (size_t at = 0; at < sizeof text; at++) text[at] = (uint8_t)(at * at / 3);
    for (size_t at = 0; at < sizeof drawn; at++) drawn[at] = (uint8_t)(at * 5 + 1);
    if (both(&handle, &none, &right, &back) != ESDK_TRUNCATED || right.len < sizeof text) stop("no message");
    esdk_close(&handle);
    while (judged(&right, number, false)) number++;
    while (judged(&right, from, true)) from++;
    printf("%lu requests refused, each alone, and %lu times all from one on\n", number - 1, from - 1);
    return number > 10 && from > 10 ? 0 : 1;
}
