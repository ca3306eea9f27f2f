/* Memory that is refused while a message goes to new keys: the request with each number, and all from each number on. */
#include "refusing.h"

static const char ring[] = "backups 2026 000102030405060708090a0b0c0d0e0f101112131415161718191a1b1c1d1e1f";
static const char new_ring[] =
    "{\"version\":2,\"ring\":{\"multi\":{\"generator\":{\"raw\":{\"namespace\":\"backups\",\"name\":\"2027\","
    "\"key\":\"gIGCg4SFhoeIiYqLjI2Oj5CRkpOUlZaXmJmam5ydnp8=\"}},\"children\":[{\"raw\":{\"namespace\":\"others\","
    "\"name\":\"2027\",\"key\":\"AAECAwQFBgcICQoLDA0ODxAREhMUFRYXGBkaGxwdHh8=\"}}]}}}";
static uint8_t text[1000], drawn[88];
static struct came old, moved;

/* A message of two pairs, of which one is only authenticated. */
static int32_t seal_it(esdk_handle *handle) {
    int32_t code = esdk_new(handle, (const uint8_t *)ring, strlen(ring));
    if (code == ESDK_OK) code = esdk_pair(handle, (const uint8_t *)"set", 3, (const uint8_t *)"photos", 6);
    if (code == ESDK_OK) code = esdk_pair(handle, (const uint8_t *)"tenant", 6, (const uint8_t *)"acme", 4);
    if (code == ESDK_OK) code = esdk_require(handle, (const uint8_t *)"tenant", 6);
    if (code == ESDK_OK) code = esdk_seal_with(handle, 100, sizeof text, 0, drawn, 76);
    return code == ESDK_OK ? all_of_it(handle, text, sizeof text, &old) : code;
}

/* Of a session that is set up. */
static int32_t reseal_it(esdk_handle *handle, struct came *came) {
    int32_t code = esdk_pair(handle, (const uint8_t *)"tenant", 6, (const uint8_t *)"acme", 4);
    came->len = 0;
    if (code == ESDK_OK) {
        code = esdk_reseal_with(handle, (const uint8_t *)new_ring, strlen(new_ring), 70, 1, 100, false, drawn, sizeof drawn);
    }
    return code == ESDK_OK ? all_of_it(handle, old.at, old.len, came) : code;
}

static int32_t all(esdk_handle *handle, struct came *came) {
    int32_t code = esdk_new(handle, (const uint8_t *)ring, strlen(ring));
    came->len = 0;
    return code == ESDK_OK ? reseal_it(handle, came) : code;
}

/* The new message opens to the text under the new keys alone. */
static bool is_moved(const struct came *came) {
    static struct came back;
    esdk_handle handle = ESDK_INIT;
    const char *const rings[] = {new_ring, ring};
    int32_t codes[2] = {-1, -1};
    for (int at = 0; at < 2; at++) {
        back.len = 0;
        codes[at] = esdk_new(&handle, (const uint8_t *)rings[at], strlen(rings[at]));
        if (codes[at] == ESDK_OK) codes[at] = esdk_pair(&handle, (const uint8_t *)"tenant", 6, (const uint8_t *)"acme", 4);
        if (codes[at] == ESDK_OK) codes[at] = esdk_open(&handle, 2, 70, false);
        if (codes[at] == ESDK_OK) codes[at] = all_of_it(&handle, came->at, came->len, &back);
        if (at == 0 && (back.len != sizeof text || memcmp(back.at, text, sizeof text))) return false;
    }
    esdk_close(&handle);
    return codes[0] == ESDK_OK && codes[1] == ESDK_NO_KEY_OPENS;
}

/* What is right where memory is refused in this way; whether any was. */
static bool judged(unsigned long number, bool from_there_on) {
    static struct came came;
    char room[64];
    esdk_handle handle = ESDK_INIT;
    int32_t code;
    size_t len;
    bool refused_some;
    requests = 0, refused = number, onwards = from_there_on, counts = true;
    code = all(&handle, &came);
    refused_some = requests >= number;
    len = esdk_error(&handle, (uint8_t *)room, sizeof room);
    counts = false;
    if (code != (refused_some ? ESDK_MEMORY : ESDK_OK)) stop("another code");
    if (refused_some && len != 0 && (len != 6 || memcmp(room, "Memory", 6))) stop("another line");
    if (!is_front(&came, moved.at, moved.len) || (refused_some && came.len == moved.len)) stop("other bytes");
    if (!refused_some && came.len != moved.len) stop("it isn't whole");
    /* The handle serves on, or is made anew. */
    if (esdk_again(&handle) == ESDK_OK && (reseal_it(&handle, &came) != ESDK_OK || came.len != moved.len)) stop("another message");
    if (all(&handle, &came) != ESDK_OK || came.len != moved.len || !is_front(&came, moved.at, moved.len)) stop("it doesn't serve on");
    esdk_close(&handle);
    return refused_some;
}

int main(void) {
    esdk_handle handle = ESDK_INIT;
    unsigned long number = 1, from = 1;
    for (size_t at = 0; at < sizeof text; at++) text[at] = (uint8_t)(at * at / 3);
    for (size_t at = 0; at < sizeof drawn; at++) drawn[at] = (uint8_t)(at * 5 + 1);
    if (seal_it(&handle) != ESDK_OK || all(&handle, &moved) != ESDK_OK || !is_moved(&moved)) stop("no message");
    esdk_close(&handle);
    while (judged(number, false)) number++;
    while (judged(from, true)) from++;
    printf("%lu requests refused, each alone, and %lu times all from one on\n", number - 1, from - 1);
    return number > 10 && from > 10 ? 0 : 1;
}
