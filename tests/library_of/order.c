/* Each call in each state of a handle, and the code that esdk.h says. */
#include "common.h"

static int tried, wrong;

static const char key_line[] = "backups 2026 000102030405060708090a0b0c0d0e0f101112131415161718191a1b1c1d1e1f";
static uint8_t drawn[76], room[4096];
static size_t written, waits;

static void want(const char *state, const char *call, long long is, long long wanted) {
    tried++;
    if (is == wanted) return;
    wrong++;
    printf("WRONG: %s, %s: %lld, and %lld is wanted\n", state, call, is, wanted);
}

static const uint8_t *text_of(const char *words) { return (const uint8_t *)words; }

enum state { NEVER, REFUSED, SET_UP, SEALING, OPENING, RESEALING, SEALED, OPENED, RESEALED, FAILED, NEW_REFUSED, CLOSED, STATES };
static const char *const names[] = {"never made", "a refused keyring file", "set up",   "sealing",        "opening",          "resealing",
                                    "sealed",     "opened",                 "resealed", "failed to open", "refused new keys", "closed"};

/* A whole message of the text `hello` and the pair set=photos. */
static uint8_t message[1024];
static size_t message_len;

static const char new_line[] = "backups 2027 808182838485868788898a8b8c8d8e8f909192939495969798999a9b9c9d9e9f";

static int32_t reseal_to(esdk_handle *handle, const char *line, uint32_t frame, size_t random) {
    return esdk_reseal_with(handle, text_of(line), strlen(line), frame, 0, 0, false, drawn, random);
}

/* A handle in this state. */
static void reach(esdk_handle *handle, enum state state) {
    size_t len = state == FAILED ? message_len - 1 : message_len;
    esdk_close(handle);
    memset(handle, 0, sizeof *handle);
    if (state == NEVER) return;
    if (state == REFUSED) {
        esdk_new(handle, text_of("a b"), 3);
        return;
    }
    esdk_new(handle, text_of(key_line), strlen(key_line));
    if (state == SEALING || state == SEALED) {
        esdk_pair(handle, text_of("set"), 3, text_of("photos"), 6);
        esdk_seal_with(handle, 4096, ESDK_ANY_LENGTH, 0, drawn, sizeof drawn);
        if (state == SEALED) esdk_whole(handle, text_of("hello"), 5, room, sizeof room, &written, &waits);
    }
    if (state == OPENING || state == OPENED || state == FAILED) {
        esdk_open(handle, 0, 0, false);
        if (state != OPENING) esdk_whole(handle, message, len, room, sizeof room, &written, &waits);
    }
    if (state == RESEALING || state == RESEALED) {
        reseal_to(handle, new_line, 4096, sizeof drawn);
        if (state == RESEALED) esdk_whole(handle, message, len, room, sizeof room, &written, &waits);
    }
    if (state == NEW_REFUSED) reseal_to(handle, "a b", 4096, sizeof drawn);
    if (state == CLOSED) esdk_close(handle);
}

/* A call that goes on: its code, and that it hands nothing out where it doesn't fit. */
static void want_going(enum state state, const char *call, int32_t code, int32_t wanted) {
    want(names[state], call, code, wanted);
    if (wanted / 1000 == 2) want(names[state], "what it wrote then", (long long)written, 0);
    written = waits = 77;
}

static void calls_in(enum state state) {
    static const int setting[STATES] = {2001, 2003, 0, 2002, 2002, 2002, 2003, 2003, 2003, 2003, 2003, 2001};
    static const int going[STATES] = {2001, 2003, 2002, 0, 0, 0, 2003, 2003, 2003, 2003, 2003, 2001};
    static const int finishing[STATES] = {2001, 2003, 2002, 0, 1010, 1010, 2003, 2003, 2003, 2003, 2003, 2001};
    static const int whole[STATES] = {2001, 2003, 2002, 0, 1010, 1010, 2003, 2003, 2003, 2003, 2003, 2001};
    static const int taking[STATES] = {2001, 0, 0, 0, 0, 0, 0, 0, 0, 0, 0, 2001};
    static const int again[STATES] = {2001, 2003, 0, 0, 0, 0, 0, 0, 0, 0, 0, 2001};
    static const int pairs[STATES] = {-1, -1, -1, -1, -1, -1, -1, 1, 1, -2, -1, -1};
    static const char *const lines[STATES] = {[REFUSED] = "K2 BadShape 1", [FAILED] = "M10 Truncated", [NEW_REFUSED] = "K2 BadShape 1"};
    static const char *const short_lines[STATES] = {[REFUSED] = "K2 BadShape", [FAILED] = "M10 Truncated", [NEW_REFUSED] = "K2 BadShape"};
    const char *wanted = lines[state] ? lines[state] : "", *wanted_name = short_lines[state] ? short_lines[state] : "";
    esdk_handle handle = ESDK_INIT;
    const char *name = names[state];
    char line[64];
    reach(&handle, state);
    want(name, "esdk_draws", esdk_draws(&handle), state == NEVER || state == REFUSED || state == CLOSED ? 0 : 76);
    if (pairs[state] != -2) {
        want(name, "esdk_pairs", esdk_pairs(&handle), pairs[state]);
        want(name, "esdk_pair_key", esdk_pair_key(&handle, 0, room, sizeof room), pairs[state] == 1 ? 3 : -1);
        want(name, "esdk_pair_value", esdk_pair_value(&handle, 0, room, sizeof room), pairs[state] == 1 ? 6 : -1);
        want(name, "esdk_pair_value of no pair", esdk_pair_value(&handle, SIZE_MAX, room, sizeof room), -1);
    }
    memset(line, 0, sizeof line);
    want(name, "esdk_error", (long long)esdk_error(&handle, (uint8_t *)line, sizeof line), (long long)strlen(wanted));
    want(name, "the line", strcmp(line, wanted), 0);
    memset(line, 0, sizeof line);
    want(name, "esdk_error_name", (long long)esdk_error_name(&handle, (uint8_t *)line, sizeof line), (long long)strlen(wanted_name));
    want(name, "the name", strcmp(line, wanted_name), 0);
    memset(line, 'x', sizeof line);
    esdk_error(&handle, (uint8_t *)line, 2);
    want(name, "a byte behind the room of a line", line[2], 'x');

    want(name, "esdk_pair", esdk_pair(&handle, text_of("k"), 1, text_of("v"), 1), setting[state]);
    reach(&handle, state);
    want(name, "esdk_require", esdk_require(&handle, text_of("k"), 1), setting[state]);
    reach(&handle, state);
    want(name, "esdk_seal_with", esdk_seal_with(&handle, 1, 0, 0, drawn, sizeof drawn), setting[state]);
    reach(&handle, state);
    want(name, "esdk_seal", esdk_seal(&handle, 1, 0, 0), setting[state]);
    reach(&handle, state);
    want(name, "esdk_open", esdk_open(&handle, 0, 0, false), setting[state]);
    reach(&handle, state);
    want(name, "esdk_reseal_with", reseal_to(&handle, new_line, 1, sizeof drawn), setting[state]);
    reach(&handle, state);
    want(name, "esdk_reseal", esdk_reseal(&handle, text_of(new_line), strlen(new_line), 1, 0, 0, false), setting[state]);
    reach(&handle, state);
    want_going(state, "esdk_take", esdk_take(&handle, room, sizeof room, &written, &waits), taking[state]);
    reach(&handle, state);
    want_going(state, "esdk_feed", esdk_feed(&handle, message, 1, room, sizeof room, &written, &waits), going[state]);
    reach(&handle, state);
    want_going(state, "esdk_feed of nothing", esdk_feed(&handle, ESDK_NOTHING, 0, room, 0, &written, &waits), going[state]);
    reach(&handle, state);
    want_going(state, "esdk_finish", esdk_finish(&handle, room, sizeof room, &written, &waits), finishing[state]);
    reach(&handle, state);
    want_going(state, "esdk_whole", esdk_whole(&handle, message, 1, room, sizeof room, &written, &waits), whole[state]);
    reach(&handle, state);
    want(name, "esdk_again", esdk_again(&handle), again[state]);
    if (again[state] == 0) {
        want(name, "esdk_draws behind esdk_again", esdk_draws(&handle), 76);
        want(name, "esdk_error behind esdk_again", (long long)esdk_error(&handle, room, sizeof room), 0);
        want(name, "esdk_pairs behind esdk_again", esdk_pairs(&handle), -1);
        want(name, "esdk_pair behind esdk_again", esdk_pair(&handle, text_of("set"), 3, text_of("x"), 1), 0);
    }
    reach(&handle, state);
    want(name, "esdk_new", esdk_new(&handle, text_of(key_line), strlen(key_line)), 0);
    want(name, "esdk_new, and again", esdk_new(&handle, text_of(key_line), strlen(key_line)), 0);
    for (int times = 0; times < 3; times++) {
        esdk_close(&handle);
        want(name, "a closed handle is zero", handle.live || handle.state, 0);
    }
    reach(&handle, state);
    esdk_close(&handle);
    esdk_close(&handle);
}

/* A code of family 2 changes nothing: the message that follows is the one that would have come. */
static void nothing_is_changed(void) {
    static const uint8_t no_text[] = {0xff};
    static uint8_t came[1024];
    esdk_handle handle = ESDK_INIT;
    size_t begun = 0, more = 0;
    const char *name = "a code of family 2 before";
    esdk_new(&handle, text_of(key_line), strlen(key_line));
    want(name, "a key that isn't UTF-8", esdk_pair(&handle, no_text, 1, text_of("v"), 1), ESDK_NOT_TEXT);
    want(name, "a value that isn't UTF-8", esdk_pair(&handle, text_of("k"), 1, no_text, 1), ESDK_NOT_TEXT);
    want(name, "a required key that isn't UTF-8", esdk_require(&handle, no_text, 1), ESDK_NOT_TEXT);
    want(name, "the pair", esdk_pair(&handle, text_of("set"), 3, text_of("photos"), 6), 0);
    want(name, "a frame of 0 bytes", esdk_seal_with(&handle, 0, 0, 0, drawn, sizeof drawn), ESDK_BAD_FRAME);
    want(name, "a random byte too few", esdk_seal_with(&handle, 4096, 0, 0, drawn, 75), ESDK_BAD_RANDOM);
    want(name, "no random bytes", esdk_seal_with(&handle, 4096, 0, 0, ESDK_NOTHING, 0), ESDK_BAD_RANDOM);
    want(name, "a frame of 0 bytes under new keys", reseal_to(&handle, new_line, 0, sizeof drawn), ESDK_BAD_FRAME);
    want(name, "the same, and a file that is refused", reseal_to(&handle, "a b", 0, 0), ESDK_BAD_FRAME);
    want(name, "a random byte too few for new keys", reseal_to(&handle, new_line, 4096, 75), ESDK_BAD_RANDOM);
    want(name, "no random bytes for new keys", reseal_to(&handle, new_line, 4096, 0), ESDK_BAD_RANDOM);
    want(name, "esdk_draws", esdk_draws(&handle), 76);
    want(name, "esdk_feed", esdk_feed(&handle, message, 1, room, sizeof room, &written, &waits), ESDK_NOT_NOW);
    want(name, "the message", esdk_seal_with(&handle, 4096, ESDK_ANY_LENGTH, 0, drawn, sizeof drawn), 0);
    want(name, "esdk_open", esdk_open(&handle, 0, 0, false), ESDK_NOT_NOW);
    want(name, "a pair", esdk_pair(&handle, text_of("a"), 1, text_of("b"), 1), ESDK_NOT_NOW);
    want(name, "the text, without room", esdk_feed(&handle, text_of("hello"), 5, came, 0, &begun, &waits), 0);
    want(name, "the end, with room for a byte", esdk_finish(&handle, came, 1, &begun, &waits), 0);
    want(name, "a byte comes", (long long)begun, 1);
    want(name, "and the others wait", (long long)waits, (long long)message_len - 1);
    want(name, "the end twice", esdk_finish(&handle, room, sizeof room, &more, &waits), ESDK_ENDED);
    want(name, "and the others wait still", (long long)waits, (long long)message_len - 1);
    want(name, "the rest", esdk_take(&handle, came + 1, sizeof came - 1, &more, &waits), 0);
    want(name, "nothing waits", (long long)waits, 0);
    want(name, "the same message", (long long)(begun + more), (long long)message_len);
    want(name, "its bytes", memcmp(came, message, message_len), 0);
    esdk_close(&handle);
}

/* What waits is handed out behind an error, too; and a text of another message isn't mixed with it. */
static void behind_an_error(void) {
    esdk_handle handle = ESDK_INIT;
    const char *name = "behind an error";
    esdk_new(&handle, text_of(key_line), strlen(key_line));
    esdk_open(&handle, 0, 0, false);
    memcpy(room, message, message_len);
    room[message_len] = 0;
    want(name, "a byte too many", esdk_feed(&handle, room, message_len + 1, message + 1000, 0, &written, &waits), 1022);
    want(name, "the text waits", (long long)waits, 5);
    want(name, "esdk_pairs", esdk_pairs(&handle), 1);
    want(name, "esdk_feed", esdk_feed(&handle, message, 1, room, 0, &written, &waits), ESDK_ENDED);
    want(name, "esdk_take", esdk_take(&handle, room, sizeof room, &written, &waits), 0);
    want(name, "what it gives", written == 5 && memcmp(room, "hello", 5) == 0, 1);
    want(name, "esdk_again", esdk_again(&handle), 0);
    esdk_open(&handle, 0, 0, false);
    want(name, "another message", esdk_feed(&handle, message, message_len, room, 2, &written, &waits), 0);
    want(name, "its text waits", (long long)waits, 3);
    want(name, "esdk_again with a text that waits", esdk_again(&handle), 0);
    want(name, "esdk_take", esdk_take(&handle, room, sizeof room, &written, &waits), 0);
    want(name, "what waited is gone", (long long)(written + waits), 0);
    esdk_close(&handle);
}

/* A message of two frames, and its length. */
static size_t two_frames(uint8_t *to, size_t size) {
    esdk_handle handle = ESDK_INIT;
    size_t len = 0;
    esdk_new(&handle, text_of(key_line), strlen(key_line));
    esdk_seal(&handle, 4, ESDK_ANY_LENGTH, 0);
    want("two frames", "esdk_whole", esdk_whole(&handle, text_of("hello"), 5, to, size, &len, &waits), 0);
    esdk_close(&handle);
    return len;
}

/* esdk_whole hands out a text that is whole, and nothing of another one; what has no room waits. */
static void all_or_nothing(void) {
    static uint8_t two[1024];
    esdk_handle handle = ESDK_INIT;
    size_t len = two_frames(two, sizeof two);
    const char *name = "esdk_whole";
    esdk_new(&handle, text_of(key_line), strlen(key_line));
    esdk_open(&handle, 0, 0, false);
    memset(room, 7, sizeof room);
    want(name, "a message that is cut", esdk_whole(&handle, two, len - 1, room, sizeof room, &written, &waits), ESDK_TRUNCATED);
    want(name, "what it handed out", (long long)written, 0);
    want(name, "the room", room[0] == 7 && memcmp(room, room + 1, 9) == 0, 1);
    want(name, "the first frame's text waits", (long long)waits, 4);
    want(name, "esdk_take", esdk_take(&handle, room, sizeof room, &written, &waits), 0);
    want(name, "what it gives", written == 4 && memcmp(room, "hell", 4) == 0, 1);
    esdk_again(&handle);
    esdk_open(&handle, 0, 0, false);
    want(name, "room for a byte", esdk_whole(&handle, two, len, room, 1, &written, &waits), 0);
    want(name, "a byte comes, and the others wait", (long long)(written * 10 + waits), 14);
    want(name, "the others", esdk_take(&handle, room + 1, sizeof room - 1, &written, &waits), 0);
    want(name, "the text", written == 4 && memcmp(room, "hello", 5) == 0, 1);
    want(name, "and again", esdk_whole(&handle, two, len, room, sizeof room, &written, &waits), ESDK_ENDED);
    want(name, "what it handed out then", (long long)written, 0);
    esdk_close(&handle);
}

int main(void) {
    esdk_handle handle = ESDK_INIT;
    want("the library", "esdk_abi", esdk_abi(), ESDK_ABI);
    want("the library", "esdk_check", esdk_check(), ESDK_OK);
    for (size_t at = 0; at < sizeof drawn; at++) drawn[at] = (uint8_t)(at * 7);
    reach(&handle, SEALING);
    want("a message", "esdk_whole", esdk_whole(&handle, text_of("hello"), 5, message, sizeof message, &message_len, &waits), 0);
    want("a message", "nothing waits", (long long)waits, 0);
    esdk_close(&handle);
    for (int state = NEVER; state < STATES; state++) calls_in((enum state)state);
    nothing_is_changed();
    behind_an_error();
    all_or_nothing();
    printf("%d tried, %d wrong\n", tried, wrong);
    return wrong ? 1 : 0;
}
