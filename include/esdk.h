/* esdk.h: a sealer and opener of the AWS Encryption SDK message format, for callers of another
 * language. Messages of format 2.0 are sealed and opened, messages of format 1.0 opened. What each
 * export answers is proved (docs/PROOFS.md); this page, its inline functions and what a caller owes
 * are not.
 *
 *     esdk_handle handle = ESDK_INIT;
 *     esdk_new(&handle, file, file_len);              the keyring file's bytes
 *     esdk_pair(&handle, "set", 3, "photos", 6);      the encryption context
 *     esdk_seal(&handle, 4096, ESDK_ANY_LENGTH, 0);   or esdk_open(&handle, 0, 0, false), or
 *                                                     esdk_reseal(&handle, other, other_len, 4096,
 *                                                     0, 0, false)
 *     esdk_feed(&handle, piece, n, room, sizeof room, &written, &waits);     again and again
 *     esdk_take(&handle, room, sizeof room, &written, &waits);               while waits is not 0
 *     esdk_finish(&handle, room, sizeof room, &written, &waits);             and take what waits
 *     esdk_close(&handle);
 *
 * The library is linked by -lesdk (libesdk.a or libesdk.so.1); libesdk.a wants no library but C's.
 *
 * WHAT A CALLER OWES. Nothing tests these; whoever breaks one has no promise left.
 *  1. A handle is all zero bytes at first (ESDK_INIT), and then it is written by these calls alone.
 *     It is not copied: once one copy was closed, the other is a use of freed memory. It is in one
 *     call at a time. Two threads may use two handles at once, which share nothing. Nothing in a
 *     handle belongs to a thread, so that it may go to another one between two calls: that is
 *     proved. A fork makes a copy: of a message that is sealed or resealed, one of the two processes
 *     alone goes on. Both would seal under one key with the same IVs, and that gives the texts away.
 *  2. A pointer with a length is to so many bytes, and it is not NULL, also where the length is 0
 *     (ESDK_NOTHING is such a pointer). `handle`, `written`, `waits`, `whole` and the numbers of
 *     esdk_span are not NULL.
 *  3. What a call writes (the handle, the room, the numbers, *written, *waits, *whole) overlaps
 *     nothing else that the same call is given.
 *  4. malloc, realloc and free are of one allocator, which aligns to 16. No call is made from a
 *     signal handler, nor from the forked child of a process with threads.
 *  5. A bool is 0 or 1.
 *  6. The processor is an x86-64-v2 one. `esdk_check` tests that: call it once, before the rest.
 *  7. Random bytes given to `esdk_seal_with` or `esdk_reseal_with` are of a cryptographic generator,
 *     and are used for one message only. `esdk_seal` and `esdk_reseal` draw them themselves: only
 *     tests need the others.
 *  8. There is stack for the call. How much it takes isn't proved.
 *
 * What else may be wrong is tested, and answers a code: a handle that was never made or is closed, a
 * call that doesn't fit the state, text that isn't UTF-8, a number out of range, too few random
 * bytes. A room is never too small: what has no room in it waits.
 *
 * WHAT COUNTS. Text of a message that is opened is handed out once its frame's tag was found right,
 * and before the end of the message was seen. So it counts only once esdk_finish or esdk_whole
 * answered ESDK_OK: throw away what was handed out where any call before answered an error
 * (esdk_whole hands nothing out at one). Compare the context (esdk_pair_key, esdk_pair_value) with
 * what you expect before you use the text: a message of another context under the same key opens as
 * well. What is handed out while a message is sealed or resealed is a message only once esdk_finish
 * or esdk_whole answered ESDK_OK and nothing waits any more.
 *
 * CODES. 0 is done. A code is family * 1000 + number. The families are the exit statuses of the
 * program `esdk`, and the numbers those of its lines:
 *     1001 to 1027   M1 to M27: the message has this fault, as 1020 for M20 UnitTag
 *     2001 to 2010   what the caller passed: the ESDK_ names below
 *     3001 to 3011   K1 to K11: the keyring file is refused
 *     4004, 4005     X4 EntropyFault: no random bytes came; X5 KeyringFault: a keyring failed
 *     5000           Memory: memory ran out
 *     6001 to 6010   Q1 to Q10: the request, or the text, is refused
 * A code of family 2, and 4004, changes nothing: it is as if the call had not been made. Every
 * other error ends the session, but those of esdk_list, esdk_openers, esdk_span and esdk_range, which
 * change nothing that a caller sees: from then on each call that would go on answers ESDK_ENDED, and
 * there remain esdk_take, esdk_error, esdk_error_name, esdk_pairs, esdk_pair_key, esdk_pair_value,
 * esdk_again, esdk_new and esdk_close.
 * docs/LINES.md says of each line what to do next. */
#ifndef ESDK_H
#define ESDK_H

#include <stdbool.h>
#include <stddef.h>
#include <stdint.h>

#include <cpuid.h>
#include <errno.h>
#include <sys/random.h>

#ifdef __cplusplus
extern "C" {
#endif

/* Raised with each change of this page that a compiled caller could notice. */
#define ESDK_ABI 1

/* The codes of family 2, and those of the other families that name no line's number, or that a
 * caller mostly asks for. */
enum {
    ESDK_OK = 0,
    ESDK_TRUNCATED = 1010,     /* M10: the message ends before it is whole */
    ESDK_NO_KEY_OPENS = 1015,  /* M15: no key of the keyring file opens it */
    ESDK_UNIT_TAG = 1020,      /* M20: the tag of a frame is wrong */
    ESDK_NO_SESSION = 2001,    /* the handle was never made, or is closed */
    ESDK_NOT_NOW = 2002,       /* the call doesn't fit: see each call */
    ESDK_ENDED = 2003,         /* the message was finished, or an earlier call answered an error */
    ESDK_NOT_TEXT = 2004,      /* a key or a value isn't UTF-8 */
    ESDK_BAD_FRAME = 2005,     /* a frame length of 0 */
    ESDK_BAD_RANDOM = 2006,    /* not as many random bytes as esdk_draws says */
    ESDK_OTHER_ABI = 2007,     /* the library is of another ABI than this page: esdk_check alone */
    ESDK_OLD_PROCESSOR = 2008, /* the processor isn't an x86-64-v2 one: esdk_check alone */
    ESDK_BAD_RANGE = 2009,     /* no message has such a range: esdk_span and esdk_range alone */
    ESDK_MISSING = 2010,       /* bytes are wanted that weren't passed: esdk_range alone */
    ESDK_NO_RANDOM = 4004,     /* X4: the system gave no random bytes: esdk_seal, esdk_reseal alone */
    ESDK_MEMORY = 5000         /* memory ran out */
};

/* A session with one message at a time, and the keyring file's tree, which serves one message after
 * another. Only the library reads or writes the fields. */
typedef struct esdk_handle {
    void *state;
    bool live;
} esdk_handle;

#ifdef __cplusplus
#define ESDK_INIT {nullptr, false}
#else
#define ESDK_INIT {0, false}
#endif

/* For a pointer with the length 0. */
#define ESDK_NOTHING ((const uint8_t *)"")

/* No length is declared. */
#define ESDK_ANY_LENGTH UINT64_MAX

/* The most random bytes that a message takes. */
#define ESDK_MOST_DRAWN 832

/* The library's ESDK_ABI. */
uint32_t esdk_abi(void);

/* ---- A session that is set up. ---- */

/* Reads the keyring file in these bytes (a key line, or JSON: docs/FORMAT.md), and makes a session
 * that is set up: no pair, no required key. A handle that has a session is closed first. The bytes
 * may be overwritten afterwards.
 *
 * 3001 to 3008 and 3010: the file is refused, 3010 where it has over 1,048,576 bytes; a file that
 * names a keyring that isn't in it ({"plug":..}) is 3008. ESDK_MEMORY. After an error the session
 * has ended, and serves esdk_error alone; but where memory ran out there may be none. */
int32_t esdk_new(esdk_handle *handle, const uint8_t *file, size_t file_len);

/* Frees what the handle holds; it is as ESDK_INIT again. A closed handle may be closed again. A
 * handle that isn't closed keeps its memory, and the keys in it. */
void esdk_close(esdk_handle *handle);

/* The session is set up again, for another message under the same keyring file, which isn't read
 * again: no pair, no required key, and nothing waits; what waited is gone. It may be called in any
 * state, also after an error.
 *
 * ESDK_NO_SESSION; ESDK_ENDED where esdk_new answered an error: there is no keyring file. */
int32_t esdk_again(esdk_handle *handle);

/* Puts a pair into the context of the message to seal, or into the pairs that are given to open
 * one. Both are UTF-8, and are copied. To open, a pair that the message stores must have its value
 * (M12 else), and one that it doesn't store is one of those that it authenticates only.
 *
 * ESDK_NO_SESSION; ESDK_ENDED; ESDK_NOT_NOW where the session isn't set up any more; ESDK_NOT_TEXT.
 * 6002: over 65,535 bytes; 6003: the key is there already; ESDK_MEMORY: these end the session. */
int32_t esdk_pair(esdk_handle *handle, const uint8_t *key, size_t key_len, const uint8_t *value,
                  size_t value_len);

/* Requires this key. Its pair is to be put by esdk_pair, before or after. A required pair isn't
 * stored in the message that is sealed, but authenticated: who opens it has to give it. To open, a
 * required key must be among the pairs that are given (M13 else). A key may be required twice.
 *
 * As esdk_pair, but for 6002 and 6003. */
int32_t esdk_require(esdk_handle *handle, const uint8_t *key, size_t key_len);

/* ---- Begin. The session isn't set up any more. ---- */

/* How many random bytes esdk_seal_with takes: 64, and 12 for each key of the keyring file that
 * wraps. 0 where no keyring file was read. */
uint32_t esdk_draws(esdk_handle *handle);

/* Begins a message that is sealed with these random bytes: 32 of the message id, 32 of the data key,
 * 12 for each wrapping. `frame_length`: the bytes of a frame, as much memory is taken. `length`: of
 * so many bytes the text is to be at the most, or ESDK_ANY_LENGTH. `max_keys`: the most encrypted
 * data keys, or 0 for no limit. What the message begins with waits: the next esdk_feed, esdk_take or
 * esdk_finish hands it out.
 *
 * ESDK_NO_SESSION; ESDK_ENDED; ESDK_NOT_NOW where the session isn't set up any more;
 * ESDK_BAD_FRAME; ESDK_BAD_RANDOM. 6001, 6004 to 6008, ESDK_MEMORY: these end the session. */
int32_t esdk_seal_with(esdk_handle *handle, uint32_t frame_length, uint64_t length,
                       uint16_t max_keys, const uint8_t *random, size_t random_len);

/* Begins a message that is opened. `max_keys`: the most encrypted data keys that it may have (M5
 * else), or 0 for no limit. `max_unit`: the most bytes of a frame or a single block (M9 else), or 0
 * for no limit; as much memory is taken. `uncommitted`: whether a message of format 1.0 is opened
 * too, which doesn't commit to its data key (M23 else).
 *
 * ESDK_NO_SESSION; ESDK_ENDED; ESDK_NOT_NOW where the session isn't set up any more. */
int32_t esdk_open(esdk_handle *handle, uint16_t max_keys, uint64_t max_unit, bool uncommitted);

/* Begins a message that is resealed: what is fed is an old message, and what is handed out a new one
 * of the same text and the same whole context, sealed under the keys of another keyring file, whose
 * bytes these are; they may be overwritten afterwards. The old message is opened as by esdk_open: by
 * the handle's own keyring file, with its pairs as those given and its required keys among them, and
 * with the limits `max_keys`, `max_unit` and `uncommitted`. The new one has frames of `frame_length`
 * bytes and declares no length; of the whole context it stores what the old one stores, and who opens
 * it has to give the rest. The random bytes are as many as esdk_draws says of another handle over
 * `file`. Two units are in memory: one of the old message and one of the new.
 *
 * ESDK_NO_SESSION; ESDK_ENDED; ESDK_NOT_NOW where the session isn't set up any more;
 * ESDK_BAD_FRAME. 3001 to 3008 and 3010: `file` is refused, as by esdk_new; ESDK_MEMORY: these end
 * the session. ESDK_BAD_RANDOM, which is looked for last, changes nothing. */
int32_t esdk_reseal_with(esdk_handle *handle, const uint8_t *file, size_t file_len,
                         uint32_t frame_length, uint16_t max_keys, uint64_t max_unit,
                         bool uncommitted, const uint8_t *random, size_t random_len);

/* ---- Go on. ----
 *
 * Each of these calls hands out, into the room, as many of the bytes that wait as it has room for,
 * in order. *written is how many these are, and *waits how many still wait behind them, in memory
 * of the library. At a code of family 2 nothing is handed out: *written is 0, the room is as it was,
 * and *waits is how many wait. */

/* Takes the whole piece, of any length. Of a message that is sealed, a frame is handed out once more
 * bytes come than it has room for; of one that is opened, a frame's text once its last byte came and
 * its tag was found right. Of one that is resealed, the new header is handed out once the tag of the
 * old one was found right, and a new frame once it is full and more text came whose tag was found
 * right. However a text or a message is cut into pieces, what is handed out, put together, is the
 * same.
 *
 * ESDK_NO_SESSION; ESDK_ENDED; ESDK_NOT_NOW where neither esdk_seal, esdk_open nor esdk_reseal came
 * before.
 * Sealing: 6009: the text is longer than 4,294,967,295 frames; 6010: it is longer than declared.
 * Opening: 1001 to 1009, 1011 to 1026: the bytes have this fault; 4005: a keyring failed.
 * Resealing: those of opening, of the old message; 4005 too where a keyring of the new one failed;
 * 6001, 6004 to 6006, 6008: the new message is refused; 6009: its text would have over 4,294,967,295
 * frames.
 * ESDK_MEMORY. These end the session; what was handed out or waits of a message that is opened is
 * the text of the frames before the fault, and of one that is resealed the front of a new message of
 * that text, without its last frame. Where memory ran out, it is a front of what the calls would have
 * given. */
int32_t esdk_feed(esdk_handle *handle, const uint8_t *piece, size_t piece_len, uint8_t *room,
                  size_t room_len, size_t *written, size_t *waits);

/* Says that no byte follows. Of a message that is sealed, the last frame is handed out; of one that
 * is opened, it is told whether it is whole; of one that is resealed, the new one's last frame is
 * handed out where the old one is whole. The session has ended then.
 *
 * ESDK_NO_SESSION; ESDK_ENDED; ESDK_NOT_NOW as esdk_feed. 1010: more bytes are wanted. ESDK_MEMORY. */
int32_t esdk_finish(esdk_handle *handle, uint8_t *room, size_t room_len, size_t *written,
                    size_t *waits);

/* The rest of a message at once: esdk_feed with all of it, and then esdk_finish. At ESDK_OK it hands
 * out, and all is there where *waits is 0. At any other code it hands nothing out: the room is as it
 * was, *written is 0, and what the calls would have handed out waits, which esdk_take hands out;
 * none of it counts. A text is no longer than its message; a message of n bytes of text has these,
 * its header, and at the most 40 bytes for each frame, of which there are at the most
 * n / frame_length + 1.
 *
 * The codes of esdk_feed and of esdk_finish. */
int32_t esdk_whole(esdk_handle *handle, const uint8_t *rest, size_t rest_len, uint8_t *room,
                   size_t room_len, size_t *written, size_t *waits);

/* Hands out of what waits. Takes nothing, and may be called in any state, as often as one likes.
 *
 * ESDK_NO_SESSION, never another code. */
int32_t esdk_take(esdk_handle *handle, uint8_t *room, size_t room_len, size_t *written,
                  size_t *waits);

/* ---- What is told. ----
 *
 * Each of these calls writes as much of a text as the room has room for, and answers how many bytes
 * the whole text has. It isn't ended by a zero byte, and is UTF-8. */

/* The line of the error that ended the session, as the program prints it behind `esdk: `, such as
 * `M20 UnitTag 3`. 0: there was none. Where memory runs out while the line is made, it is
 * esdk_error_name's. */
size_t esdk_error(esdk_handle *handle, uint8_t *room, size_t room_len);

/* Its number and its name alone, such as `M20 UnitTag`. */
size_t esdk_error_name(esdk_handle *handle, uint8_t *room, size_t room_len);

/* How many pairs the whole context has of the message that is opened or resealed: those that it
 * stores, and those that it only authenticates. -1 while the header isn't unlocked, and where no
 * message is opened. They stay until esdk_again, esdk_new or esdk_close. */
int32_t esdk_pairs(esdk_handle *handle);

/* The key, or the value, of the pair of this number, from 0, in the order of the keys' bytes. -1
 * where there is no such pair. */
int32_t esdk_pair_key(esdk_handle *handle, size_t index, uint8_t *room, size_t room_len);
int32_t esdk_pair_value(esdk_handle *handle, size_t index, uint8_t *room, size_t room_len);

/* ---- A message that is asked about, without opening it. ---- */

/* The listing of the header that a message begins with, as the program's `list` prints it: its
 * version, suite, message id, stored pairs, encrypted data keys, frame length, commitment and tag,
 * in lines (docs/FORMAT.md). It takes no handle and no key, so nothing of it is authenticated. What
 * stands behind the header isn't judged, and need not be passed: the first 65,536 bytes of a
 * message mostly have it. `uncommitted`: whether the header of a message of format 1.0 is listed
 * too (M23 else). *whole is how many bytes the whole listing has, and the room has as many of them
 * as it has room for: call again with more room where that was too little. At an error *whole is 0,
 * and the room is as it was.
 *
 * 1001 to 1004, 1006 to 1008, 1023 to 1026: the header has this fault; 1010: the bytes end before
 * the header is whole, pass more of them. ESDK_MEMORY. */
int32_t esdk_list(const uint8_t *message, size_t message_len, bool uncommitted, uint8_t *room,
                  size_t room_len, size_t *whole);

/* Which leaves of the keyring file's tree open, each by itself, the message whose header these bytes
 * begin with, with the pairs that were put as those given: what is asked before a key is taken out
 * of a keyring file (docs/RESTORING.md). The session is set up, and stays so: this is a question,
 * and begins no message. Leaves have numbers from 1, in the order of the file, a generator before
 * the children; retired keys count, and open. A message of format 1.0 is M23. *whole is how many
 * leaves open it, and `numbers` has as many of their numbers as it has room for, ascending; a tree
 * has at most 64. At an error *whole is 0, and `numbers` is as it was.
 *
 * ESDK_NO_SESSION; ESDK_ENDED; ESDK_NOT_NOW where the session isn't set up any more.
 * The codes of esdk_list; 1011, 1012, 1014: the header's pairs, and those that were put, have this
 * fault; 4005: a keyring failed. None of these ends the session, and esdk_error has no line for
 * them. */
int32_t esdk_openers(esdk_handle *handle, const uint8_t *message, size_t message_len,
                     uint32_t *numbers, size_t numbers_len, size_t *whole);

/* ---- A range of a message, of which the caller reads the bytes. ----
 *
 * A message need not be read whole for some of its text: its header and the frames that hold the
 * range are enough, however long it is.
 *
 *     esdk_span(front, front_len, false, at, count, &header, &frame, &offset, &size);
 *     read the message from `offset` on, `size` bytes or as many as there are, into `part`
 *     esdk_range(&handle, front, front_len, offset, part, part_len, ends, false, at, room, count,
 *                &written);                            `handle` is set up, with the pairs that are given
 *
 * What comes is the text that a whole opening would give there, as far as the frames of the range are
 * right, and as `front` and `part` are of one message: read both from a file that stays as it is.
 * Each frame is opened after its tag was found right. Of the frames before them and behind them
 * nothing is said, nor whether the message is whole; but the tag of a frame holds its number, so that
 * none stands in another's place. */

/* Which bytes of a message hold `count` bytes of its text from byte `at` on, by the header that it
 * begins with. It takes no handle and no key, so nothing of it is authenticated. *header is how many
 * bytes the header has, with its tag: the first frame begins there. *frame is how many bytes of text
 * a frame has, but the last one, which may have fewer; it is 0 where the body is a single block.
 * *offset is where the first byte stands that is wanted, and *size how many are, as far as the
 * message has them: the frames of the range, and 8 bytes more, since a last frame has those; of a
 * single block all that there are, and *size is UINT64_MAX. How long the text is the header doesn't
 * tell. `uncommitted` as in esdk_list. At an error each of the four numbers is 0.
 *
 * The codes of esdk_list. ESDK_BAD_RANGE: `count` is 0, or the range ends too far off for 64 bits. */
int32_t esdk_span(const uint8_t *message, size_t message_len, bool uncommitted, uint64_t at,
                  uint64_t count, uint64_t *header, uint32_t *frame, uint64_t *offset,
                  uint64_t *size);

/* The text of a message from byte `at` on, as much as the room has room for, or as there is: *written
 * is how many bytes. The message begins with the bytes `front`, which have all of its header, and has
 * the bytes `part` from `offset` on, the frames that hold the range; `ends` says that it ends behind
 * the part. `part` may be longer. A part of no bytes says that the message ends at `offset`: where
 * `front` is the whole message, pass ESDK_NOTHING, 0, its length as the offset, and true. The session
 * is set up, and stays so: this is a question, and begins no message; its pairs are those given, and
 * its required keys must be among them (M13 else). The header is unlocked anew by each call, so ask
 * for many frames at once. A range that begins at the end of the text or behind it has no bytes where
 * it begins within the last frame's length, and is 1010 or 1018 where it begins behind that.
 * `uncommitted`: whether a message of format 1.0 is opened, too (M23 else). At an error *written is
 * 0, and the room is as it was.
 *
 * ESDK_NO_SESSION; ESDK_ENDED; ESDK_NOT_NOW where the session isn't set up any more; ESDK_BAD_RANGE:
 * `at` or the room's length is over 2^62. ESDK_MISSING: bytes are wanted that weren't passed, as a
 * frame of the range of which the part lacks some; where all that esdk_span names was passed, and
 * `ends` where the message has fewer, it doesn't come (which is tested, not proved). 1010: the
 * message ends within the header or a frame. 1001 to 1009, 1011 to 1021, 1023 to 1026: the message
 * has this fault; 4005: a keyring failed; ESDK_MEMORY. None of these ends the session, and
 * esdk_error has no line for them. */
int32_t esdk_range(esdk_handle *handle, const uint8_t *front, size_t front_len, uint64_t offset,
                   const uint8_t *part, size_t part_len, bool ends, bool uncommitted, uint64_t at,
                   uint8_t *room, size_t room_len, size_t *written);

/* ---- What no export can do: these are C, and are proved by nobody. ----
 *
 * A C compiler makes them where they are used. For other languages the library has them, too. */
#ifndef ESDK_LINKAGE
#define ESDK_LINKAGE static inline
#endif

/* ESDK_OK where the library has the ABI of this page, and the processor is an x86-64-v2 one; else
 * ESDK_OTHER_ABI or ESDK_OLD_PROCESSOR. */
ESDK_LINKAGE int32_t esdk_check(void) {
    /* SSE3, SSSE3, CMPXCHG16B, SSE4.1, SSE4.2 and POPCNT */
    const unsigned int wanted = 1u << 0 | 1u << 9 | 1u << 13 | 1u << 19 | 1u << 20 | 1u << 23;
    unsigned int a = 0, b = 0, c = 0, d = 0;
    if (esdk_abi() != ESDK_ABI) return ESDK_OTHER_ABI;
    if (!__get_cpuid(1, &a, &b, &c, &d) || (c & wanted) != wanted) return ESDK_OLD_PROCESSOR;
    /* LAHF and SAHF */
    if (!__get_cpuid(0x80000001u, &a, &b, &c, &d) || !(c & 1u)) return ESDK_OLD_PROCESSOR;
    return ESDK_OK;
}

/* Begins a message that is sealed, as esdk_seal_with, with random bytes of the system. The other
 * codes are esdk_seal_with's; ESDK_NO_RANDOM: the system gave none, and nothing was changed. */
ESDK_LINKAGE int32_t esdk_seal(esdk_handle *handle, uint32_t frame_length, uint64_t length,
                               uint16_t max_keys) {
    uint8_t random[ESDK_MOST_DRAWN];
    volatile uint8_t *wiped = random;
    size_t count = esdk_draws(handle), drawn = 0, at;
    int32_t code;
    if (count > sizeof random) return ESDK_BAD_RANDOM;
    while (drawn < count) {
        ssize_t got = getrandom(random + drawn, count - drawn, 0);
        if (got > 0) drawn += (size_t)got;
        else if (got == 0 || errno != EINTR) return ESDK_NO_RANDOM;
    }
    code = esdk_seal_with(handle, frame_length, length, max_keys, random, count);
    for (at = 0; at < sizeof random; at++) wiped[at] = 0;
    return code;
}

/* Begins a message that is resealed, as esdk_reseal_with, with random bytes of the system. The other
 * codes are esdk_reseal_with's; ESDK_NO_RANDOM: the system gave none, and nothing was changed. The
 * file is read once more to count them: where memory runs out at that, ESDK_MEMORY changes nothing. */
ESDK_LINKAGE int32_t esdk_reseal(esdk_handle *handle, const uint8_t *file, size_t file_len,
                                 uint32_t frame_length, uint16_t max_keys, uint64_t max_unit,
                                 bool uncommitted) {
    uint8_t random[ESDK_MOST_DRAWN];
    volatile uint8_t *wiped = random;
    esdk_handle other = ESDK_INIT;
    size_t count, drawn = 0, at;
    int32_t code = esdk_new(&other, file, file_len);
    count = esdk_draws(&other);
    esdk_close(&other);
    if (code == ESDK_MEMORY) return code;
    if (count > sizeof random) return ESDK_BAD_RANDOM;
    while (drawn < count) {
        ssize_t got = getrandom(random + drawn, count - drawn, 0);
        if (got > 0) drawn += (size_t)got;
        else if (got == 0 || errno != EINTR) return ESDK_NO_RANDOM;
    }
    code = esdk_reseal_with(handle, file, file_len, frame_length, max_keys, max_unit, uncommitted,
                            random, count);
    for (at = 0; at < sizeof random; at++) wiped[at] = 0;
    return code;
}

#ifdef __cplusplus
}
#endif
#endif
