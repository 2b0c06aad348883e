/* calls: each function of khlongrae.h is called with known answers, and refused, and lent memory must stay as it was where a call
 * is refused. Ends with status 0 if all is as it must be. C and C++ alike; fenv.h needs -lm. */
#include "khlongrae.h"

#include <fenv.h>
#include <math.h>
#include <stdio.h>
#include <string.h>

static int done, wrong;

static void check(int holds, const char *what, int line) {
    done++;
    if (!holds) {
        wrong++;
        printf("calls: line %d: %s\n", line, what);
    }
}
#define CHECK(holds) check(holds, #holds, __LINE__)

static const uint8_t WORKED[14] = {0x88, 0x07, 0x76, 0xAC};
static const uint8_t SQUITTER[7] = {0x5D, 0x48, 0x40, 0xD6, 0xF8, 0x74, 0x0F};
static float samples[KHLONGRAE_WINDOW];

enum part { REAL, IMAGINARY };

/* a pulse in the first half of each bit that is 1, in the second half of each that is 0, from a sample on: added to what is there */
static void send(const uint8_t *message, int bytes, int from, enum part part, float amplitude) {
    for (int j = 0; j < 8 * bytes; j++) {
        int half = (message[j / 8] >> (7 - j % 8) & 1) != 0 ? 0 : 4;
        for (int k = 0; k < 4; k++) samples[2 * (from + 8 * j + half + k) + part] += amplitude;
    }
}

static void silence(void) { memset(samples, 0, sizeof samples); }

static void transmit(const uint8_t *message, int bytes, int from) {
    silence();
    send(message, bytes, from, REAL, 1.0f);
}

/* takes the samples of n bits away, from bit j of a message on, and the sample before them: the message may be read one sample early */
static void blank(int from, int j, int n) { memset(&samples[2 * (from + 8 * j - 1)], 0, 2 * (size_t)(8 * n + 1) * sizeof samples[0]); }

/* the memory that a decode is lent, at least one element longer than it may be */
struct lent {
    uint8_t message[KHLONGRAE_MESSAGE + 1];
    uint64_t words[KHLONGRAE_WORDS + 1];
    float floats[KHLONGRAE_FLOATS + 1];
};
static struct lent pattern, lent, short_lent;

struct call {
    size_t samples;
    uint32_t level;
    float threshold, second;
    uint32_t distance;
    uint64_t index;
    int message, words, floats; /* by how much the memory is longer than it must be */
};
static const struct call GOOD = {KHLONGRAE_WINDOW, 2, 67, 71, 8, 128, 0, 0, 0};

static uint32_t decode(struct call c) {
    lent = pattern;
    return khlongrae_decode(samples, c.samples, c.level, c.threshold, c.second, c.distance, c.index, lent.message,
                            (size_t)(KHLONGRAE_MESSAGE + c.message), lent.words, (size_t)(KHLONGRAE_WORDS + c.words), lent.floats,
                            (size_t)(KHLONGRAE_FLOATS + c.floats));
}

static uint32_t decode_short(struct call c) {
    short_lent = pattern;
    return khlongrae_decode_short(samples, c.samples, c.level, c.threshold, c.second, c.distance, c.index, short_lent.message,
                                  (size_t)(KHLONGRAE_SHORT_MESSAGE + c.message), short_lent.words, (size_t)(KHLONGRAE_WORDS + c.words),
                                  short_lent.floats, (size_t)(KHLONGRAE_FLOATS + c.floats));
}

/* of s only the lengths of the memory count */
static struct khlongrae_both_answer decode_both(struct call c, struct call s) {
    lent = short_lent = pattern;
    return khlongrae_decode_both(samples, c.samples, c.level, c.threshold, c.second, c.distance, c.index, lent.message,
                                 (size_t)(KHLONGRAE_MESSAGE + c.message), lent.words, (size_t)(KHLONGRAE_WORDS + c.words), lent.floats,
                                 (size_t)(KHLONGRAE_FLOATS + c.floats), short_lent.message, (size_t)(KHLONGRAE_SHORT_MESSAGE + s.message),
                                 short_lent.words, (size_t)(KHLONGRAE_WORDS + s.words), short_lent.floats,
                                 (size_t)(KHLONGRAE_FLOATS + s.floats));
}

static int same(const struct lent *a, const struct lent *b) { return memcmp(a, b, sizeof pattern) == 0; }

static int both_are(struct khlongrae_both_answer answer, uint32_t number, uint32_t short_number) {
    return answer.number == number && answer.short_number == short_number;
}

/* the three decodes answer this number to the changed call, and write nothing */
#define REFUSED(number, change)                                                                                                \
    do {                                                                                                                       \
        struct call c = GOOD;                                                                                                  \
        change;                                                                                                                \
        CHECK(decode(c) == number && same(&lent, &pattern));                                                                   \
        CHECK(decode_short(c) == number && same(&short_lent, &pattern));                                                       \
        CHECK(both_are(decode_both(c, GOOD), number, number) && same(&lent, &pattern) && same(&short_lent, &pattern));         \
    } while (0)

/* and so does that of both where only the short message's memory is changed */
#define NO_ROOM(change)                                                                                                        \
    do {                                                                                                                       \
        struct call s = GOOD;                                                                                                  \
        REFUSED(KHLONGRAE_OUTPUT_LENGTH, c.change);                                                                            \
        s.change;                                                                                                              \
        CHECK(both_are(decode_both(GOOD, s), KHLONGRAE_OUTPUT_LENGTH, KHLONGRAE_OUTPUT_LENGTH));                               \
        CHECK(same(&lent, &pattern) && same(&short_lent, &pattern));                                                           \
    } while (0)

static void decodes(void) {
    static const uint64_t found[KHLONGRAE_WORDS] = {128, 15, 3, 1, 0, 0, 0, KHLONGRAE_COHERENT, 0, 1};
    static const uint64_t repaired[KHLONGRAE_WORDS] = {128, 16, 0, 0, 2, 40, 41, KHLONGRAE_COHERENT, 0, 5};
    uint8_t damaged[14];

    transmit(WORKED, 14, 128);
    CHECK(decode(GOOD) == KHLONGRAE_DONE);
    CHECK(memcmp(lent.message, WORKED, 14) == 0 && lent.message[14] == 0xA5);
    CHECK(memcmp(lent.words, found, sizeof found) == 0 && lent.words[KHLONGRAE_WORDS] == pattern.words[KHLONGRAE_WORDS]);
    CHECK(isinf(lent.floats[KHLONGRAE_FLOAT_CN0]) && lent.floats[KHLONGRAE_FLOAT_FRACTION] == -0.5f);

    REFUSED(KHLONGRAE_INPUT_LENGTH, c.samples = KHLONGRAE_WINDOW - 1);
    REFUSED(KHLONGRAE_INPUT_LENGTH, c.samples = 0);
    NO_ROOM(message = -1);
    NO_ROOM(message = 1);
    NO_ROOM(words = -2); /* the eight of interface 1 */
    NO_ROOM(words = -1); /* the nine of interface 2 */
    NO_ROOM(words = 1);
    NO_ROOM(floats = -1);
    NO_ROOM(floats = 1);
    REFUSED(KHLONGRAE_LEVEL, c.level = 3);
    REFUSED(KHLONGRAE_THRESHOLD, c.threshold = NAN);
    REFUSED(KHLONGRAE_THRESHOLD, c.second = INFINITY);
    REFUSED(KHLONGRAE_INDEX, c.index = 127);
    REFUSED(KHLONGRAE_INDEX, c.index = ((uint64_t)1 << 63) + 1);
    REFUSED(KHLONGRAE_INPUT_LENGTH, (c.samples = 0, c.message = 1, c.level = 3, c.second = NAN, c.index = 0));
    REFUSED(KHLONGRAE_OUTPUT_LENGTH, (c.message = 1, c.level = 3, c.second = NAN, c.index = 0));
    REFUSED(KHLONGRAE_LEVEL, (c.level = 3, c.second = NAN, c.index = 0));
    REFUSED(KHLONGRAE_THRESHOLD, (c.second = NAN, c.index = 0));

    memcpy(damaged, WORKED, 14);
    damaged[5] ^= 0xC0;
    transmit(damaged, 14, 128);
    CHECK(decode(GOOD) == KHLONGRAE_DONE);
    CHECK(memcmp(lent.message, WORKED, 14) == 0 && memcmp(lent.words, repaired, sizeof repaired) == 0);
    REFUSED(KHLONGRAE_NO_MESSAGE, c.level = 1);
    silence();
    REFUSED(KHLONGRAE_NO_MESSAGE, (void)c);
}

/* what a short decode finds of the squitter with these bits turned over */
static uint32_t short_with(uint8_t fourth, uint8_t last, struct call c) {
    uint8_t damaged[7];
    memcpy(damaged, SQUITTER, 7);
    damaged[4] ^= fourth;
    damaged[6] ^= last;
    transmit(damaged, 7, 500);
    return decode_short(c);
}

static void short_decodes(void) {
    static const uint64_t found[KHLONGRAE_WORDS] = {500, 62, 0, 1, 0, 0, 0, KHLONGRAE_COHERENT, 0, 1};
    struct call c = GOOD;

    CHECK(short_with(0, 0, GOOD) == KHLONGRAE_DONE);
    CHECK(memcmp(short_lent.message, SQUITTER, 7) == 0 && short_lent.message[7] == 0xA5);
    CHECK(memcmp(short_lent.words, found, sizeof found) == 0 && short_lent.words[KHLONGRAE_WORDS] == pattern.words[KHLONGRAE_WORDS]);
    CHECK(isinf(short_lent.floats[KHLONGRAE_FLOAT_CN0]) && short_lent.floats[KHLONGRAE_FLOAT_FRACTION] == -0.5f);
    transmit(SQUITTER, 7, 699);
    CHECK(decode_short(GOOD) == KHLONGRAE_DONE && short_lent.words[KHLONGRAE_WORD_BIT] == 87);

    /* one bit is repaired, at level 2 as at level 1; two are not. Thresholds and distance play no part */
    for (c.level = 0; c.level < 3; c.level++) {
        uint32_t number = c.level == 0 ? KHLONGRAE_NO_MESSAGE : KHLONGRAE_DONE;
        c.threshold = c.second = 3e38f;
        c.distance = 0;
        CHECK(short_with(0x80, 0, c) == number && same(&short_lent, &pattern) == (c.level == 0));
        CHECK(c.level == 0 || (memcmp(short_lent.message, SQUITTER, 7) == 0 && short_lent.words[KHLONGRAE_WORD_REPAIRS] == 1));
        CHECK(c.level == 0 || (short_lent.words[KHLONGRAE_WORD_FIRST] == 32 && short_lent.words[KHLONGRAE_WORD_SECOND] == 0));
        CHECK(short_with(0xC0, 0, c) == KHLONGRAE_NO_MESSAGE && same(&short_lent, &pattern));
    }

    /* a reply to the interrogators 1 to 127: those with one bit set are taken, with one repair at 55, 54 .. 49 */
    for (unsigned code = 1, position = 55; code < 128; code++) {
        int one = (code & (code - 1)) == 0;
        CHECK(short_with(0, (uint8_t)code, GOOD) == (one ? KHLONGRAE_DONE : KHLONGRAE_NO_MESSAGE));
        CHECK(!one || (short_lent.words[KHLONGRAE_WORD_REPAIRS] == 1 && short_lent.words[KHLONGRAE_WORD_FIRST] == position--));
    }
}

/* each kind is answered as its own decode answers it, whatever becomes of the other */
static void both_decodes(void) {
    transmit(WORKED, 14, 128);
    CHECK(both_are(decode_both(GOOD, GOOD), KHLONGRAE_DONE, KHLONGRAE_NO_MESSAGE) && same(&short_lent, &pattern));
    CHECK(memcmp(lent.message, WORKED, 14) == 0 && lent.message[14] == 0xA5);
    transmit(SQUITTER, 7, 500);
    CHECK(both_are(decode_both(GOOD, GOOD), KHLONGRAE_NO_MESSAGE, KHLONGRAE_DONE) && same(&lent, &pattern));
    CHECK(memcmp(short_lent.message, SQUITTER, 7) == 0 && short_lent.message[7] == 0xA5);

    /* the real part has the one, and the norm the other */
    transmit(WORKED, 14, 128);
    send(SQUITTER, 7, 500, IMAGINARY, 4.0f);
    CHECK(both_are(decode_both(GOOD, GOOD), KHLONGRAE_DONE, KHLONGRAE_DONE));
    struct lent long_one = lent, short_one = short_lent;
    CHECK(memcmp(lent.message, WORKED, 14) == 0 && memcmp(short_lent.message, SQUITTER, 7) == 0);
    CHECK(lent.words[KHLONGRAE_WORD_SLICER] == KHLONGRAE_COHERENT && short_lent.words[KHLONGRAE_WORD_SLICER] == KHLONGRAE_NONCOHERENT);
    CHECK(decode(GOOD) == KHLONGRAE_DONE && same(&lent, &long_one));
    CHECK(decode_short(GOOD) == KHLONGRAE_DONE && same(&short_lent, &short_one));
}

/* the trial is the one that looks for so many repairs in this slicer's bits */
static int agrees(const uint64_t *words) {
    return words[KHLONGRAE_WORD_TRIAL] == 1 + 2 * words[KHLONGRAE_WORD_REPAIRS] + words[KHLONGRAE_WORD_SLICER];
}

/* Each trial finds the message that was sent for it: 1 and 2 a whole one, 3 and 4 one with a damaged bit, 5 and 6 one with two. The odd
 * ones find it in the real part; the even ones by the norm, where the real part has nothing. A short one has no trials 5 and 6. */
static void trials(void) {
    struct call c = GOOD;
    for (uint64_t trial = 1; trial <= 6; trial++) {
        uint8_t damaged[14], damaged_short[7];
        uint8_t damage = trial <= 2 ? 0 : trial <= 4 ? 0x80 : 0xC0;
        enum part part = trial % 2 == 1 ? REAL : IMAGINARY;
        memcpy(damaged, WORKED, 14);
        damaged[5] ^= damage;
        silence();
        send(damaged, 14, 128, part, 1.0f);
        for (c.level = 0; c.level < 3; c.level++) {
            int found = trial <= 2 + 2 * c.level;
            CHECK(decode(c) == (found ? KHLONGRAE_DONE : KHLONGRAE_NO_MESSAGE));
            CHECK(!found || (memcmp(lent.message, WORKED, 14) == 0 && lent.words[KHLONGRAE_WORD_TRIAL] == trial && agrees(lent.words)));
        }
        memcpy(damaged_short, SQUITTER, 7);
        damaged_short[4] ^= damage;
        silence();
        send(damaged_short, 7, 500, part, 1.0f);
        CHECK(decode_short(GOOD) == (trial <= 4 ? KHLONGRAE_DONE : KHLONGRAE_NO_MESSAGE));
        CHECK(trial > 4 || (memcmp(short_lent.message, SQUITTER, 7) == 0 && short_lent.words[KHLONGRAE_WORD_TRIAL] == trial));
        CHECK(trial > 4 || agrees(short_lent.words));
    }
}

/* the long decode finds the worked message by this slicer, with this one bit turned over (none: -1) and so many undecided */
static int worked_is(uint64_t slicer, int position, uint64_t undecided) {
    return decode(GOOD) == KHLONGRAE_DONE && memcmp(lent.message, WORKED, 14) == 0 && lent.words[KHLONGRAE_WORD_SLICER] == slicer &&
           lent.words[KHLONGRAE_WORD_REPAIRS] == (uint64_t)(position >= 0) &&
           lent.words[KHLONGRAE_WORD_FIRST] == (uint64_t)(position >= 0 ? position : 0) &&
           lent.words[KHLONGRAE_WORD_UNDECIDED] == undecided && agrees(lent.words);
}

/* the short decode finds the squitter so */
static int squitter_is(uint64_t slicer, int position, uint64_t undecided) {
    return decode_short(GOOD) == KHLONGRAE_DONE && memcmp(short_lent.message, SQUITTER, 7) == 0 &&
           short_lent.words[KHLONGRAE_WORD_SLICER] == slicer && short_lent.words[KHLONGRAE_WORD_REPAIRS] == (uint64_t)(position >= 0) &&
           short_lent.words[KHLONGRAE_WORD_FIRST] == (uint64_t)(position >= 0 ? position : 0) &&
           short_lent.words[KHLONGRAE_WORD_UNDECIDED] == undecided && agrees(short_lent.words);
}

/* a bit without its samples is read as 0 and counted: where a 0 was sent that is all, and where a 1 was sent it is repaired, and counted
 * all the same */
static void undecided(void) {
    for (int n = 0; n <= 80; n += 8) {
        transmit(WORKED, 14, 128);
        blank(128, 32, n);
        CHECK(worked_is(KHLONGRAE_COHERENT, -1, (uint64_t)n));
        blank(128, 4, 1);
        CHECK(worked_is(KHLONGRAE_COHERENT, 4, (uint64_t)n + 1));
    }
    for (int n = 0; n <= 6; n++) {
        transmit(SQUITTER, 7, 500);
        blank(500, 18, n);
        CHECK(squitter_is(KHLONGRAE_COHERENT, -1, (uint64_t)n));
        blank(500, 9, 1);
        CHECK(squitter_is(KHLONGRAE_COHERENT, 9, (uint64_t)n + 1));
    }

    /* by what the slicer that is named compares: there is nothing in the real part, and the norm decides all but the blanked bits */
    silence();
    send(WORKED, 14, 128, IMAGINARY, 1.0f);
    CHECK(worked_is(KHLONGRAE_NONCOHERENT, -1, 0));
    blank(128, 50, 3);
    CHECK(worked_is(KHLONGRAE_NONCOHERENT, -1, 3));
    silence();
    send(SQUITTER, 7, 500, IMAGINARY, 1.0f);
    CHECK(squitter_is(KHLONGRAE_NONCOHERENT, -1, 0));
    blank(500, 19, 2);
    CHECK(squitter_is(KHLONGRAE_NONCOHERENT, -1, 2));

    /* what is no number is greater than nothing */
    transmit(WORKED, 14, 128);
    samples[2 * (128 + 8 * 60 + 5)] = NAN;
    CHECK(worked_is(KHLONGRAE_COHERENT, -1, 1) && isnan(lent.floats[KHLONGRAE_FLOAT_CN0]));

    /* each of both counts its own: two bits are blanked in either message, and five more behind the short one */
    transmit(WORKED, 14, 128);
    send(SQUITTER, 7, 504, IMAGINARY, 4.0f);
    blank(504, 19, 2);
    blank(128, 104, 5);
    CHECK(both_are(decode_both(GOOD, GOOD), KHLONGRAE_DONE, KHLONGRAE_DONE));
    CHECK(lent.words[KHLONGRAE_WORD_UNDECIDED] == 7 && short_lent.words[KHLONGRAE_WORD_UNDECIDED] == 2);
    CHECK(worked_is(KHLONGRAE_COHERENT, -1, 7) && squitter_is(KHLONGRAE_NONCOHERENT, -1, 2));
}

/* The memory of a tray: room for one window more than there may be, of both kinds, and elements before and behind it. Whatever a call
 * is lent, the rest must stay as it was. */
enum {
    MORE = KHLONGRAE_TRAY + 1,
    BOTH_BYTES = KHLONGRAE_MESSAGE + KHLONGRAE_SHORT_MESSAGE,
    BOTH_WORDS = 2 * KHLONGRAE_RESULT_WORDS,
    BOTH_FLOATS = 2 * KHLONGRAE_FLOATS
};
struct tray {
    uint8_t messages[1 + MORE * BOTH_BYTES + 1];
    uint64_t words[1 + MORE * BOTH_WORDS + 1];
    float floats[1 + MORE * BOTH_FLOATS + 1];
};
struct tray_inputs {
    float samples[MORE * KHLONGRAE_WINDOW + 1];
    uint64_t indices[MORE + 1];
};
static struct tray tray_pattern, tray;
static struct tray_inputs inputs, inputs_kept;

/* the two trays: what of the lent memory each window gets */
static const struct tray_kind {
    uint32_t (*call)(size_t count, const float *samples, size_t samples_len, uint32_t level, float threshold, float second,
                     uint32_t distance, const uint64_t *indices, size_t indices_len, uint8_t *messages, size_t messages_len,
                     uint64_t *words, size_t words_len, float *floats, size_t floats_len);
    size_t bytes, words, floats;
} TRAYS[2] = {{khlongrae_tray, KHLONGRAE_MESSAGE, KHLONGRAE_RESULT_WORDS, KHLONGRAE_FLOATS},
              {khlongrae_tray_both, BOTH_BYTES, BOTH_WORDS, BOTH_FLOATS}};

struct tray_call {
    size_t windows; /* for so many the memory is */
    uint32_t level;
    float threshold, second;
    uint32_t distance;
    int count, samples, indices, messages, words, floats; /* by how much each is more than it must be for them */
};

static uint32_t call_tray(const struct tray_kind *kind, struct tray_call c) {
    memcpy(&tray, &tray_pattern, sizeof tray);
    memcpy(&inputs_kept, &inputs, sizeof inputs);
    return kind->call(c.windows + (size_t)c.count, inputs.samples, KHLONGRAE_WINDOW * c.windows + (size_t)c.samples, c.level, c.threshold,
                      c.second, c.distance, inputs.indices, c.windows + (size_t)c.indices, tray.messages + 1,
                      kind->bytes * c.windows + (size_t)c.messages, tray.words + 1, kind->words * c.windows + (size_t)c.words,
                      tray.floats + 1, kind->floats * c.windows + (size_t)c.floats);
}

static int nothing_written(void) {
    return memcmp(&tray, &tray_pattern, sizeof tray) == 0 && memcmp(&inputs, &inputs_kept, sizeof inputs) == 0;
}

/* nothing is written before the results of so many windows, nor behind them */
static int nothing_else_written(const struct tray_kind *kind, size_t windows) {
    memset(tray.messages + 1, 0xA5, kind->bytes * windows);
    memset(tray.words + 1, 0xA5, kind->words * windows * sizeof tray.words[0]);
    memset(tray.floats + 1, 0xA5, kind->floats * windows * sizeof tray.floats[0]);
    return nothing_written();
}

/* what is sent in a window */
enum sent { NOTHING_SENT, LONG_SENT, SHORT_SENT, BOTH_SENT, ONE_DAMAGED, TWO_DAMAGED, SENT };

/* puts a window into the tray: what is sent comes so many samples later, and a bit stronger, than in the window before */
static void put(size_t k, enum sent sent, uint64_t index) {
    uint8_t damaged[KHLONGRAE_MESSAGE];
    int later = (int)k;
    memcpy(damaged, WORKED, sizeof damaged);
    if (sent == ONE_DAMAGED) damaged[5] ^= 0x80;
    if (sent == TWO_DAMAGED) damaged[5] ^= 0xC0;
    silence();
    if (sent != NOTHING_SENT && sent != SHORT_SENT) send(damaged, KHLONGRAE_MESSAGE, 128 + later, REAL, 1.0f + (float)k / 64);
    if (sent == SHORT_SENT) send(SQUITTER, KHLONGRAE_SHORT_MESSAGE, 500 + later, REAL, 1.0f);
    if (sent == BOTH_SENT) send(SQUITTER, KHLONGRAE_SHORT_MESSAGE, 500 + later, IMAGINARY, 8.0f);
    memcpy(inputs.samples + KHLONGRAE_WINDOW * k, samples, sizeof samples);
    inputs.indices[k] = index;
}

/* a part of a result has this number and these fields, or zeros where the number is not 0 */
static int part_is(uint32_t number, const struct lent *fields, size_t bytes, const uint8_t *message, const uint64_t *words,
                   const float *floats) {
    static const struct lent zeros = {{0}, {0}, {0}};
    if (number != KHLONGRAE_DONE) fields = &zeros;
    return words[KHLONGRAE_WORD_NUMBER] == number && memcmp(message, fields->message, bytes) == 0 &&
           memcmp(words, fields->words, KHLONGRAE_WORDS * sizeof words[0]) == 0 &&
           memcmp(floats, fields->floats, KHLONGRAE_FLOATS * sizeof floats[0]) == 0;
}

/* result k of a tray is what the single calls answer for window k, its index and the setting */
static int result_is_single(const struct tray_kind *kind, size_t k, struct tray_call t) {
    const uint8_t *message = tray.messages + 1 + kind->bytes * k;
    const uint64_t *words = tray.words + 1 + kind->words * k;
    const float *floats = tray.floats + 1 + kind->floats * k;
    struct call c = GOOD;
    c.level = t.level;
    c.threshold = t.threshold;
    c.second = t.second;
    c.distance = t.distance;
    c.index = inputs.indices[k];
    memcpy(samples, inputs.samples + KHLONGRAE_WINDOW * k, sizeof samples);
    uint32_t number = decode(c), short_number = decode_short(c);
    return part_is(number, &lent, KHLONGRAE_MESSAGE, message, words, floats) &&
           (kind == &TRAYS[0] || part_is(short_number, &short_lent, KHLONGRAE_SHORT_MESSAGE, message + KHLONGRAE_MESSAGE,
                                         words + KHLONGRAE_RESULT_WORDS, floats + KHLONGRAE_FLOATS));
}

/* the number of result k, of its long message or of its short one */
static uint64_t number_of(const struct tray_kind *kind, size_t k, int of_short) {
    return tray.words[1 + kind->words * k + (size_t)of_short * KHLONGRAE_RESULT_WORDS + KHLONGRAE_WORD_NUMBER];
}

/* a long message, a short one, silence, both: what is known of them, and what the single calls say */
static void tray_answers(void) {
    static const enum sent row[4] = {LONG_SENT, SHORT_SENT, NOTHING_SENT, BOTH_SENT};
    static const uint64_t found[KHLONGRAE_RESULT_WORDS] = {1000, 15, 3, 1, 0, 0, 0, KHLONGRAE_COHERENT, 0, 1, KHLONGRAE_DONE};
    static const uint64_t short_found[KHLONGRAE_RESULT_WORDS] = {2373, 62, 0, 1, 0, 0, 0, KHLONGRAE_COHERENT, 0, 1, KHLONGRAE_DONE};
    struct tray_call t = {4, 2, 67, 71, 8, 0, 0, 0, 0, 0, 0};
    for (size_t k = 0; k < 4; k++) put(k, row[k], 1000 * (k + 1));
    for (const struct tray_kind *kind = TRAYS; kind < TRAYS + 2; kind++) {
        CHECK(call_tray(kind, t) == KHLONGRAE_DONE);
        for (size_t k = 0; k < 4; k++) {
            uint64_t long_one = row[k] == LONG_SENT || row[k] == BOTH_SENT ? KHLONGRAE_DONE : KHLONGRAE_NO_MESSAGE;
            uint64_t short_one = row[k] == SHORT_SENT || row[k] == BOTH_SENT ? KHLONGRAE_DONE : KHLONGRAE_NO_MESSAGE;
            CHECK(number_of(kind, k, 0) == long_one && (kind == &TRAYS[0] || number_of(kind, k, 1) == short_one));
            CHECK(result_is_single(kind, k, t));
        }
        CHECK(memcmp(tray.messages + 1, WORKED, 14) == 0 && memcmp(tray.messages + 1 + 3 * kind->bytes, WORKED, 14) == 0);
        CHECK(memcmp(tray.words + 1, found, sizeof found) == 0);
        CHECK(isinf(tray.floats[1 + KHLONGRAE_FLOAT_CN0]) && tray.floats[1 + KHLONGRAE_FLOAT_FRACTION] == -0.5f);
        if (kind == &TRAYS[1]) {
            CHECK(memcmp(tray.messages + 1 + BOTH_BYTES + 14, SQUITTER, 7) == 0);
            CHECK(memcmp(tray.messages + 1 + 3 * BOTH_BYTES + 14, SQUITTER, 7) == 0);
            CHECK(memcmp(tray.words + 1 + BOTH_WORDS + KHLONGRAE_RESULT_WORDS, short_found, sizeof short_found) == 0);
            CHECK(isinf(tray.floats[1 + BOTH_FLOATS + KHLONGRAE_FLOATS + KHLONGRAE_FLOAT_CN0]));
        }
        CHECK(nothing_else_written(kind, 4));
    }
}

/* 64 windows with all that can be sent, at each level; bad indices first, last and in between trouble their own windows alone */
static void whole_trays(void) {
    static const struct { size_t at; uint64_t index; } bad[] = {
        {0, 127}, {1, 0}, {30, ((uint64_t)1 << 63) + 1}, {31, 127}, {47, UINT64_MAX}, {63, ((uint64_t)1 << 63) + 1}};
    struct tray_call t = {KHLONGRAE_TRAY, 2, 67, 71, 8, 0, 0, 0, 0, 0, 0};
    for (int with_bad = 0; with_bad < 2; with_bad++) {
        for (size_t k = 0; k < KHLONGRAE_TRAY; k++) put(k, (enum sent)(k % SENT), k % 2 == 0 ? 128 + k : ((uint64_t)1 << 63) - k);
        inputs.indices[2] = (uint64_t)1 << 63;
        for (size_t b = 0; b < sizeof bad / sizeof bad[0] && with_bad; b++) inputs.indices[bad[b].at] = bad[b].index;
        for (t.level = 0; t.level < 3; t.level++) {
            for (const struct tray_kind *kind = TRAYS; kind < TRAYS + 2; kind++) {
                unsigned numbers[7] = {0}, short_numbers[7] = {0};
                CHECK(call_tray(kind, t) == KHLONGRAE_DONE);
                for (size_t k = 0; k < KHLONGRAE_TRAY; k++) {
                    CHECK(result_is_single(kind, k, t));
                    numbers[number_of(kind, k, 0) % 7]++;
                    short_numbers[number_of(kind, k, 1) % 7]++;
                }
                CHECK(numbers[KHLONGRAE_DONE] + numbers[KHLONGRAE_NO_MESSAGE] + numbers[KHLONGRAE_INDEX] == KHLONGRAE_TRAY);
                CHECK(numbers[KHLONGRAE_INDEX] == (with_bad ? sizeof bad / sizeof bad[0] : 0));
                /* 11 windows each hold a long message, a short one, both; 10 each a long one with one damaged bit, and with two */
                CHECK(with_bad || numbers[KHLONGRAE_DONE] == (t.level == 0 ? 22 : t.level == 1 ? 32 : 42));
                CHECK(kind == &TRAYS[0] || short_numbers[KHLONGRAE_INDEX] == numbers[KHLONGRAE_INDEX]);
                CHECK(kind == &TRAYS[0] || with_bad || short_numbers[KHLONGRAE_DONE] == 22);
                CHECK(nothing_else_written(kind, KHLONGRAE_TRAY));
            }
        }
    }
}

/* the thresholds and the distance hold for each window: window 0 has a message with two damaged bits in the real part, window 1 has it
 * where the norm alone reads it */
static void tray_thresholds(void) {
    static const struct { float threshold, second; uint32_t distance; uint64_t numbers[2]; } rows[] = {
        {-3e38f, -3e38f, 0, {KHLONGRAE_DONE, KHLONGRAE_DONE}},
        {3e38f, -3e38f, 0, {KHLONGRAE_NO_MESSAGE, KHLONGRAE_NO_MESSAGE}},
        {-3e38f, 3e38f, 8, {KHLONGRAE_DONE, KHLONGRAE_NO_MESSAGE}},
        {-3e38f, 3e38f, 113, {KHLONGRAE_DONE, KHLONGRAE_DONE}}};
    uint8_t damaged[KHLONGRAE_MESSAGE];
    memcpy(damaged, WORKED, sizeof damaged);
    damaged[5] ^= 0xC0;
    for (size_t k = 0; k < 2; k++) {
        silence();
        send(damaged, KHLONGRAE_MESSAGE, 128, k == 0 ? REAL : IMAGINARY, 1.0f);
        send(damaged, KHLONGRAE_MESSAGE, 132, k == 0 ? REAL : IMAGINARY, 0.125f); /* between the pulses: cn0 is finite */
        memcpy(inputs.samples + KHLONGRAE_WINDOW * k, samples, sizeof samples);
        inputs.indices[k] = 128;
    }
    for (size_t r = 0; r < sizeof rows / sizeof rows[0]; r++) {
        struct tray_call t = {2, 2, rows[r].threshold, rows[r].second, rows[r].distance, 0, 0, 0, 0, 0, 0};
        for (const struct tray_kind *kind = TRAYS; kind < TRAYS + 2; kind++) {
            CHECK(call_tray(kind, t) == KHLONGRAE_DONE);
            for (size_t k = 0; k < 2; k++) CHECK(number_of(kind, k, 0) == rows[r].numbers[k] && result_is_single(kind, k, t));
        }
    }
}

/* both trays answer this number to the changed call, and write nothing */
#define TRAY_REFUSED(number, change)                                                                                           \
    do {                                                                                                                       \
        for (const struct tray_kind *kind = TRAYS; kind < TRAYS + 2; kind++) {                                                 \
            struct tray_call t = {sizes[s], 2, 67, 71, 8, 0, 0, 0, 0, 0, 0};                                                   \
            change;                                                                                                            \
            CHECK(call_tray(kind, t) == number && nothing_written());                                                          \
        }                                                                                                                      \
    } while (0)

static void refused_trays(void) {
    static const size_t sizes[4] = {1, 2, 63, KHLONGRAE_TRAY};
    for (size_t k = 0; k < MORE; k++) put(k, LONG_SENT, 128);
    for (size_t s = 0; s < 4; s++) {
        for (int off = -1; off <= 1; off += 2) {
            TRAY_REFUSED(KHLONGRAE_INPUT_LENGTH, t.count = off);
            TRAY_REFUSED(KHLONGRAE_INPUT_LENGTH, t.samples = off);
            TRAY_REFUSED(KHLONGRAE_INPUT_LENGTH, t.samples = off * KHLONGRAE_WINDOW);
            TRAY_REFUSED(KHLONGRAE_INPUT_LENGTH, t.indices = off);
            TRAY_REFUSED(KHLONGRAE_INPUT_LENGTH, (t.count = off, t.samples = off * KHLONGRAE_WINDOW));
            TRAY_REFUSED(KHLONGRAE_INPUT_LENGTH, (t.count = off, t.indices = off));
            TRAY_REFUSED(KHLONGRAE_OUTPUT_LENGTH, t.messages = off);
            TRAY_REFUSED(KHLONGRAE_OUTPUT_LENGTH, t.words = off);
            TRAY_REFUSED(KHLONGRAE_OUTPUT_LENGTH, t.floats = off);
            TRAY_REFUSED(KHLONGRAE_OUTPUT_LENGTH, (t.messages = off, t.words = -off, t.floats = off));
        }
        TRAY_REFUSED(KHLONGRAE_OUTPUT_LENGTH, t.words = -(int)t.windows); /* without the numbers */
        TRAY_REFUSED(KHLONGRAE_LEVEL, t.level = 3);
        TRAY_REFUSED(KHLONGRAE_LEVEL, t.level = UINT32_MAX);
        TRAY_REFUSED(KHLONGRAE_THRESHOLD, t.threshold = NAN);
        TRAY_REFUSED(KHLONGRAE_THRESHOLD, t.threshold = INFINITY);
        TRAY_REFUSED(KHLONGRAE_THRESHOLD, t.threshold = -INFINITY);
        TRAY_REFUSED(KHLONGRAE_THRESHOLD, t.second = NAN);
        TRAY_REFUSED(KHLONGRAE_THRESHOLD, t.second = INFINITY);
        TRAY_REFUSED(KHLONGRAE_THRESHOLD, t.second = -INFINITY);

        /* all is wrong, then one thing less; a bad index is no refusal */
        inputs.indices[0] = 0;
        TRAY_REFUSED(KHLONGRAE_INPUT_LENGTH, (t.count = 1, t.samples = 1, t.indices = -1, t.words = 1, t.level = 3, t.second = NAN));
        TRAY_REFUSED(KHLONGRAE_INPUT_LENGTH, (t.samples = 1, t.indices = -1, t.words = 1, t.level = 3, t.second = NAN));
        TRAY_REFUSED(KHLONGRAE_INPUT_LENGTH, (t.indices = -1, t.words = 1, t.level = 3, t.second = NAN));
        TRAY_REFUSED(KHLONGRAE_OUTPUT_LENGTH, (t.words = 1, t.level = 3, t.second = NAN));
        TRAY_REFUSED(KHLONGRAE_LEVEL, (t.level = 3, t.second = NAN));
        TRAY_REFUSED(KHLONGRAE_THRESHOLD, t.second = NAN);
        for (const struct tray_kind *kind = TRAYS; kind < TRAYS + 2; kind++) {
            struct tray_call t = {sizes[s], 2, 67, 71, 8, 0, 0, 0, 0, 0, 0};
            CHECK(call_tray(kind, t) == KHLONGRAE_DONE && number_of(kind, 0, 0) == KHLONGRAE_INDEX);
            CHECK(nothing_else_written(kind, sizes[s]));
        }
        inputs.indices[0] = 128;
    }

    /* one window too many, with all that 65 need; the memory of one kind for the other */
    for (const struct tray_kind *kind = TRAYS; kind < TRAYS + 2; kind++) {
        const struct tray_kind *other = kind == TRAYS ? TRAYS + 1 : TRAYS;
        struct tray_call t = {MORE, 2, 67, 71, 8, 0, 0, 0, 0, 0, 0};
        CHECK(call_tray(kind, t) == KHLONGRAE_INPUT_LENGTH && nothing_written());
        t.level = 3;
        CHECK(call_tray(kind, t) == KHLONGRAE_INPUT_LENGTH && nothing_written());
        t.windows = 2;
        t.level = 2;
        t.messages = 2 * (int)(other->bytes - kind->bytes);
        t.words = 2 * (int)(other->words - kind->words);
        t.floats = 2 * (int)(other->floats - kind->floats);
        CHECK(call_tray(kind, t) == KHLONGRAE_OUTPUT_LENGTH && nothing_written());
    }
}

/* no windows: nothing is lent, and the settings are looked at all the same */
static void empty_trays(void) {
    static const size_t most = SIZE_MAX / 2 + 1; /* so many times 2,310 is 0 again */
    for (const struct tray_kind *kind = TRAYS; kind < TRAYS + 2; kind++) {
#define EMPTY(count, level, threshold, second)                                                                                 \
    kind->call(count, NULL, 0, level, threshold, second, 8, NULL, 0, NULL, 0, NULL, 0, NULL, 0)
        CHECK(EMPTY(0, 2, 67, 71) == KHLONGRAE_DONE);
        CHECK(EMPTY(0, 3, 67, 71) == KHLONGRAE_LEVEL && EMPTY(0, 3, NAN, 71) == KHLONGRAE_LEVEL);
        CHECK(EMPTY(0, 2, NAN, 71) == KHLONGRAE_THRESHOLD && EMPTY(0, 2, 67, INFINITY) == KHLONGRAE_THRESHOLD);
        CHECK(EMPTY(1, 2, 67, 71) == KHLONGRAE_INPUT_LENGTH && EMPTY(most, 2, 67, 71) == KHLONGRAE_INPUT_LENGTH);
        for (int off = 0; off < 5; off++) {
            struct tray_call t = {0, 2, 67, 71, 8, 0, off == 0, off == 1, off == 2, off == 3, off == 4};
            CHECK(call_tray(kind, t) == (off < 2 ? KHLONGRAE_INPUT_LENGTH : KHLONGRAE_OUTPUT_LENGTH) && nothing_written());
        }
        struct tray_call none = {0, 2, 67, 71, 8, 0, 0, 0, 0, 0, 0};
        CHECK(call_tray(kind, none) == KHLONGRAE_DONE && nothing_written());
    }
}

/* what the header says of another rounding: the call ends, its floats have other bits, and the rounding stays as it was set */
static void environments(void) {
    static const int roundings[3] = {FE_UPWARD, FE_DOWNWARD, FE_TOWARDZERO};
    float kept[KHLONGRAE_FLOATS];
    uint32_t noise = 1;
    transmit(WORKED, 14, 128);
    for (int i = 0; i < KHLONGRAE_WINDOW; i++) {
        noise = noise * 1664525u + 1013904223u;
        samples[i] += (float)(noise >> 8) / 16777216.0f - 0.5f;
    }
    CHECK(decode(GOOD) == KHLONGRAE_DONE);
    memcpy(kept, lent.floats, sizeof kept);
    for (int i = 0; i < 3; i++) {
        CHECK(fesetround(roundings[i]) == 0);
        uint32_t number = decode(GOOD);
        CHECK(fegetround() == roundings[i]);
        CHECK(fesetround(FE_TONEAREST) == 0);
        CHECK(number == KHLONGRAE_DONE && memcmp(lent.floats, kept, sizeof kept) != 0);
    }
    CHECK(decode(GOOD) == KHLONGRAE_DONE && memcmp(lent.floats, kept, sizeof kept) == 0);
}

static void messages(void) {
    uint8_t line[32], kept[32], one[14] = {0};
    memset(kept, 0xA5, sizeof kept);
    memcpy(line, kept, sizeof line);
    CHECK(khlongrae_avr(WORKED, 13, line, 28) == KHLONGRAE_INPUT_LENGTH && memcmp(line, kept, sizeof line) == 0);
    CHECK(khlongrae_avr(WORKED, 14, line, 31) == KHLONGRAE_OUTPUT_LENGTH && memcmp(line, kept, sizeof line) == 0);
    CHECK(khlongrae_avr(WORKED, 14, line, 30) == KHLONGRAE_DONE);
    CHECK(memcmp(line, "*880776AC00000000000000000000;\xA5\xA5", 32) == 0);
    CHECK(khlongrae_avr(WORKED, KHLONGRAE_SHORT_MESSAGE, line, KHLONGRAE_SHORT_LINE) == KHLONGRAE_DONE);
    CHECK(memcmp(line, "*880776AC000000;", 16) == 0);

    CHECK(khlongrae_remainder(WORKED, 14) == 0);
    CHECK(khlongrae_remainder(SQUITTER, 7) == 0);
    CHECK(khlongrae_remainder(NULL, 0) == 0);
    one[13] = 1;
    CHECK(khlongrae_remainder(one, 14) == 0xFFF409);
    one[13] = 2;
    CHECK(khlongrae_remainder(one, 14) == 0x001C1B);
}

static int told(struct khlongrae_header_answer h, uint32_t number, uint32_t valid) { return h.number == number && h.valid == valid; }

static int header_is(uint8_t first, uint32_t count, uint32_t j, uint32_t k, uint32_t number, uint32_t valid) {
    return told(khlongrae_header(first, count, j, k), number, valid);
}

static int short_is(uint8_t first, uint32_t count, uint32_t j, uint32_t k, uint32_t number, uint32_t valid) {
    return told(khlongrae_header_short(first, count, j, k), number, valid);
}

static void headers(void) {
    CHECK(header_is(0x88, 0, 0, 0, KHLONGRAE_DONE, 1));
    CHECK(header_is(0x90, 0, 999, 999, KHLONGRAE_DONE, 1));
    CHECK(header_is(0x89, 0, 7, 0, KHLONGRAE_DONE, 0));
    CHECK(header_is(0x89, 1, 7, 999, KHLONGRAE_DONE, 1));
    CHECK(header_is(0x89, 1, 111, 0, KHLONGRAE_DONE, 0));
    CHECK(header_is(0x88, 2, 7, 7, KHLONGRAE_DONE, 1));
    CHECK(header_is(0x8A, 2, 6, 111, KHLONGRAE_DONE, 1));
    CHECK(header_is(0x88, 1, 112, 0, KHLONGRAE_POSITION, 0));
    CHECK(header_is(0x89, 1, 256 + 7, 0, KHLONGRAE_POSITION, 0));
    CHECK(header_is(0x88, 2, 0, 112, KHLONGRAE_POSITION, 0));
    CHECK(header_is(0x88, 3, 112, 112, KHLONGRAE_LEVEL, 0));

    CHECK(short_is(0x58, 0, 999, 999, KHLONGRAE_DONE, 1) && header_is(0x58, 0, 0, 0, KHLONGRAE_DONE, 0));
    CHECK(short_is(0x88, 0, 0, 0, KHLONGRAE_DONE, 0));
    CHECK(short_is(0x59, 0, 7, 0, KHLONGRAE_DONE, 0));
    CHECK(short_is(0x59, 1, 7, 999, KHLONGRAE_DONE, 1));
    CHECK(short_is(0x5D, 2, 55, 55, KHLONGRAE_DONE, 1));
    CHECK(short_is(0x58, 1, 56, 0, KHLONGRAE_POSITION, 0));
    CHECK(short_is(0x58, 2, 0, 56, KHLONGRAE_POSITION, 0));
    CHECK(short_is(0x59, 1, 256 + 7, 0, KHLONGRAE_POSITION, 0));
    CHECK(short_is(0x58, 3, 56, 56, KHLONGRAE_LEVEL, 0));
}

/* the letters of the listing, by kind: those of the header lists, and none for any other first byte */
static void addresses(void) {
    static const struct { uint8_t first; uint32_t kind; } taken[] = {
        {0x58, KHLONGRAE_ADDRESS_ICAO}, {0x5C, KHLONGRAE_ADDRESS_ICAO}, {0x5D, KHLONGRAE_ADDRESS_ICAO}, {0x5E, KHLONGRAE_ADDRESS_ICAO},
        {0x5F, KHLONGRAE_ADDRESS_ICAO},
        {0x88, KHLONGRAE_ADDRESS_ICAO}, {0x8C, KHLONGRAE_ADDRESS_ICAO}, {0x8D, KHLONGRAE_ADDRESS_ICAO}, {0x8E, KHLONGRAE_ADDRESS_ICAO},
        {0x8F, KHLONGRAE_ADDRESS_ICAO}, {0x90, KHLONGRAE_ADDRESS_ICAO}, {0x92, KHLONGRAE_ADDRESS_FLAGGED},
        {0x93, KHLONGRAE_ADDRESS_FLAGGED}, {0x95, KHLONGRAE_ADDRESS_OTHER}, {0x96, KHLONGRAE_ADDRESS_FLAGGED}};
    for (unsigned first = 0, next = 0; first < 256; first++) {
        uint32_t kind = KHLONGRAE_NO_ADDRESS;
        if (next < sizeof taken / sizeof taken[0] && taken[next].first == first) kind = taken[next++].kind;
        CHECK(khlongrae_address_kind((uint8_t)first) == kind);
    }
}

static void carriers(void) {
    float spectrum[16] = {1, 1, 1, 1, 1, 1, 1, 1, 1, 10, 4, 1, 1, 1, 1, 1};
    static const float before[5] = {3, 2, 3, 1, 1}, first[5] = {1, 2, 3, 3, 1};
    struct khlongrae_search_answer s;
    struct khlongrae_carrier_answer c;
    struct khlongrae_floor_answer f = khlongrae_carrier_notched_power(spectrum, 16, 9, 1);
    CHECK(f.number == KHLONGRAE_DONE && f.floor == 13);
    f = khlongrae_carrier_notched_power(spectrum, 16, 16, 16);
    CHECK(f.number == KHLONGRAE_PLACE && f.floor == 0);
    f = khlongrae_carrier_notched_power(spectrum, 16, 9, 16);
    CHECK(f.number == KHLONGRAE_HALF_WIDTH && f.floor == 0);

    CHECK(khlongrae_long_fft_max_search(&s, spectrum, 16, 6) == &s && s.number == KHLONGRAE_DONE && s.bin == 9 && s.value == 10);
    CHECK(khlongrae_long_fft_max_search(&s, spectrum, 15, 6)->number == KHLONGRAE_INPUT_LENGTH && s.bin == 0 && s.value == 0);
    CHECK(khlongrae_long_fft_max_search(&s, spectrum, 16, 7)->number == KHLONGRAE_HALF_WIDTH && s.bin == 0 && s.value == 0);

    CHECK(khlongrae_check_carrier_metric(&c, spectrum, 16, 6, 1, 0.5f) == &c && c.number == KHLONGRAE_DONE && c.peak == 1);
    CHECK(c.bin == 9 && c.fraction == 0.1f && c.value == 10 && c.floor == 13);
    CHECK(khlongrae_check_carrier_metric(&c, spectrum, 16, 6, 1, 1)->peak == 0 && c.number == KHLONGRAE_DONE);
    CHECK(c.bin == 0 && c.fraction == 0 && c.value == 10 && c.floor == 13);
    CHECK(khlongrae_check_carrier_metric(&c, spectrum, 16, 6, 16, -1)->number == KHLONGRAE_THRESHOLD && c.value == 0 && c.floor == 0);

    CHECK(khlongrae_check_local_maximum(first, 5).number == KHLONGRAE_DONE && khlongrae_check_local_maximum(first, 5).yes == 1);
    CHECK(khlongrae_check_local_maximum(before, 5).number == KHLONGRAE_DONE && khlongrae_check_local_maximum(before, 5).yes == 0);
    CHECK(khlongrae_check_local_maximum(first, 4).number == KHLONGRAE_INPUT_LENGTH && khlongrae_check_local_maximum(first, 4).yes == 0);
}

int main(void) {
    CHECK(khlongrae_version() == KHLONGRAE_VERSION);
    memset(&pattern, 0xA5, sizeof pattern);
    memset(&tray_pattern, 0xA5, sizeof tray_pattern);
    decodes();
    short_decodes();
    both_decodes();
    trials();
    undecided();
    tray_answers();
    whole_trays();
    tray_thresholds();
    refused_trays();
    empty_trays();
    environments();
    messages();
    headers();
    addresses();
    carriers();
    printf("calls: %d checks, %d wrong\n", done, wrong);
    return wrong != 0;
}
