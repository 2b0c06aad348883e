// How much stack each decode takes, and each tray: a thread decodes on a stack that was filled with a pattern, and the lowest byte that
// changed is looked for. A thread that calls nothing is measured first, and taken off.
#include "khlongrae.h"

#include <pthread.h>
#include <stdio.h>
#include <stdlib.h>
#include <string.h>

enum { NUMBERS = 2310, STACK = 1 << 20, PATTERN = 0xA5 };
static float samples[NUMBERS];
static uint8_t *stack;
static enum call { NOTHING, LONG, SHORT, BOTH, TRAY, TRAY_BOTH, CALLS } call;
static const char *const NAMES[CALLS] = {"nothing", "a long decode", "a short decode", "a decode of both", "a tray", "a tray of both"};
static unsigned found[CALLS];
// the last windows, at most as many as a tray holds; where the newest of them lies
static float tray[KHLONGRAE_TRAY * NUMBERS];
static uint64_t indices[KHLONGRAE_TRAY];
static size_t count, newest;

static void *run(void *unused) {
    static uint8_t message[14], short_message[7];
    static uint64_t words[KHLONGRAE_WORDS], short_words[KHLONGRAE_WORDS];
    static float numbers[2], short_numbers[2];
    static uint8_t messages[21 * KHLONGRAE_TRAY];
    static uint64_t results[2 * KHLONGRAE_RESULT_WORDS * KHLONGRAE_TRAY];
    static float values[4 * KHLONGRAE_TRAY];
    const size_t row = KHLONGRAE_RESULT_WORDS;
    struct khlongrae_both_answer both = {1, 1};
    (void)unused;
    switch (call) {
    case LONG:
        both.number = khlongrae_decode(samples, NUMBERS, 2, 0.0f, 0.0f, 112, 128, message, 14, words, KHLONGRAE_WORDS, numbers, 2);
        break;
    case SHORT:
        both.number = khlongrae_decode_short(samples, NUMBERS, 2, 0.0f, 0.0f, 112, 128, message, 7, words, KHLONGRAE_WORDS, numbers, 2);
        break;
    case BOTH:
        both = khlongrae_decode_both(samples, NUMBERS, 2, 0.0f, 0.0f, 112, 128, message, 14, words, KHLONGRAE_WORDS, numbers, 2,
                                     short_message, 7, short_words, KHLONGRAE_WORDS, short_numbers, 2);
        break;
    case TRAY:
        if (khlongrae_tray(count, tray, NUMBERS * count, 2, 0.0f, 0.0f, 112, indices, count, messages, 14 * count, results, row * count,
                           values, 2 * count)) exit(2);
        both.number = (uint32_t)results[row * newest + KHLONGRAE_WORD_NUMBER];
        break;
    case TRAY_BOTH:
        if (khlongrae_tray_both(count, tray, NUMBERS * count, 2, 0.0f, 0.0f, 112, indices, count, messages, 21 * count, results,
                                2 * row * count, values, 4 * count)) exit(2);
        both.number = (uint32_t)results[2 * row * newest + KHLONGRAE_WORD_NUMBER];
        both.short_number = (uint32_t)results[2 * row * newest + row + KHLONGRAE_WORD_NUMBER];
        break;
    default: break;
    }
    found[call] += both.number == 0 || both.short_number == 0;
    return NULL;
}

static size_t used(enum call asked) {
    pthread_attr_t attributes;
    pthread_t thread;
    call = asked;
    memset(stack, PATTERN, STACK);
    pthread_attr_init(&attributes);
    if (pthread_attr_setstack(&attributes, stack, STACK) || pthread_create(&thread, &attributes, run, NULL)) exit(2);
    pthread_join(thread, NULL);
    size_t untouched = 0;
    while (untouched < STACK && stack[untouched] == PATTERN) untouched++;
    return STACK - untouched;
}

// a pulse in the first half of each bit that is 1, in the second half of each that is 0, from a sample on
static void send(const uint8_t *message, int bytes, int from) {
    for (int j = 0; j < 8 * bytes; j++) {
        int half = message[j / 8] >> (7 - j % 8) & 1 ? 0 : 4;
        for (int k = 0; k < 4; k++) samples[2 * (from + 8 * j + half + k)] = 1.0f;
    }
}

static void damage(uint8_t *message, int bit) { message[bit / 8] ^= 0x80 >> bit % 8; }

int main(void) {
    static const uint8_t clean[14] = {0x88, 0x07, 0x76, 0xAC};
    static const uint8_t squitter[7] = {0x5D, 0x48, 0x40, 0xD6, 0xF8, 0x74, 0x0F};
    size_t most[CALLS] = {0}, idle;
    int wrong = 0;
    if (posix_memalign((void **)&stack, 4096, STACK)) return 2;
    idle = used(NOTHING);
    // a clean message, each pair of neighbouring bits damaged, every other time with five bits of which nothing came in, a short one with
    // each bit damaged, and noise: all trials are made and all lookups, and undecided bits are counted
    for (int w = 0; w < 400; w++) {
        uint8_t damaged[14], shorter[7];
        memcpy(damaged, clean, 14);
        memcpy(shorter, squitter, 7);
        memset(samples, 0, sizeof samples);
        if (w < 112) {
            if (w > 0) damage(damaged, w), damage(damaged, w - 1);
            send(damaged, 14, 128);
            if (w % 2) memset(samples + 2 * (128 + 8 * 40), 0, 2 * 8 * 5 * sizeof *samples);
        } else if (w < 200) {
            if (w < 168) damage(shorter, w - 112);
            send(shorter, 7, 3 * w);
        } else {
            for (int k = 0; k < NUMBERS; k++) samples[k] = (float)rand() / (float)RAND_MAX - 0.5f;
        }
        newest = (size_t)w % KHLONGRAE_TRAY;
        memcpy(tray + NUMBERS * newest, samples, sizeof samples);
        indices[newest] = 128;
        if (count < KHLONGRAE_TRAY) count++;
        for (enum call c = LONG; c < CALLS; c++) {
            size_t now = used(c);
            if (now > most[c]) most[c] = now;
        }
    }
    for (enum call c = LONG; c < CALLS; c++) {
        printf("stack: %s takes %zu bytes at most over 400 windows (%u with a message), of 65536\n", NAMES[c], most[c] - idle, found[c]);
        wrong |= found[c] < 80 || most[c] - idle >= 65536;
    }
    return wrong;
}
