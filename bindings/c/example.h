/* What example.c and tray.c share: how a file of windows is read, and the lines that are printed of a window. docs/WINDOWS.md says what
 * the file holds. C and C++ alike. */
#ifndef EXAMPLE_H
#define EXAMPLE_H

#include "khlongrae.h"

#include <inttypes.h>
#include <stdio.h>
#include <stdlib.h>
#include <string.h>

static const char *program = "";

static void stop(const char *why) {
    fprintf(stderr, "%s: %s\n", program, why);
    exit(2);
}

/* a whole number of so many bytes, the lowest first */
static uint64_t read_number(FILE *file, int bytes) {
    uint64_t number = 0;
    for (int k = 0; k < bytes; k++) {
        int byte = fgetc(file);
        if (byte == EOF) stop("the file ends early");
        number |= (uint64_t)byte << (8 * k);
    }
    return number;
}

static float read_float(FILE *file) {
    uint32_t bits = (uint32_t)read_number(file, 4);
    float number;
    memcpy(&number, &bits, sizeof number);
    return number;
}

/* a file that is read up to its samples. It has as many windows as a tray, at most */
struct windows {
    FILE *file;
    uint32_t level;
    float threshold, second;
    uint32_t distance;
    unsigned count;
    uint64_t indices[KHLONGRAE_TRAY];
};

/* the file that a call of this program names */
static struct windows open_windows(const char *name, int count, char **words_given) {
    struct windows w;
    program = name;
    if (khlongrae_version() != KHLONGRAE_VERSION) stop("the library has another interface");
    if (count != 2) stop("it is called with the name of a file");
    w.file = fopen(words_given[1], "rb");
    if (w.file == NULL) stop("no such file");
    if (read_number(w.file, 4) != 4) stop("there are four settings");
    w.level = (uint32_t)read_number(w.file, 4);
    w.threshold = read_float(w.file);
    w.second = read_float(w.file);
    w.distance = (uint32_t)read_number(w.file, 4);
    w.count = (unsigned)read_number(w.file, 4);
    if (w.count > KHLONGRAE_TRAY) stop("there are at most 64 windows");
    for (unsigned k = 0; k < w.count; k++) w.indices[k] = read_number(w.file, 8);
    if (read_number(w.file, 4) != KHLONGRAE_WINDOW * w.count) stop("a window has 2,310 numbers");
    return w;
}

/* the address as a listing has it: the letter of its kind before the digits, `-` where there is none */
static void print_address(const uint8_t *message) {
    char letter = '-';
    switch (khlongrae_address_kind(message[0])) {
    case KHLONGRAE_ADDRESS_ICAO: letter = 'I'; break;
    case KHLONGRAE_ADDRESS_OTHER: letter = 'X'; break;
    case KHLONGRAE_ADDRESS_FLAGGED: letter = '?'; break;
    }
    printf(" address %c", letter);
    if (letter != '-') printf("%02X%02X%02X", message[1], message[2], message[3]);
}

static void print_found(unsigned window, const uint8_t *message, size_t bytes, const uint64_t *words) {
    uint8_t line[KHLONGRAE_LINE];
    size_t length = bytes == KHLONGRAE_MESSAGE ? KHLONGRAE_LINE : KHLONGRAE_SHORT_LINE;
    if (khlongrae_avr(message, bytes, line, length) != KHLONGRAE_DONE) stop("no AVR line");
    printf("%u %.*s", window, (int)length, (const char *)line);
    print_address(message);
    printf(" place %" PRIu64 ",%" PRIu64 ",%" PRIu64 " index %" PRIu64 " slicer %c repairs %" PRIu64, words[KHLONGRAE_WORD_BIT],
           words[KHLONGRAE_WORD_PHASE], words[KHLONGRAE_WORD_SYMBOL], words[KHLONGRAE_WORD_INDEX],
           words[KHLONGRAE_WORD_SLICER] == KHLONGRAE_COHERENT ? 'C' : 'N', words[KHLONGRAE_WORD_REPAIRS]);
    if (words[KHLONGRAE_WORD_REPAIRS] > 0) printf(":%" PRIu64, words[KHLONGRAE_WORD_FIRST]);
    if (words[KHLONGRAE_WORD_REPAIRS] > 1) printf(",%" PRIu64, words[KHLONGRAE_WORD_SECOND]);
    printf(" undecided %" PRIu64 " trial %" PRIu64 "\n", words[KHLONGRAE_WORD_UNDECIDED], words[KHLONGRAE_WORD_TRIAL]);
}

/* a line for each message of a window, or for a window that holds none or is refused */
static void print_window(unsigned window, struct khlongrae_both_answer both, const uint8_t *message, const uint64_t *words,
                         const uint8_t *short_message, const uint64_t *short_words) {
    if (both.number > KHLONGRAE_NO_MESSAGE) {
        printf("%u refused %" PRIu32 "\n", window, both.number);
        return;
    }
    if (both.number == KHLONGRAE_DONE) print_found(window, message, KHLONGRAE_MESSAGE, words);
    if (both.short_number == KHLONGRAE_DONE) print_found(window, short_message, KHLONGRAE_SHORT_MESSAGE, short_words);
    if (both.number == KHLONGRAE_NO_MESSAGE && both.short_number == KHLONGRAE_NO_MESSAGE) printf("%u none\n", window);
}

#endif
