/* tray FILE: decodes all windows of a file in one call, and prints the lines that example.c prints. C and C++ alike. */
#include "example.h"

/* what each window gets of the lent memory: that of the long message, and behind it that of the short one */
enum { BYTES = KHLONGRAE_MESSAGE + KHLONGRAE_SHORT_MESSAGE, WORDS = 2 * KHLONGRAE_RESULT_WORDS, FLOATS = 2 * KHLONGRAE_FLOATS };

int main(int count, char **words_given) {
    static float samples[KHLONGRAE_TRAY * KHLONGRAE_WINDOW];
    static uint8_t messages[KHLONGRAE_TRAY * BYTES];
    static uint64_t words[KHLONGRAE_TRAY * WORDS];
    static float floats[KHLONGRAE_TRAY * FLOATS];
    struct windows w = open_windows("tray", count, words_given);
    for (unsigned i = 0; i < KHLONGRAE_WINDOW * w.count; i++) samples[i] = read_float(w.file);
    fclose(w.file);

    uint32_t number =
        khlongrae_tray_both(w.count, samples, KHLONGRAE_WINDOW * w.count, w.level, w.threshold, w.second, w.distance, w.indices, w.count,
                            messages, BYTES * w.count, words, WORDS * w.count, floats, FLOATS * w.count);
    for (unsigned k = 0; k < w.count; k++) {
        const uint8_t *message = messages + BYTES * k;
        const uint64_t *row = words + WORDS * k, *short_row = row + KHLONGRAE_RESULT_WORDS;
        /* a tray that is refused is so for each of its windows */
        struct khlongrae_both_answer both = {number, number};
        if (number == KHLONGRAE_DONE) {
            both.number = (uint32_t)row[KHLONGRAE_WORD_NUMBER];
            both.short_number = (uint32_t)short_row[KHLONGRAE_WORD_NUMBER];
        }
        print_window(k, both, message, row, message + KHLONGRAE_MESSAGE, short_row);
    }
    return 0;
}
