/* example FILE: decodes each window of a file, such as samples/both.win, and prints a line for each message that it holds, that of a
 * short one after that of a long one, or for a window that holds none. C and C++ alike. */
#include "example.h"

int main(int count, char **words_given) {
    static float samples[KHLONGRAE_WINDOW];
    struct windows w = open_windows("example", count, words_given);
    for (unsigned k = 0; k < w.count; k++) {
        uint8_t message[KHLONGRAE_MESSAGE], short_message[KHLONGRAE_SHORT_MESSAGE];
        uint64_t words[KHLONGRAE_WORDS], short_words[KHLONGRAE_WORDS];
        float floats[KHLONGRAE_FLOATS], short_floats[KHLONGRAE_FLOATS];
        for (int i = 0; i < KHLONGRAE_WINDOW; i++) samples[i] = read_float(w.file);
        struct khlongrae_both_answer both =
            khlongrae_decode_both(samples, KHLONGRAE_WINDOW, w.level, w.threshold, w.second, w.distance, w.indices[k], message,
                                  KHLONGRAE_MESSAGE, words, KHLONGRAE_WORDS, floats, KHLONGRAE_FLOATS, short_message,
                                  KHLONGRAE_SHORT_MESSAGE, short_words, KHLONGRAE_WORDS, short_floats, KHLONGRAE_FLOATS);
        print_window(k, both, message, words, short_message, short_words);
    }
    fclose(w.file);
    return 0;
}
