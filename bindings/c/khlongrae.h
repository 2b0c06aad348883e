/* Khlongrae for C and C++: the functions of libkhlongrae.a.
 *
 * Every function is proved to answer its definition, whatever it is given (docs/CONTRACTS.md names each). It keeps no state, takes
 * nothing from the heap and calls nothing but memcpy, memmove and memset, so that any number of threads may call it. A decode takes
 * 34,744 bytes of stack at most for a long message, 41,784 for a short one and 44,776 for both, as it was measured for x86-64 (for
 * Arm, as an earlier kit compiled it, 48,672 for a long one and 58,384 for both). A tray takes 54,872 bytes at most, and one of both
 * kinds 64,856, for x86-64, however many windows it has; tools/stack measures it.
 *
 * A slice is a pointer and a length, in elements. The library checks every length itself and refuses a wrong one. What it cannot
 * check is left to the caller: that a pointer is good for its length (with length 0 it may be null), that it is aligned for the type
 * of its elements, as C has it, and that memory which a call writes overlaps no other memory of the call.
 *
 * The calls reckon in the default float environment: round to nearest, ties to even; no flush to zero and no denormals as zero;
 * exceptions masked. The proof covers no other: answers can then differ from the definitions, and from those of another machine.
 * Decodes were tried in others on x86-64: with another rounding each ended, and many answers had other bits in cn0 and fraction; with
 * flush to zero or denormals as zero each ended, and windows with pulses of 1e-19 and less gave other answers or none; an exception
 * that was not masked was raised in the call. A call sets no mode, and may leave exception flags behind.
 *
 * A call answers 0, or the number of its refusal. A refused call leaves lent memory as it was, and a struct that it answers holds
 * zeros but for the number. Where several refusals apply, the lowest number from 2 up is answered.
 */
#ifndef KHLONGRAE_H
#define KHLONGRAE_H

#include <stddef.h>
#include <stdint.h>

#ifdef __cplusplus
extern "C" {
#endif

/* The number of the interface that this file describes. A library of another number must not be called: see khlongrae_version. In 1 a
 * decode had eight whole numbers, without the undecided bits; in 2 nine, without the trial. */
#define KHLONGRAE_VERSION 3

/* What a call answers. The window program has one number more, 10, for a malformed file; the library never answers it. */
enum khlongrae_number {
    KHLONGRAE_DONE = 0,          /* done */
    KHLONGRAE_NO_MESSAGE = 1,    /* a decode: no place of the window holds a reading that the settings let pass */
    KHLONGRAE_INPUT_LENGTH = 2,  /* a lent input has the wrong length, or a tray has too many windows */
    KHLONGRAE_OUTPUT_LENGTH = 3, /* a lent output has the wrong length */
    KHLONGRAE_LEVEL = 4,         /* a level, or a count of repairs, that is not 0, 1 or 2 */
    KHLONGRAE_THRESHOLD = 5,     /* a threshold that is infinite or no number; a carrier's also where it is below 0 (-0.0 is taken) */
    KHLONGRAE_INDEX = 6,         /* a sample index below 128 or above 2^63 */
    KHLONGRAE_PLACE = 7,         /* a place out of its range: here, a bin that the spectrum has not */
    KHLONGRAE_POSITION = 8,      /* a repaired position above 111, of a short message above 55 */
    KHLONGRAE_HALF_WIDTH = 9     /* a half-width that is too large for the spectrum */
};

/* The lengths that the decodes, the trays and khlongrae_avr take. bindings/rust has each under the same name, without the prefix. */
enum khlongrae_length {
    KHLONGRAE_WINDOW = 2310,     /* numbers of a window: 1,155 samples, each a real part and an imaginary part */
    KHLONGRAE_MESSAGE = 14,      /* bytes of a message */
    KHLONGRAE_SHORT_MESSAGE = 7, /* bytes of a short one */
    KHLONGRAE_WORDS = 10,        /* whole numbers of a decode */
    KHLONGRAE_FLOATS = 2,        /* floats of a decode */
    KHLONGRAE_TRAY = 64,         /* the most windows of a tray */
    KHLONGRAE_RESULT_WORDS = 11, /* whole numbers of a tray's result: those of a decode, and its number */
    KHLONGRAE_LINE = 30,         /* bytes of the AVR line of a message */
    KHLONGRAE_SHORT_LINE = 16    /* bytes of that of a short one */
};

/* The whole numbers of a decode, by their place in `words`; those of a tray's result, by their place in its part of `words`. */
enum khlongrae_word {
    KHLONGRAE_WORD_INDEX = 0,     /* when the message came: the number of its first sample, at 8,000,000 samples a second */
    KHLONGRAE_WORD_BIT = 1,       /* where it was read: bit offset, 1 to 31, of a short message 1 to 87, */
    KHLONGRAE_WORD_PHASE = 2,     /*     clock phase, 0 to 3, */
    KHLONGRAE_WORD_SYMBOL = 3,    /*     symbol offset, 0 or 1; its first sample in the window is 4 * (2 * bit + symbol) + phase */
    KHLONGRAE_WORD_REPAIRS = 4,   /* how many bits were turned over: 0, 1 or 2, of a short message 0 or 1 */
    KHLONGRAE_WORD_FIRST = 5,     /* the first of them, 0 to 111, of a short message 0 to 55 (bit 0 is the top bit of byte 0), or 0 where
                                     there is none */
    KHLONGRAE_WORD_SECOND = 6,    /* the second of them, above the first, or 0 where there is none */
    KHLONGRAE_WORD_SLICER = 7,    /* who read the bits: see below */
    KHLONGRAE_WORD_UNDECIDED = 8, /* how many of the 112 bits, of a short message of the 56, were undecided: neither half of the bit was
                                     strictly greater than the other by what the slicer compares, so they were equal or one was no number.
                                     Such a bit is read as 0, but nothing was received that tells 0 from 1. Bits are counted as they were
                                     read: one that was turned over may be among them. 0 here and 0 repairs: every bit was received */
    KHLONGRAE_WORD_TRIAL = 9,     /* which of the six trials found it, 1 to 6, of a short message 1 to 4: 1 + 2 * repairs + slicer. A
                                     place is tried in this order: without a repair, with one, with two, each time by the real part and
                                     then by the norm */
    KHLONGRAE_WORD_NUMBER = 10    /* of a tray's result alone: its number, 0, 1 where the window holds no message, 6 for its index */
};

enum khlongrae_slicer {
    KHLONGRAE_COHERENT = 0,      /* by the real part */
    KHLONGRAE_NONCOHERENT = 1    /* by the norm */
};

/* The floats of a decode, by their place in `floats`. Either is no number where the samples are such that none can be told. */
enum khlongrae_float {
    KHLONGRAE_FLOAT_CN0 = 0,     /* how far the signal stood above the noise, in dB Hz; infinite where there was no noise */
    KHLONGRAE_FLOAT_FRACTION = 1 /* how far between two samples the message came, from -0.5 to below 0.5, to add to the index. A message
                                    that starts exactly with sample N has the index N and the fraction -0.5: it takes 0.5 off */
};

/* The number of the library's interface: compare it with KHLONGRAE_VERSION before any other call. It grows by 1 where a signature, a
 * length or the meaning of a field changes. */
uint32_t khlongrae_version(void);

/* Looks for a message of 14 bytes in a window, and writes what it found.
 *
 *   samples    2,310 numbers, derotated and phased, so that a pulse lies on the real axis
 *   level      the most bits that are repaired: 0, 1 or 2
 *   threshold  a reading with two repairs is dropped if its cn0 is below this
 *   second     so is one by the noncoherent slicer below this, if the slicers differ in as many bits as
 *   distance   says
 *   index      the receiver's number of the window's sample 128
 *   message    14 bytes: the message after its repairs. To see what was read, turn the repaired bits over again
 *   words      10 whole numbers: see enum khlongrae_word
 *   floats     2 floats: see enum khlongrae_float
 *
 * Answers 0 and has written all three outputs, or 1, 2, 3, 4, 5 or 6 and has written nothing. */
uint32_t khlongrae_decode(const float *samples, size_t samples_len, uint32_t level, float threshold, float second, uint32_t distance,
                          uint64_t index, uint8_t *message, size_t message_len, uint64_t *words, size_t words_len, float *floats,
                          size_t floats_len);

/* Looks for a short message, of 7 bytes: an acquisition squitter, format 11. All is as for khlongrae_decode, but for this:
 *
 *   level      at most one bit is repaired: 2 is treated as 1
 *   threshold, second, distance
 *              have no effect, since they speak of two repairs; a threshold that is infinite or no number is refused all the same
 *   message    7 bytes
 *
 * A reply to an interrogator that has one of the codes 1, 2, 4, 8, 16, 32 and 64 is taken at levels 1 and 2, with one repair at position
 * 55, 54 .. 49, though it is no squitter: see docs/AUDIT.md. */
uint32_t khlongrae_decode_short(const float *samples, size_t samples_len, uint32_t level, float threshold, float second,
                                uint32_t distance, uint64_t index, uint8_t *message, size_t message_len, uint64_t *words,
                                size_t words_len, float *floats, size_t floats_len);

struct khlongrae_both_answer {
    uint32_t number;             /* what khlongrae_decode answers */
    uint32_t short_number;       /* what khlongrae_decode_short answers */
};

/* Looks for a message of either kind: the two calls in one, with what both need made once. message, words and floats are those of the
 * message of 14 bytes; short_message (7 bytes), short_words and short_floats are those of the short one. The outputs of a kind are written
 * where its number is 0, and else stay as they were. 2, 4, 5 and 6 are answered as both numbers, and so is 3 where any of the six outputs
 * has the wrong length. */
struct khlongrae_both_answer khlongrae_decode_both(const float *samples, size_t samples_len, uint32_t level, float threshold, float second,
                                                   uint32_t distance, uint64_t index, uint8_t *message, size_t message_len,
                                                   uint64_t *words, size_t words_len, float *floats, size_t floats_len,
                                                   uint8_t *short_message, size_t short_message_len, uint64_t *short_words,
                                                   size_t short_words_len, float *short_floats, size_t short_floats_len);

/* A tray: many windows in one call, with one setting. Result k is exactly what khlongrae_decode answers for window k, its index and the
 * setting.
 *
 *   count      how many windows: 0 to 64
 *   samples    2,310 numbers for each window, one window behind another
 *   level, threshold, second, distance
 *              as for khlongrae_decode
 *   indices    one for each window: the receiver's number of its sample 128
 *   messages   14 bytes for each window: those of window k from 14 * k on
 *   words      11 whole numbers for each: from 11 * k on those of enum khlongrae_word, the last of them the result's number
 *   floats     2 floats for each: from 2 * k on those of enum khlongrae_float
 *
 * The number of a result is 0, or 1 where its window holds no message, or 6 where its index is below 128 or above 2^63: that is the
 * window's alone, and the others go on. Where it is not 0 the other fields of the result are zeros, written as such, unlike in the
 * single call.
 *
 * Answers 0 and has written every result, or has written nothing: 2 (a count above 64, samples that are not 2,310 for each window, or
 * indices that are not one for each), 3 (outputs of another length), 4 or 5. With the count 0 there is nothing to write, and the settings
 * are looked at all the same. */
uint32_t khlongrae_tray(size_t count, const float *samples, size_t samples_len, uint32_t level, float threshold, float second,
                        uint32_t distance, const uint64_t *indices, size_t indices_len, uint8_t *messages, size_t messages_len,
                        uint64_t *words, size_t words_len, float *floats, size_t floats_len);

/* The same with both searches of each window: result k is what khlongrae_decode_both answers.
 *
 *   messages   21 bytes for each window: 14 of the long message, then 7 of the short one
 *   words      22 whole numbers for each: 11 of the long message, then 11 of the short one, each with its own number
 *   floats     4 floats for each: 2 and 2
 *
 * A bad index is 6 as both numbers. */
uint32_t khlongrae_tray_both(size_t count, const float *samples, size_t samples_len, uint32_t level, float threshold, float second,
                             uint32_t distance, const uint64_t *indices, size_t indices_len, uint8_t *messages, size_t messages_len,
                             uint64_t *words, size_t words_len, float *floats, size_t floats_len);

/* Writes the AVR line of a message of 7 or 14 bytes: `*`, two capital hex digits for each byte, `;`. The line has exactly 16 or 30
 * bytes, with no zero behind it. Answers 0, or 2 (another length of the message), or 3 (another length of the line). */
uint32_t khlongrae_avr(const uint8_t *message, size_t message_len, uint8_t *line, size_t line_len);

/* The remainder of a string of bytes of any length: the string times x^24, modulo the generator of ICAO Annex 10 Volume IV. It has 24
 * bits and is never refused. It is 0 for a message that a decode looks for, of 14 bytes or of 7, that came without an error. */
uint32_t khlongrae_remainder(const uint8_t *bytes, size_t bytes_len);

struct khlongrae_header_answer {
    uint32_t number;
    uint32_t valid;              /* 1 where the header is one that is taken, else 0 */
};

/* Whether the first byte of a 14-byte message is that of an extended squitter once `count` of its bits are turned over: none, the
 * one at j, or those at j and k (the same one twice cancels). What is not counted is not looked at. Number 0, or 4 (a count above
 * 2), or 8 (a counted position above 111). */
struct khlongrae_header_answer khlongrae_header(uint8_t first, uint32_t count, uint32_t j, uint32_t k);

/* The same for the first byte of a 7-byte message and an acquisition squitter: format 11 with a capability that is listed. Number 0, or
 * 4, or 8 (a counted position above 55). */
struct khlongrae_header_answer khlongrae_header_short(uint8_t first, uint32_t count, uint32_t j, uint32_t k);

/* What the three bytes behind a first byte are. */
enum khlongrae_address {
    KHLONGRAE_NO_ADDRESS = 0,     /* no address: a management message (format 18, control code 4), and every header that is not taken */
    KHLONGRAE_ADDRESS_ICAO = 1,   /* an ICAO address: formats 11 and 17, and format 18 with control code 0 */
    KHLONGRAE_ADDRESS_OTHER = 2,  /* an address of another kind: format 18 with control code 5 */
    KHLONGRAE_ADDRESS_FLAGGED = 3 /* one or the other, as a flag inside the message tells: format 18 with control code 2, 3 or 6 */
};

/* Whose address it is: see enum khlongrae_address. The first byte is taken as it is after the repairs: message[0] of a decode. Only an
 * ICAO address names an aircraft of the ICAO register. */
uint32_t khlongrae_address_kind(uint8_t first);

/* ---- The carrier, in a spectrum of N floats, N even, 4 to 4,096 (else 2) */

struct khlongrae_search_answer {
    uint32_t number;
    size_t bin;
    float value;
};

/* The strongest bin within `search` of the middle, search at most N/2 - 2 (else 9): the first greatest above 0, or the first bin and
 * 0 if there is none.
 *
 * An answer of more than 16 bytes is written to `answer`, and its address is returned: declared so, the call is the same on x86-64
 * and on Arm. `answer` must be good for writing. */
struct khlongrae_search_answer *khlongrae_long_fft_max_search(struct khlongrae_search_answer *answer, const float *spectrum,
                                                              size_t spectrum_len, size_t search);

struct khlongrae_floor_answer {
    uint32_t number;
    float floor;
};

/* The power outside of bin - notch to bin + notch. The bin is below N (else 7), and so is the notch (else 9). */
struct khlongrae_floor_answer khlongrae_carrier_notched_power(const float *spectrum, size_t spectrum_len, size_t bin, size_t notch);

struct khlongrae_carrier_answer {
    uint32_t number;
    uint32_t peak;               /* 1: a peak; 0: the carrier is weak, and bin and fraction are 0 */
    size_t bin;
    float fraction;              /* how far between two bins the peak lies */
    float value;                 /* the power at the strongest bin */
    float floor;                 /* the power beside it */
};

/* The carrier call: a peak where value >= threshold * floor. Refused: 2, 5, 9 (either half-width). The answer as above. */
struct khlongrae_carrier_answer *khlongrae_check_carrier_metric(struct khlongrae_carrier_answer *answer, const float *spectrum,
                                                                size_t spectrum_len, size_t search, size_t notch, float threshold);

struct khlongrae_maximum_answer {
    uint32_t number;
    uint32_t yes;                /* 1 where the third value is a local maximum, else 0 */
};

/* Whether the third of five values is a local maximum: none before it is as great, none behind it is greater. Refused: 2. */
struct khlongrae_maximum_answer khlongrae_check_local_maximum(const float *values, size_t values_len);

#ifdef __cplusplus
}
#endif

#endif
