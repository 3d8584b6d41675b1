/* What the path card's library gives its host: parity, trace check and word
 * reading on bytes, and a check of settings before any call is made with them.
 * Link with libcard.a (`tools/build card` writes it to target/staticlib/).
 *
 *     uint8_t  card_parity(const uint8_t *bytes, size_t length);
 *     bool     card_trace_check(const uint8_t *bytes, size_t length);
 *     uint16_t card_word_reading(const uint8_t *bytes, size_t length);
 *     struct card_refusal
 *              card_settings_check(uint8_t label, const uint8_t *trace,
 *                                  size_t length);
 *
 * Each takes a pointer and a length, reads those bytes and nothing else,
 * writes nothing, keeps nothing, and always returns: every length has an
 * answer, given below. The pointer must be to `length` readable bytes. Where
 * `length` is 0 it is not read through, and may be any pointer, NULL too:
 * (NULL, 0) is no bytes.
 *
 * NULL with another length is a fault of the host's. It is taken as no bytes,
 * so that nothing is read through it; do not count on the answer.
 *
 * The library itself takes no NULL. So each of the four names is, in a source
 * that includes this header, an inline function of the host's own, which lends
 * the library one byte and the length 0 where it is given NULL. A call from
 * another language, which sees the library's own function, has to do the same.
 */

/* The refusals of the card's calls, in words. A refused call answers with the
 * number, gives back the old state and writes no byte that was lent.
 * docs/REFUSALS.md says what to do about each, and which call gives it.
 *
 *      1  the unit is not 2358 bytes long
 *      2  the payload is not 2340 bytes long
 *      3  a container, held or done buffer is not 2349 bytes long
 *      4  label 00 means that nothing is carried and FF means alarm: neither
 *         can be sent, expected or listed
 *      5  a trace character is below 20, which is the space
 *      6  more than 8 violations are to be returned
 *      7  an adjustment is asked for with fewer than three units since the
 *         last
 *      8  the state has a number outside its range, or a held count that does
 *         not fit its offset
 *      9  the catalogue is no whole number of records of 21 bytes, or has more
 *         than 512
 *     10  a record does not begin with the mark 5A 4D
 *     11  a circuit number is 0 or above 9999
 *     12  flags are above 15
 *     13  two records have the same trace
 *     14  the circuit is not listed
 *     15  a line of the text is malformed, or longer than 80 bytes
 *     16  a trace is not in double quotes
 *     17  a trace has more than 15 characters
 *     18  the text has more than 512 lines
 *     20  a trace character is above 7E, which is ~
 *     21  all fifteen characters of the trace are spaces, which nobody means
 */
#ifndef CARD_H
#define CARD_H

#include <stdbool.h>
#include <stddef.h>
#include <stdint.h>

#ifdef __cplusplus
extern "C" {
#endif

/* The exclusive or of all bytes, as B3 has it of a container of 2349.
 * Of no bytes: 00. */
uint8_t card_parity(const uint8_t *bytes, size_t length);

/* Whether the bytes are a good trace message: a start byte with its top bit
 * set and the 7-bit check of G.707 (x^7 + x^3 + 1, the start byte taken as
 * 80), then 15 bytes with top bit 0.
 * Of any length but 16: false. */
bool card_trace_check(const uint8_t *bytes, size_t length);

/* The pointer word in H1, H2 taken apart:
 *     4096 * (NDF kind: 0 neither, 1 normal, 2 enabled) + 1024 * SS + value
 * The value is the word's ten bits, in range (0 to 782) or not.
 * Of any length but 2: 0. (So is 00 00 with SS 00: a NDF that is neither.) */
uint16_t card_word_reading(const uint8_t *bytes, size_t length);

/* A refusal: its number, 0 for none; and the place of the trace's character
 * that it names, 1 to 15, 0 where it names none. */
struct card_refusal {
    uint8_t number;
    size_t place;
};

/* Whether a path can be set to this label and this trace, as sent or as
 * expected: number 0, or the number by which every call with them will be
 * refused, the first of these that is so:
 *      4  label 00 or FF
 *      5  at place 0: not 15 characters. Pad a short trace with spaces, as it
 *         is compared with all of them
 *      5  a character below 20, at its place
 *     20  a character above 7E, at its place. Of 5 and 20 the earliest
 *         character decides
 *     21  all 15 are spaces */
struct card_refusal card_settings_check(uint8_t label, const uint8_t *trace, size_t length);

/* The same for a pointer that may be NULL. */

static const uint8_t card_host_none = 0; /* lent for no bytes, and never read */

static inline uint8_t card_host_parity(const uint8_t *bytes, size_t length)
{
    return bytes != NULL ? card_parity(bytes, length) : card_parity(&card_host_none, 0);
}

static inline bool card_host_trace_check(const uint8_t *bytes, size_t length)
{
    return bytes != NULL ? card_trace_check(bytes, length) : card_trace_check(&card_host_none, 0);
}

static inline uint16_t card_host_word_reading(const uint8_t *bytes, size_t length)
{
    return bytes != NULL ? card_word_reading(bytes, length) : card_word_reading(&card_host_none, 0);
}

static inline struct card_refusal card_host_settings_check(uint8_t label, const uint8_t *trace, size_t length)
{
    return trace != NULL ? card_settings_check(label, trace, length) : card_settings_check(label, &card_host_none, 0);
}

/* Names, and not calls, so that a pointer to one of the four is safe too. */
#define card_parity card_host_parity
#define card_trace_check card_host_trace_check
#define card_word_reading card_host_word_reading
#define card_settings_check card_host_settings_check

#ifdef __cplusplus
}
#endif

#endif
