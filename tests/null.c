/* No bytes from a host in C: each of the card's four functions with (NULL, 0),
 * with a pointer that may not be read through and the length 0, with NULL and
 * another length, and with real bytes, called by name and through a pointer.
 *
 * Linked with --wrap of the four names, so that every call of the library
 * comes by here: NULL must not reach it, and its answers must be those of
 * include/card.h. Prints what failed, and a summary; the status is 1 where
 * anything did. It is C11 and C++17. */
#include <stdio.h>
#include <stdlib.h>
#include <string.h>

#include "card.h"

static unsigned calls, nulls; /* that reached the library, of one call of the host's; with NULL */
static size_t reached;        /* the length there */
static unsigned tried, failed;

/* Whether the library may be called: with NULL it is not, so that the test goes on and says so. */
static bool watch(const uint8_t *bytes, size_t length)
{
    calls++;
    nulls += bytes == NULL;
    reached = length;
    return bytes != NULL;
}

#ifdef __cplusplus
extern "C" {
#endif

/* the linker's names: the library's function, and what is called in its place */
uint8_t __real_card_parity(const uint8_t *bytes, size_t length);
bool __real_card_trace_check(const uint8_t *bytes, size_t length);
uint16_t __real_card_word_reading(const uint8_t *bytes, size_t length);
struct card_refusal __real_card_settings_check(uint8_t label, const uint8_t *trace, size_t length);
uint8_t __wrap_card_parity(const uint8_t *bytes, size_t length);
bool __wrap_card_trace_check(const uint8_t *bytes, size_t length);
uint16_t __wrap_card_word_reading(const uint8_t *bytes, size_t length);
struct card_refusal __wrap_card_settings_check(uint8_t label, const uint8_t *trace, size_t length);

uint8_t __wrap_card_parity(const uint8_t *bytes, size_t length)
{
    return watch(bytes, length) ? __real_card_parity(bytes, length) : (uint8_t)0;
}

bool __wrap_card_trace_check(const uint8_t *bytes, size_t length)
{
    return watch(bytes, length) ? __real_card_trace_check(bytes, length) : false;
}

uint16_t __wrap_card_word_reading(const uint8_t *bytes, size_t length)
{
    return watch(bytes, length) ? __real_card_word_reading(bytes, length) : (uint16_t)0;
}

struct card_refusal __wrap_card_settings_check(uint8_t label, const uint8_t *trace, size_t length)
{
    static const struct card_refusal none = {0, 0};
    return watch(trace, length) ? __real_card_settings_check(label, trace, length) : none;
}

#ifdef __cplusplus
}
#endif

static void expect(const char *function, const char *what, const char *of, size_t got, size_t want)
{
    if (got != want) {
        printf("null: %s, %s: %s: %zu, and should be %zu\n", function, what, of, got, want);
        failed++;
    }
}

/* One call, made already: its answer, and what reached the library of it. */
static void made(const char *function, const char *what, size_t answer, size_t want, size_t length)
{
    expect(function, what, "the answer", answer, want);
    expect(function, what, "calls of the library", calls, 1);
    expect(function, what, "calls of the library with NULL", nulls, 0);
    expect(function, what, "the length there", reached, length);
    calls = nulls = 0;
    tried++;
}

/* Number and place in one. */
static size_t both(struct card_refusal refusal)
{
    return refusal.number * 1000 + refusal.place;
}

/* The settings' check on a label that is refused, and on one that is not: the answer is then the trace's. */
static void settings(const char *what, const uint8_t *bytes, size_t length, size_t there, size_t trace)
{
    struct card_refusal (*by_settings)(uint8_t, const uint8_t *, size_t) = card_settings_check;

    made("card_settings_check of 00", what, both(card_settings_check(0x00, bytes, length)), 4000, there);
    made("card_settings_check of 12", what, both(card_settings_check(0x12, bytes, length)), trace, there);
    made("a pointer to card_settings_check", what, both(by_settings(0x12, bytes, length)), trace, there);
}

/* The three on the same bytes, which are no trace. Both ways to call them: by name, and through a pointer. */
static void all(const char *what, const uint8_t *bytes, size_t length, size_t there, size_t parity, size_t check, size_t reading)
{
    uint8_t (*by_parity)(const uint8_t *, size_t) = card_parity;
    bool (*by_check)(const uint8_t *, size_t) = card_trace_check;
    uint16_t (*by_reading)(const uint8_t *, size_t) = card_word_reading;

    made("card_parity", what, card_parity(bytes, length), parity, there);
    made("card_trace_check", what, card_trace_check(bytes, length), check, there);
    made("card_word_reading", what, card_word_reading(bytes, length), reading, there);
    made("a pointer to card_parity", what, by_parity(bytes, length), parity, there);
    made("a pointer to card_trace_check", what, by_check(bytes, length), check, there);
    made("a pointer to card_word_reading", what, by_reading(bytes, length), reading, there);
    settings(what, bytes, length, there, 5000);
}

/* A trace on a heap block of just those bytes. */
static void trace(const char *what, const char *bytes, size_t length, size_t want)
{
    uint8_t *block = (uint8_t *)malloc(length);
    if (block == NULL) {
        puts("null: no memory");
        exit(2);
    }
    memcpy(block, bytes, length);
    settings(what, block, length, length, want);
    free(block);
}

/* The same on a heap block of just those bytes, so that valgrind sees one read outside it. */
static void real(const char *what, const char *bytes, size_t length, size_t parity, size_t check, size_t reading)
{
    uint8_t *block = (uint8_t *)malloc(length);
    if (block == NULL) {
        puts("null: no memory");
        exit(2);
    }
    memcpy(block, bytes, length);
    all(what, block, length, length, parity, check, reading);
    all("no bytes, behind a block", block + length, 0, 0, 0, 0, 0);
    free(block);
}

int main(void)
{
    setvbuf(stdout, NULL, _IONBF, 0); /* what failed is said, whatever comes after */
    all("(NULL, 0)", NULL, 0, 0, 0, 0, 0);
    /* the host's fault: no bytes all the same, and nothing is read */
    all("(NULL, 1)", NULL, 1, 0, 0, 0, 0);
    all("(NULL, 2)", NULL, 2, 0, 0, 0, 0);
    all("(NULL, 16)", NULL, 16, 0, 0, 0, 0);
    all("(NULL, all there is)", NULL, SIZE_MAX, 0, 0, 0, 0);
    real("one byte", "\x80", 1, 0x80, 0, 0);
    real("a word", "\x68\x05", 2, 0x6D, 0, 4096 + 2 * 1024 + 5);
    /* the trace 03E5 and eleven spaces */
    real("a message", "\x8B" "03E5" "           ", 16, 0x8B ^ '0' ^ '3' ^ 'E' ^ '5' ^ ' ', 1, 0);
    trace("a trace", "03E5" "           ", 15, 0);
    trace("a trace without its last space", "03E5" "          ", 14, 5000);
    trace("a trace with 7F in it", "03E5" "          \x7F", 15, 20015);
    trace("a trace with 1F at 3 and 80 at 2", "0\x80\x1F" "            ", 15, 20002);
    trace("a trace with 00 at 15", "03E5" "          \0", 15, 5015);
    trace("fifteen spaces", "               ", 15, 21000);
    printf("null: %u calls, %u failed\n", tried, failed);
    return failed != 0;
}
