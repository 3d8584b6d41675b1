/* A small host of the card: reads lines on standard input and answers each on
 * standard output.
 *
 *     parity HEX   ->  parity HH
 *     check HEX    ->  check 0, or check 1 for a good trace message
 *     read HEX     ->  read N
 *     settings HEX ->  settings N P: a label and a trace, the number by which
 *                      every call with them will be refused, 0 for none, and
 *                      the place of the character that it names, 0 for none
 *
 * HEX is any number of bytes, two hex digits each, none at all included, but
 * for `settings`, which has a label at least. A
 * line that is not understood is answered by `?` and its number, from 1. */
#include <stdio.h>
#include <string.h>

#include "card.h"

enum { LONGEST = 4096, LONGEST_LINE = 2 * LONGEST + 10 }; /* bytes that a line may stand for, and characters that it may have */

static int digit(int c)
{
    if (c >= '0' && c <= '9')
        return c - '0';
    if (c >= 'A' && c <= 'F')
        return c - 'A' + 10;
    if (c >= 'a' && c <= 'f')
        return c - 'a' + 10;
    return -1;
}

/* The bytes that a line's hex digits stand for; -1 if they are not whole bytes. */
static long bytes_of(const char *hex, uint8_t *bytes)
{
    size_t digits = strlen(hex);
    if (digits % 2 != 0 || digits / 2 > LONGEST)
        return -1;
    for (size_t i = 0; i < digits / 2; i++) {
        int high = digit((unsigned char)hex[2 * i]);
        int low = digit((unsigned char)hex[2 * i + 1]);
        if (high < 0 || low < 0)
            return -1;
        bytes[i] = (uint8_t)(high * 16 + low);
    }
    return (long)(digits / 2);
}

/* What stands after the word and a blank; NULL if the line has another word. */
static const char *after(const char *line, const char *word)
{
    size_t n = strlen(word);
    if (strncmp(line, word, n) != 0)
        return NULL;
    if (line[n] == '\0')
        return line + n;
    return line[n] == ' ' ? line + n + 1 : NULL;
}

static bool answer(const char *line)
{
    static uint8_t bytes[LONGEST];
    const char *hex;
    long length;

    if ((hex = after(line, "parity")) != NULL && (length = bytes_of(hex, bytes)) >= 0)
        printf("parity %02X\n", (unsigned)card_parity(bytes, (size_t)length));
    else if ((hex = after(line, "check")) != NULL && (length = bytes_of(hex, bytes)) >= 0)
        printf("check %d\n", card_trace_check(bytes, (size_t)length) ? 1 : 0);
    else if ((hex = after(line, "read")) != NULL && (length = bytes_of(hex, bytes)) >= 0)
        printf("read %u\n", (unsigned)card_word_reading(bytes, (size_t)length));
    else if ((hex = after(line, "settings")) != NULL && (length = bytes_of(hex, bytes)) >= 1) {
        struct card_refusal refusal = card_settings_check(bytes[0], bytes + 1, (size_t)length - 1);
        printf("settings %u %zu\n", (unsigned)refusal.number, refusal.place);
    } else
        return false;
    return true;
}

/* The next line without its end, or -1 where there is none; LONGEST_LINE + 1 for a longer one, of which the rest is passed over. */
static long next_line(char *line)
{
    long n = 0;
    int c;
    while ((c = getchar()) != EOF && c != '\n') {
        if (n < LONGEST_LINE)
            line[n] = c == '\0' ? '?' : (char)c; /* no line that is understood has a 00 in it */
        if (n <= LONGEST_LINE)
            n++;
    }
    if (c == EOF && n == 0)
        return -1;
    line[n < LONGEST_LINE ? n : LONGEST_LINE] = '\0';
    return n;
}

int main(void)
{
    static char line[LONGEST_LINE + 1];
    unsigned long number = 0;
    long n;

    while ((n = next_line(line)) >= 0) {
        number++;
        if (n > LONGEST_LINE || !answer(line))
            printf("? %lu\n", number);
    }
    return 0;
}
