/* Reads files of numbers. */

#include "numbers.h"

#include <limits.h>
#include <stdbool.h>

static bool is_digit(int character)
{
    return character >= '0' && character <= '9';
}

static bool ends_word(int character)
{
    return character == ' ' || character == '\t' || character == '\r' || character == '\n' || character == EOF;
}

/* Reads digits, of which this is the first, and sees that a word ends after them. A number is built below zero, since
 * the least one has no counterpart above. */
static bool read_digits(FILE *file, int character, bool is_negative, long long *number)
{
    long long value = 0;
    if (!is_digit(character)) {
        return false;
    }
    for (; is_digit(character); character = getc(file)) {
        int digit = character - '0';
        if (value < (LLONG_MIN + digit) / 10) {
            return false;
        }
        value = value * 10 - digit;
    }
    if (!ends_word(character) || (!is_negative && value == LLONG_MIN)) {
        return false;
    }
    ungetc(character, file);
    *number = is_negative ? value : -value;
    return true;
}

enum numbers_next numbers_read(struct numbers *numbers, long long *number)
{
    int character = getc(numbers->file);
    bool is_negative;
    while (character == ' ' || character == '\t' || character == '\r') {
        character = getc(numbers->file);
    }
    if (character == EOF) {
        return NUMBERS_FILE_END;
    }
    if (character == '\n') {
        numbers->line++;
        return NUMBERS_LINE_END;
    }
    is_negative = character == '-';
    if (is_negative) {
        character = getc(numbers->file);
    }
    return read_digits(numbers->file, character, is_negative, number) ? NUMBERS_NUMBER : NUMBERS_BAD;
}
