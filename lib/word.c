/* The externals of word.v: the words of the command line, from 1. A number is decimal digits, after a `-` or not, that 64
 * bits with a sign hold. */

#define _POSIX_C_SOURCE 200809L

#include <errno.h>
#include <stdlib.h>

#include "common.h"
#include "lib_host.h"

long long lib_host_count_words(void)
{
    long long count = 0;
    while (lib_word(count + 1) != NULL) {
        count++;
    }
    return count;
}

struct lib_number_word lib_host_number_of_word(long long word)
{
    struct lib_number_word found = {.which = lib_number_word_NoNumber};
    const char *text = lib_word(word);
    const char *digits = text != NULL && *text == '-' ? text + 1 : text;
    char *end;
    long long number;
    if (digits == NULL || *digits < '0' || *digits > '9') {
        return found;
    }
    errno = 0;
    number = strtoll(text, &end, 10);
    if (*end == '\0' && errno == 0) {
        found.which = lib_number_word_Number;
        found.Number.value_0 = number;
    }
    return found;
}
