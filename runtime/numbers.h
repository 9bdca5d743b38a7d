/* Files of decimal numbers of 64 bits, as docs/COMMANDS.md has them: on each line any, with blanks between them. */

#ifndef NUMBERS_H
#define NUMBERS_H

#include <stdio.h>

struct numbers {
    FILE *file;
    long long line; /* the one that is read, from 1 */
};

enum numbers_next { NUMBERS_NUMBER, NUMBERS_LINE_END, NUMBERS_FILE_END, NUMBERS_BAD };

/* Reads up to the next number, or the end of the line, which is taken. What is bad is a word that is no such number. */
enum numbers_next numbers_read(struct numbers *numbers, long long *number);

#endif
