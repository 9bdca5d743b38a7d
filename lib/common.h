/* What the C files of lib/ share: the words of the command line, errors, and the clock. */

#ifndef LIB_COMMON_H
#define LIB_COMMON_H

/* The word of the command line with this number, from 1; null with `errno` EINVAL if there is none. */
const char *lib_word(long long word);

/* The error of the call before, `errno`; EIO if it told none. */
int lib_error(void);

/* Milliseconds of a clock that is never set back, from some moment before the program began. */
long long lib_milliseconds(void);

/* The moment that is so many milliseconds from now, at most INT_MAX; -1, which never comes, for a negative number. */
long long lib_deadline(long long wait);

/* How many milliseconds there are until a moment, from 0; -1 for one that never comes. It is what `poll` takes. */
int lib_left(long long deadline);

#endif
