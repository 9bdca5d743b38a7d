/* Readers and writers of file.v, for the C files that move bytes to and from them. */

#ifndef LIB_FILE_H
#define LIB_FILE_H

#include <stdbool.h>
#include <stddef.h>
#include <sys/types.h>

enum { LIB_FILE_BYTES = 16384 };

struct lib_reader {
    int descriptor;
    size_t next; /* of the bytes: the first one that wasn't given yet */
    size_t count;
    unsigned char bytes[LIB_FILE_BYTES];
};

struct lib_writer {
    int descriptor;
    size_t count;
    unsigned char bytes[LIB_FILE_BYTES];
};

/* Makes sure that a reader has bytes that weren't given yet: their number, 0 at the end of the file, -1 with `errno`. */
ssize_t lib_reader_load(struct lib_reader *reader);

/* Writes what a writer keeps; false with `errno` if that fails. */
bool lib_writer_flush(struct lib_writer *writer);

/* Writes all of these bytes, after those that the writer keeps; false with `errno` if that fails. */
bool lib_writer_write(struct lib_writer *writer, const unsigned char *bytes, size_t count);

#endif
