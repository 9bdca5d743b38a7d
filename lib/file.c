/* The externals of file.v, over descriptors. Files are named by the words of the command line, from 1. Reads and writes go
 * on after a signal, and a write that took a part of the bytes goes on with the others. */

#define _POSIX_C_SOURCE 200809L

#include "file.h"

#include <errno.h>
#include <fcntl.h>
#include <stdio.h>
#include <stdlib.h>
#include <string.h>
#include <unistd.h>

#include "common.h"
#include "lib_host.h"

enum { CREATE = O_WRONLY | O_CREAT | O_TRUNC | O_CLOEXEC, MODE = 0666, LONGEST_NUMBER = 24 };

/* ---- bytes */

ssize_t lib_reader_load(struct lib_reader *reader)
{
    ssize_t count = 0;
    if (reader->next < reader->count) {
        return (ssize_t) (reader->count - reader->next);
    }
    do {
        count = read(reader->descriptor, reader->bytes, sizeof reader->bytes);
    } while (count < 0 && errno == EINTR);
    reader->next = 0;
    reader->count = count > 0 ? (size_t) count : 0;
    return count;
}

/* Writes all bytes; false with `errno` if that fails. */
static bool write_all(int descriptor, const unsigned char *bytes, size_t count)
{
    while (count > 0) {
        ssize_t written = write(descriptor, bytes, count);
        if (written < 0 && errno != EINTR) {
            return false;
        }
        if (written > 0) {
            bytes += written;
            count -= (size_t) written;
        }
    }
    return true;
}

bool lib_writer_flush(struct lib_writer *writer)
{
    size_t count = writer->count;
    writer->count = 0;
    return write_all(writer->descriptor, writer->bytes, count);
}

bool lib_writer_write(struct lib_writer *writer, const unsigned char *bytes, size_t count)
{
    return lib_writer_flush(writer) && write_all(writer->descriptor, bytes, count);
}

/* ---- readers */

/* A reader of a descriptor, or the error; -1 stands for a call that failed. */
static struct lib_opened opened_from(int descriptor)
{
    struct lib_opened opened = {.which = lib_opened_NotOpened};
    struct lib_reader *reader = descriptor < 0 ? NULL : malloc(sizeof *reader);
    if (reader == NULL) {
        opened.NotOpened.value_0 = lib_error();
        if (descriptor >= 0) {
            close(descriptor);
        }
        return opened;
    }
    reader->descriptor = descriptor;
    reader->next = reader->count = 0;
    opened.which = lib_opened_Reader;
    opened.Reader.value_0 = reader;
    return opened;
}

struct lib_opened lib_host_open_word(long long word)
{
    const char *name = lib_word(word);
    return opened_from(name == NULL ? -1 : open(name, O_RDONLY | O_CLOEXEC));
}

struct lib_opened lib_host_open_input(void)
{
    return opened_from(fcntl(STDIN_FILENO, F_DUPFD_CLOEXEC, 0));
}

struct lib_got lib_host_get(struct lib_reader *reader)
{
    struct lib_got got = {.which = lib_got_End};
    ssize_t count = lib_reader_load(reader);
    if (count > 0) {
        got.which = lib_got_Byte;
        got.Byte.value_0 = reader->bytes[reader->next++];
    } else if (count < 0) {
        got.which = lib_got_Unread;
        got.Unread.value_0 = lib_error();
    }
    return got;
}

void lib_host_close_reader(struct lib_reader *reader)
{
    close(reader->descriptor);
    free(reader);
}

/* ---- writers */

/* A writer to a descriptor, or the error; -1 stands for a call that failed. */
static struct lib_created created_from(int descriptor)
{
    struct lib_created created = {.which = lib_created_NotCreated};
    struct lib_writer *writer = descriptor < 0 ? NULL : malloc(sizeof *writer);
    if (writer == NULL) {
        created.NotCreated.value_0 = lib_error();
        if (descriptor >= 0) {
            close(descriptor);
        }
        return created;
    }
    writer->descriptor = descriptor;
    writer->count = 0;
    created.which = lib_created_Writer;
    created.Writer.value_0 = writer;
    return created;
}

struct lib_created lib_host_create_word(long long word)
{
    const char *name = lib_word(word);
    return created_from(name == NULL ? -1 : open(name, CREATE, MODE));
}

/* The file's name is the word, a point and the number. */
struct lib_created lib_host_create_numbered(long long word, long long number)
{
    const char *name = lib_word(word);
    size_t size = name == NULL ? 0 : strlen(name) + LONGEST_NUMBER;
    char *path = name == NULL ? NULL : malloc(size);
    struct lib_created created;
    if (path != NULL) {
        snprintf(path, size, "%s.%lld", name, number);
    }
    created = created_from(path == NULL ? -1 : open(path, CREATE, MODE));
    free(path);
    return created;
}

/* Whether the byte is kept, and what was kept before is written if there was no place. */
static bool keep(struct lib_writer *writer, unsigned char byte)
{
    if (writer->count == sizeof writer->bytes && !lib_writer_flush(writer)) {
        return false;
    }
    writer->bytes[writer->count++] = byte;
    return true;
}

struct lib_wrote lib_host_put(struct lib_writer *writer, long long byte)
{
    struct lib_wrote wrote = {.which = lib_wrote_Wrote};
    if (!keep(writer, (unsigned char) (byte & 255))) {
        wrote.which = lib_wrote_Failed;
        wrote.Failed.value_0 = lib_error();
    }
    return wrote;
}

/* A signal doesn't keep the descriptor open, so EINTR is no failure of `close`. */
long long lib_host_finish(struct lib_writer *writer)
{
    int error = lib_writer_flush(writer) ? 0 : lib_error();
    if (close(writer->descriptor) != 0 && errno != EINTR && error == 0) {
        error = lib_error();
    }
    free(writer);
    return error;
}

void lib_host_discard(struct lib_writer *writer)
{
    close(writer->descriptor);
    free(writer);
}
