/* The externals of block_file.v: blocks filled from readers and drained to writers. `fill` takes what there is, at least one byte
 * and up to the capacity; `fill_line` up to a line feed, which is taken, too. What the block had before is gone. If reading
 * fails the block has what came before. `drain` writes all bytes through to the file, so a full disk is told there. */

#define _POSIX_C_SOURCE 200809L

#include <stdbool.h>
#include <string.h>
#include <sys/types.h>

#include "block.h"
#include "common.h"
#include "file.h"
#include "lib_host.h"

/* Moves bytes that a reader has to the end of a block, up to `count` and to the block's room. */
static void take(struct lib_block *block, struct lib_reader *reader, size_t count)
{
    size_t room = block->capacity - block->length;
    size_t taken = count < room ? count : room;
    memcpy(block->bytes + block->length, reader->bytes + reader->next, taken);
    block->length += taken;
    reader->next += taken;
}

/* The answer for what a block has after the last load of a reader. */
static struct lib_filled filled_from(const struct lib_block *block, ssize_t loaded)
{
    struct lib_filled filled = {.which = lib_filled_Ended};
    if (loaded < 0) {
        filled.which = lib_filled_NotFilled;
        filled.NotFilled.value_0 = lib_error();
    } else if (block->length > 0) {
        filled.which = lib_filled_Filled;
        filled.Filled.value_0 = (long long) block->length;
    }
    return filled;
}

struct lib_filled lib_host_fill(struct lib_block *block, struct lib_reader *reader)
{
    ssize_t loaded = lib_reader_load(reader);
    block->length = 0;
    if (loaded > 0) {
        take(block, reader, (size_t) loaded);
    }
    return filled_from(block, loaded);
}

struct lib_filled lib_host_fill_line(struct lib_block *block, struct lib_reader *reader)
{
    ssize_t loaded = 1;
    bool is_whole = false;
    block->length = 0;
    while (!is_whole && block->length < block->capacity && (loaded = lib_reader_load(reader)) > 0) {
        const unsigned char *first = reader->bytes + reader->next;
        const unsigned char *line_feed = memchr(first, '\n', (size_t) loaded);
        take(block, reader, line_feed == NULL ? (size_t) loaded : (size_t) (line_feed - first) + 1);
        is_whole = block->bytes[block->length - 1] == '\n';
    }
    return filled_from(block, loaded);
}

struct lib_wrote lib_host_drain(struct lib_block *block, struct lib_writer *writer)
{
    struct lib_wrote wrote = {.which = lib_wrote_Wrote};
    if (!lib_writer_write(writer, block->bytes, block->length)) {
        wrote.which = lib_wrote_Failed;
        wrote.Failed.value_0 = lib_error();
    }
    return wrote;
}
