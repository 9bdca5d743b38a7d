/* The externals of block.v: blocks of bytes, which stay with the host. A block has a capacity, which never changes, and a
 * length, from 0; its bytes are at the indices from 0 up to the length. A byte that is set at the length makes the block
 * longer by one. Of a number that is set as a byte the lowest 8 bits are taken. */

#define _POSIX_C_SOURCE 200809L

#include "block.h"

#include <errno.h>
#include <stdlib.h>

#include "common.h"
#include "lib_host.h"

enum { MOST_BYTES = 1 << 30 };

struct lib_made_block lib_host_make_block(long long capacity)
{
    struct lib_made_block made = {.which = lib_made_block_NoBlock};
    struct lib_block *block;
    errno = EINVAL;
    block = capacity < 1 || capacity > MOST_BYTES ? NULL : malloc(sizeof *block + (size_t) capacity);
    if (block == NULL) {
        made.NoBlock.value_0 = lib_error();
        return made;
    }
    block->capacity = (size_t) capacity;
    block->length = 0;
    made.which = lib_made_block_Block;
    made.Block.value_0 = block;
    return made;
}

long long lib_host_capacity_of(struct lib_block *block)
{
    return (long long) block->capacity;
}

long long lib_host_length(struct lib_block *block)
{
    return (long long) block->length;
}

struct lib_byte_found lib_host_byte_at(struct lib_block *block, long long index)
{
    struct lib_byte_found found = {.which = lib_byte_found_Outside};
    if (index >= 0 && (unsigned long long) index < block->length) {
        found.which = lib_byte_found_Found;
        found.Found.value_0 = block->bytes[index];
    }
    return found;
}

struct lib_byte_change lib_host_set_byte(struct lib_block *block, long long index, long long byte)
{
    struct lib_byte_change change = {.which = lib_byte_change_NoRoom};
    size_t place = (size_t) index;
    if (index >= 0 && place <= block->length && place < block->capacity) {
        block->bytes[place] = (unsigned char) (byte & 255);
        block->length += place == block->length;
        change.which = lib_byte_change_Set;
    }
    return change;
}

void lib_host_clear(struct lib_block *block)
{
    block->length = 0;
}

void lib_host_drop_block(struct lib_block *block)
{
    free(block);
}
