/* Blocks of block.v, for the C files that move bytes to and from them. */

#ifndef LIB_BLOCK_H
#define LIB_BLOCK_H

#include <stddef.h>

struct lib_block {
    size_t capacity;
    size_t length; /* at most the capacity */
    unsigned char bytes[];
};

#endif
