/* What a C file of `vaultc emit` includes: blocks, and the primitives of docs/C.md. */

#ifndef VAULT_RT_H
#define VAULT_RT_H

#include <stdbool.h>

/* A reference to a block. It may outlive the block: an external may be told of an object that is gone, and an answer may
 * try to bring one back. So the record of a dead block stays, with its number. Its cells and links are given back. */
typedef struct vr_block *vr_ref;

struct vr_block {
    long long *n;         /* the cells for numbers */
    vr_ref *r;            /* the cells for references */
    long long number;     /* from 1, in the order in which blocks are made */
    struct vr_body *body; /* the cells, and links to other blocks; null once the block is dead */
};

#define vr_null ((vr_ref) 0)

/* Blocks. */
vr_ref vr_new(long long numbers, long long references);
void vr_own(vr_ref child, vr_ref parent);
void vr_disown(vr_ref child);
vr_ref vr_parent(vr_ref child);
void vr_release(vr_ref block);

/* Traps, printing and input. */
#if defined(__GNUC__)
__attribute__((noreturn))
#endif
void vr_trap(long long kind);
void vr_print(long long number);
long long vr_read(void);
long long vr_more(void);

/* Registers for results that are more than one value. */
void vr_put_n(long long index, long long number);
long long vr_get_n(long long index);
void vr_put_p(long long index, vr_ref block);
vr_ref vr_get_p(long long index);

/* Calls of the host. */
void vr_call(const char *name);
void vr_arg_n(long long number);
void vr_arg_p(vr_ref block);
void vr_ask(void);
long long vr_int(void);
long long vr_pick(long long mask);
void vr_out(vr_ref block);
void vr_back(vr_ref block);
void vr_end(void);

/* For vault_main.c: before the program's first function, and after it. Budgets are taken from the environment, VAULT_FUEL,
 * VAULT_HEAP and VAULT_DEPTH; without one there is no such bound. A text that wasn't instrumented counts no fuel and no
 * depth, so there the two are refused. */
void vault_start(bool is_instrumented);
int vault_done(void);

#endif
