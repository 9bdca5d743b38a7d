/* What a freestanding build of an emitted program gets from its surroundings, such as a kernel: three functions, and a host. */

#ifndef VAULT_FREE_H
#define VAULT_FREE_H

#include <stddef.h>

#include "vault_host.h"

/* Memory for any object of this size in bytes; null if there is none. */
void *vault_allocate(size_t size);

/* Gives memory of `vault_allocate` back. */
void vault_deallocate(void *memory);

/* Ends the run, with a status of docs/COMMANDS.md and a last line, as `trap 1`, which is empty if memory ran out. It doesn't
 * return. */
#if defined(__GNUC__)
__attribute__((noreturn))
#endif
void vault_end(enum vault_status status, const char *line);

/* Runs the program from its `main` on, if VAULT_PROGRAM names one. It is for one thread at a time. */
void vault_run(void);

#endif
