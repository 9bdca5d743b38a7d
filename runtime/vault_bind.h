/* What the files of `vault bind host` stand on: a table of what the host has for objects, and the numbers of an answer. */

#ifndef VAULT_BIND_H
#define VAULT_BIND_H

#include <stdbool.h>
#include <stddef.h>

#include "vault_host.h"

/* An external: its name, and the function that carries out a call of it. False where there is no answer. */
struct vault_external {
    const char *name;
    bool (*carry_out)(const struct vault_call *call);
};

/* The externals of the program, in the file that `vault bind host` writes. */
extern const struct vault_external vault_externals[];
extern const int vault_external_count;

/* What the host has for an object, by the object's number; null unless it was set. */
void *vault_thing(long long object);

/* Sets what the host has for an object; null for nothing. */
void vault_set_thing(long long object, void *thing);

/* Within a call: the object that it hands over never comes back. */
void vault_gone(long long object);

/* One more number of the answer to the call under way. */
void vault_answer(long long number);

#endif
