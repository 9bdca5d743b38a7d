/* What stands between a program and its host. One host is linked into a program: it defines the three functions that begin
 * with `vault_host`. The rest is for its use. */

#ifndef VAULT_HOST_H
#define VAULT_HOST_H

#include <stdbool.h>

enum { VAULT_ARGUMENTS = 16 };

/* An argument: a number (of a bool 1 or 0), or an object, which goes by its number. */
struct vault_argument {
    bool is_object;
    long long number;
};

/* A call of an external. */
struct vault_call {
    const char *name;
    int count;
    struct vault_argument arguments[VAULT_ARGUMENTS];
    long long next_object; /* the number of the first object that the answer makes; of a second one it is the next */
};

/* Called once, before the program begins. */
void vault_host_start(void);

/* Carries out a call. False where there is no answer, which ends the run. */
bool vault_host_ask(const struct vault_call *call);

/* The next number of the answer to that call; false where it has no more. docs/LANGUAGE.md has the order of the numbers.
 * The runtime ends the run where they don't keep the external's clause, and keeps account of the objects that are out. */
bool vault_host_next(long long *number);

/* Within a call: an object that the call hands over never comes back, so its memory is given back as it goes out. */
void vault_host_forget(long long object);

/* How a program ends: the statuses of docs/COMMANDS.md. */
enum vault_status {
    VAULT_DONE = 0,
    VAULT_NOT_WRITTEN = 3,
    VAULT_NO_MEMORY = 4,
    VAULT_BAD_NUMBERS = 6,
    VAULT_TRAP = 9,
    VAULT_BUDGET = 10,
    VAULT_NO_ANSWER = 11,
    VAULT_UNDEFINED = 13
};

/* Called by vault_stop in place of ending the process, where it is set; it doesn't return, but in a
 * freestanding build, where vault_end follows. The line is empty where memory ran out. A library sets it, so that a call ends and not the process. */
extern void (*vault_on_stop)(enum vault_status status, const char *line);

/* Ends the run with this last line. */
#if defined(__GNUC__)
__attribute__((noreturn, format(printf, 2, 3)))
#endif
void vault_stop(enum vault_status status, const char *line, ...);

#endif
