/* What the files of `vault bind library` stand on: handles of objects, and calls that end without the process. */

#ifndef VAULT_LIBRARY_H
#define VAULT_LIBRARY_H

#ifndef VAULT_FREE
#include <setjmp.h>
#endif
#include <stdbool.h>

#include "vault_rt.h"

/* An object that the caller holds. */
struct vault_object {
    vr_ref block;        /* null where the place is free */
    unsigned states;     /* in one of which it is */
    int type;            /* the number of its type */
    unsigned generation; /* how often the place was given to another object */
};

/* Begins the run. */
void vault_library_begin(void);

/* Begins a call; false where the run has ended or hasn't begun. */
bool vault_library_enter(const char *function);

/* Ends a call that came back. */
void vault_library_leave(void);

/* Refuses the call for this reason; false. */
bool vault_library_refuse(const char *why);

/* Why the last call was refused, or how the run ended in it; null if it came back. */
const char *vault_library_refused(void);

/* The object of a handle; null unless it is held, of this type, and in these states alone. */
struct vault_object *vault_library_object(unsigned long long handle, int type, unsigned states);

/* A handle of a new object. */
unsigned long long vault_library_add(vr_ref block, int type, unsigned states);

/* The object isn't held any more, and its handle is refused from now on. */
void vault_library_drop(struct vault_object *object);

/* Where a call goes on if the run ends in it; a freestanding build has no such place. */
#ifdef VAULT_FREE
#define VAULT_LIBRARY_ENDED() false
#else
extern jmp_buf vault_library_end;
#define VAULT_LIBRARY_ENDED() (setjmp(vault_library_end) != 0)
#endif

/* For a text that keeps the states of its objects, NAME_states.c: sets the state of an object, by its number; gives it, as a set; gives what vr_pick gave last; and has the
 * states that the answer under way chose. The state of a new object has the number 0. */
enum { VAULT_CHOSEN = 64 };
void vault_set_state(vr_ref block, long long state);
unsigned vault_state(vr_ref block);
long long vault_picked(void);
extern long long vault_chosen[VAULT_CHOSEN];

#endif
