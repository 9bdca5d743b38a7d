/* Handles of objects, and calls that end without the process. A handle has the place of its object, from 1, and above it the place's generation: so a handle of an
 * object that is gone is refused, also where its place has another object. With VAULT_FREE it needs no C library, as vault_free.c. */

#include "vault_library.h"

#include <limits.h>
#include <stddef.h>

#ifdef VAULT_FREE
#include "vault_free.h"
#else
#include <stdio.h>
#include <stdlib.h>

#include "vault_host.h"

jmp_buf vault_library_end;
#endif

enum { PLACE_BITS = 32, FIRST_PLACES = 64 };

long long vault_chosen[VAULT_CHOSEN];

static struct {
    struct vault_object *places;
    size_t count;
    size_t next_free; /* no place before it is free */
    bool has_begun;
    bool has_ended;
    char refused[160]; /* empty where the last call came back */
} library;

/* Says why, in two parts. */
static void tell(const char *first, const char *second)
{
    size_t length = 0;
    for (; length + 1 < sizeof library.refused && (*first != '\0' || *second != '\0'); length++) {
        library.refused[length] = *first != '\0' ? *first++ : *second++;
    }
    library.refused[length] = '\0';
}

/* The run has ended in a call: so the call ends, and each later one is refused. In a freestanding build it ends as vault_end says. */
static void end_call(enum vault_status status, const char *line)
{
    library.has_ended = true;
    tell(status == VAULT_NO_MEMORY ? "out of memory" : line, "");
#ifndef VAULT_FREE
    longjmp(vault_library_end, 1);
#endif
}

void vault_library_begin(void)
{
    if (!library.has_begun) {
        library.has_begun = true;
#ifndef VAULT_FREE
        vault_start(false);
#endif
        vault_on_stop = end_call;
    }
}

bool vault_library_enter(const char *function)
{
    if (!library.has_begun) {
        tell(function, ": the library hasn't begun");
        return false;
    }
    if (!library.has_ended) {
        library.refused[0] = '\0';
    }
    return !library.has_ended;
}

void vault_library_leave(void)
{
#ifndef VAULT_FREE
    fflush(stdout);
#endif
}

bool vault_library_refuse(const char *why)
{
    tell(why, "");
    return false;
}

const char *vault_library_refused(void)
{
    return library.refused[0] == '\0' ? NULL : library.refused;
}

struct vault_object *vault_library_object(unsigned long long handle, int type, unsigned states)
{
    size_t place = (size_t) (handle & UINT_MAX);
    struct vault_object *object;
    if (place == 0 || place > library.count) {
        return NULL;
    }
    object = &library.places[place - 1];
    if (object->block == vr_null || object->generation != (unsigned) (handle >> PLACE_BITS)) {
        return NULL;
    }
    return object->type == type && (object->states & ~states) == 0 ? object : NULL;
}

#ifdef VAULT_FREE
static struct vault_object *room(size_t count)
{
    struct vault_object *places = vault_allocate(count * sizeof *places);
    if (places == NULL) {
        end_call(VAULT_NO_MEMORY, "");
        vault_end(VAULT_NO_MEMORY, "");
    }
    return places;
}

static void give_back(struct vault_object *places)
{
    if (places != NULL) {
        vault_deallocate(places);
    }
}
#else
static struct vault_object *room(size_t count)
{
    struct vault_object *places = malloc(count * sizeof *places);
    if (places == NULL) {
        vault_stop(VAULT_NO_MEMORY, "%s", "");
    }
    return places;
}

static void give_back(struct vault_object *places)
{
    free(places);
}
#endif

/* Makes room for more objects. The objects of a call under way aren't used any more when one is added. */
static void grow(void)
{
    size_t count = library.count == 0 ? FIRST_PLACES : 2 * library.count;
    struct vault_object *places = room(count);
    for (size_t i = 0; i < count; i++) {
        struct vault_object none = {vr_null, 0, 0, 0};
        places[i] = i < library.count ? library.places[i] : none;
    }
    give_back(library.places);
    library.places = places;
    library.count = count;
}

unsigned long long vault_library_add(vr_ref block, int type, unsigned states)
{
    struct vault_object *object;
    while (library.next_free < library.count && library.places[library.next_free].block != vr_null) {
        library.next_free++;
    }
    if (library.next_free == library.count) {
        grow();
    }
    object = &library.places[library.next_free];
    object->block = block;
    object->states = states;
    object->type = type;
    return (unsigned long long) object->generation << PLACE_BITS | (library.next_free + 1);
}

void vault_library_drop(struct vault_object *object)
{
    size_t place = (size_t) (object - library.places);
    object->block = vr_null;
    object->generation++;
    if (place < library.next_free) {
        library.next_free = place;
    }
}
