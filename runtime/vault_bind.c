/* The host's side of the runtime, over the functions that `vault bind host` writes. */

#include "vault_bind.h"

#include <stdlib.h>
#include <string.h>

/* An answer has a state for each key, and then a case with its keys and what it carries. */
enum { MOST_NUMBERS = 256, FIRST_PLACES = 256 };

/* What the host has for an object. */
struct place {
    long long object;
    void *thing; /* null where the place is free */
};

/* A hash table with open addressing: an object is at the place of its number's last bits, or after it. Of an object that went to the host for good nothing is kept. */
static struct {
    struct place *places;
    size_t count; /* a power of 2, or 0 */
    size_t used;  /* at most half of them */
} table;

static struct {
    long long numbers[MOST_NUMBERS];
    int count;
    int read;
} answer;

static size_t first_place(long long object)
{
    return (size_t) object & (table.count - 1);
}

static size_t next_place(size_t place)
{
    return (place + 1) & (table.count - 1);
}

/* Where an object is, or the free place where it would be. */
static struct place *find(long long object)
{
    size_t place = first_place(object);
    while (table.places[place].thing != NULL && table.places[place].object != object) {
        place = next_place(place);
    }
    return &table.places[place];
}

static void grow(void)
{
    struct place *old = table.places;
    size_t count = table.count;
    table.count = count == 0 ? FIRST_PLACES : 2 * count;
    table.places = calloc(table.count, sizeof *table.places);
    if (table.places == NULL) {
        vault_stop(VAULT_NO_MEMORY, "%s", "");
    }
    for (size_t i = 0; i < count; i++) {
        if (old[i].thing != NULL) {
            *find(old[i].object) = old[i];
        }
    }
    free(old);
}

/* Frees a place, and moves those behind it that aren't found any more across a free one. */
static void empty(size_t hole)
{
    table.used--;
    for (size_t place = next_place(hole); table.places[place].thing != NULL; place = next_place(place)) {
        size_t way = (place - first_place(table.places[place].object)) & (table.count - 1);
        if (way >= ((place - hole) & (table.count - 1))) {
            table.places[hole] = table.places[place];
            hole = place;
        }
    }
    table.places[hole].thing = NULL;
}

void *vault_thing(long long object)
{
    return table.count == 0 ? NULL : find(object)->thing;
}

void vault_set_thing(long long object, void *thing)
{
    struct place *place;
    if (2 * (table.used + 1) > table.count) {
        grow();
    }
    place = find(object);
    if (thing == NULL) {
        if (place->thing != NULL) {
            empty((size_t) (place - table.places));
        }
        return;
    }
    table.used += place->thing == NULL;
    *place = (struct place) {object, thing};
}

void vault_gone(long long object)
{
    vault_set_thing(object, NULL);
    vault_host_forget(object);
}

void vault_answer(long long number)
{
    if (answer.count < MOST_NUMBERS) {
        answer.numbers[answer.count++] = number;
    }
}

bool vault_host_ask(const struct vault_call *call)
{
    answer.count = answer.read = 0;
    for (int i = 0; i < vault_external_count; i++) {
        if (strcmp(call->name, vault_externals[i].name) == 0) {
            return vault_externals[i].carry_out(call);
        }
    }
    return false;
}

bool vault_host_next(long long *number)
{
    if (answer.read == answer.count) {
        return false;
    }
    *number = answer.numbers[answer.read++];
    return true;
}
